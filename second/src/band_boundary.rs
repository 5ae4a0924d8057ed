//! The C boundary's band under test: many calls, each compared with this program's
//! own band, byte for byte.

use crate::band_calls::{some_call, Call};
use crate::band_kinds::{Kinds, Outcome};
use crate::lending::{compare_calls, Compared, Guards};

/// The form of the function: w, p, q, path and its length, columns, rows, first_row,
/// n_rows, what is lent and its length, stride.
pub type Function = unsafe extern "C" fn(
    u64,
    u64,
    u64,
    *const u8,
    usize,
    u64,
    u64,
    u64,
    u64,
    *mut u8,
    usize,
    u64,
) -> u64;

/// Makes many calls. The line for a full agreement, or the first difference with the
/// whole call.
pub fn test(function: Function, count: u64, seed: u64, guards: Guards) -> Result<String, String> {
    // Sound as far as the function keeps to what it is lent.
    let foreign = |call: &Call, path, path_len, bytes, bytes_len| unsafe {
        function(
            call.setting.w,
            call.setting.p,
            call.setting.q,
            path,
            path_len,
            call.columns,
            call.rows,
            call.first_row,
            call.n_rows,
            bytes,
            bytes_len,
            call.stride,
        )
    };
    let mut kinds = Kinds::default();
    let (mut literal, mut literal_black) = (0, 0);
    let equal = |call: &Call, literally: bool, compared: Compared| {
        let outcome = Outcome {
            call,
            answer: compared.answer,
            before: &compared.before,
            after: &compared.after,
        };
        kinds.count(&outcome);
        literal += u64::from(literally);
        literal_black += u64::from(literally && outcome.changed());
    };
    compare_calls(count, seed, guards, some_call, foreign, equal)?;
    Ok(format!(
        "bands: {count}; {kinds}; {literal} compared with the literal way, {literal_black} of them \
         with pixels that become black, and the others with the fast way: all equal"
    ))
}

#[cfg(test)]
mod tests {
    use super::*;
    use crate::band::Request;
    use crate::fast::Drawer;
    use crate::lending::in_one_number;
    use crate::row::{done, refused};
    use crate::setting::Setting;
    use crate::side_faults::*;
    use crate::sweep::{centre, Point};

    /// Ways to be wrong, beside those of the sides. `GOOD` is none.
    /// `tests/band_faults.c` has others.
    const GOOD: u8 = 0;
    const ROOM_FIRST: u8 = 5;
    const ROWS_AFTER_COORDINATES: u8 = 6;
    const END_WRAPS: u8 = 7;
    const LENGTH_WRAPS: u8 = 8;
    const LAST_ROW_WITHOUT_PADDING: u8 = 9;
    const NO_ROWS_IS_DONE: u8 = 10;
    const SPARE_BITS_ARE_PIXELS: u8 = 11;
    const WRITES_BEFORE_THE_START: u8 = 12;
    const WRITES_PAST_THE_END: u8 = 13;
    const CHANGES_THE_PATH: u8 = 14;

    /// Lays the band under a rule of its own for the sides that are kept; only of
    /// small calls, since each pixel is decided by itself.
    fn lay_if_kept(request: &Request, bytes: &mut [u8], kept: fn(Point) -> bool) {
        let sweeps = sweeps(&request.setting, request.path);
        for i in 0..request.n_rows {
            let row = request.first_row + request.n_rows - 1 - i;
            for column in 0..request.columns {
                let x = centre(column as i128, row as i128);
                if sweeps.iter().any(|sweep| sweep.black_if_kept(x, kept)) {
                    bytes[(i * request.stride + column / 8) as usize] |= 128 >> (column % 8);
                }
            }
        }
    }

    unsafe extern "C" fn function<const FAULT: u8>(
        w: u64,
        p: u64,
        q: u64,
        path: *const u8,
        path_length: usize,
        columns: u64,
        rows: u64,
        first_row: u64,
        n_rows: u64,
        lent: *mut u8,
        length: usize,
        stride: u64,
    ) -> u64 {
        let bytes: &mut [u8] = match length {
            0 => &mut [],
            _ => std::slice::from_raw_parts_mut(lent, length),
        };
        let mut request = Request {
            setting: Setting::new(w, p, q),
            path: match path_length {
                0 => &[],
                _ => std::slice::from_raw_parts(path, path_length),
            },
            columns,
            rows,
            first_row,
            n_rows,
            stride,
        };
        let mut drawer = Drawer::default();
        let before = bytes.to_vec();
        let mut answer = drawer.band(&request, bytes);
        let good = answer.refusal == 0;
        match FAULT {
            ROOM_FIRST if length == 0 => answer = refused(7, 0),
            ROWS_AFTER_COORDINATES if answer.refusal == 5 => {
                (request.first_row, request.n_rows) = (0, 1);
                let other = drawer.band(&request, &mut []);
                if other.refusal == 3 {
                    answer = other;
                }
            }
            END_WRAPS if answer.refusal == 5 && n_rows > 0 => {
                if first_row.wrapping_add(n_rows) <= rows {
                    answer = done(0);
                }
            }
            LENGTH_WRAPS if answer.refusal == 7 && stride >= columns.div_ceil(8) => {
                if stride.wrapping_mul(n_rows) <= length as u64 {
                    answer = done(n_rows as usize);
                }
            }
            LAST_ROW_WITHOUT_PADDING if answer.refusal == 7 && stride >= columns.div_ceil(8) => {
                let needed = stride as u128 * (n_rows as u128 - 1) + columns.div_ceil(8) as u128;
                if needed <= length as u128 {
                    answer = done(n_rows as usize);
                }
            }
            NO_ROWS_IS_DONE if answer.refusal == 5 && n_rows == 0 && first_row <= rows => {
                answer = done(0);
            }
            SPARE_BITS_ARE_PIXELS if good && columns % 8 != 0 => {
                request.columns = columns.next_multiple_of(8);
                drawer.band(&request, bytes);
            }
            WRITES_BEFORE_THE_START if good => *lent.sub(1) ^= 1,
            WRITES_PAST_THE_END if good => *lent.add(length) ^= 1,
            CHANGES_THE_PATH if good => *path.cast_mut() ^= 1,
            _ => {}
        }
        if let Some(kept) = rule(FAULT) {
            if good && columns * n_rows < 1_000 && path_length < 80 {
                bytes.copy_from_slice(&before);
                lay_if_kept(&request, bytes, kept);
            }
        }
        in_one_number(answer)
    }

    #[test]
    fn what_is_right_passes() {
        let line = test(function::<GOOD>, 3_000, 1, Guards::Bytes).unwrap();
        assert!(line.ends_with("all equal"), "{line}");
        assert!(test(function::<GOOD>, 500, 2, Guards::None).is_ok());
    }

    #[test]
    fn what_is_wrong_is_caught() {
        let caught = |function: Function| {
            let complaint = test(function, 3_000, 1, Guards::Bytes).unwrap_err();
            assert!(complaint.contains("zimarolfo_band"), "{complaint}");
        };
        caught(function::<KEEPS_LEFT_SIDES>);
        caught(function::<KEEPS_FLAT_BOTTOMS>);
        caught(function::<KEEPS_ALL_SIDES>);
        caught(function::<DROPS_FLAT_SIDES>);
        caught(function::<ROOM_FIRST>);
        caught(function::<ROWS_AFTER_COORDINATES>);
        caught(function::<END_WRAPS>);
        caught(function::<LENGTH_WRAPS>);
        caught(function::<LAST_ROW_WITHOUT_PADDING>);
        caught(function::<NO_ROWS_IS_DONE>);
        caught(function::<SPARE_BITS_ARE_PIXELS>);
        caught(function::<WRITES_BEFORE_THE_START>);
        caught(function::<WRITES_PAST_THE_END>);
        caught(function::<CHANGES_THE_PATH>);
    }
}
