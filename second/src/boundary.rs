//! The C boundary under test: many calls, each compared with this program's own
//! row answer, byte for byte. What is lent stands between guard bytes.

use crate::calls::{some_call, Call};
use crate::kinds::{Kinds, Outcome};
use crate::lending::{compare_calls, Compared, Guards};

/// The form of both functions: w, p, q, path and its length, columns, rows,
/// row, what is lent and its length.
pub type Function =
    unsafe extern "C" fn(u64, u64, u64, *const u8, usize, u64, u64, u64, *mut u8, usize) -> u64;

/// Makes many calls. The line for a full agreement, or the first difference
/// with the whole call.
pub fn test(
    row: Function,
    packed: Function,
    count: u64,
    seed: u64,
    guards: Guards,
) -> Result<String, String> {
    // Sound as far as the functions keep to what they are lent.
    let foreign = |call: &Call, path, path_len, room, room_len| unsafe {
        let function = if call.packed { packed } else { row };
        function(
            call.setting.w,
            call.setting.p,
            call.setting.q,
            path,
            path_len,
            call.columns,
            call.rows,
            call.row,
            room,
            room_len,
        )
    };
    let mut refusals = [0u64; 8];
    let mut kinds = Kinds::default();
    let (mut rows, mut with_black, mut large, mut fast) = (0, 0, 0, 0);
    let equal = |call: &Call, literally: bool, compared: Compared| {
        let Compared { answer, after, .. } = compared;
        let outcome = Outcome {
            call,
            answer,
            lent: &after,
        };
        kinds.count(&outcome);
        refusals[answer.refusal as usize] += 1;
        rows += u64::from(!call.packed);
        with_black += u64::from(outcome.black());
        large += u64::from(call.is_large());
        fast += u64::from(!literally);
    };
    compare_calls(count, seed, guards, some_call, foreign, equal)?;
    let counts: Vec<String> = [0, 1, 2, 3, 4, 5, 7]
        .iter()
        .map(|&refusal| format!("{refusal}: {}", refusals[refusal]))
        .collect();
    Ok(format!(
        "boundary: {rows} rows and {} packed rows, {with_black} with black pixels; refusal {}; {kinds}; \
         {large} large ones, {fast} of them compared with the fast way: all equal",
        count - rows,
        counts.join(", ")
    ))
}

#[cfg(test)]
mod tests {
    use super::*;
    use crate::fast::Drawer;
    use crate::lending::in_one_number;
    use crate::row::{done, refused, Answer, Request};
    use crate::setting::Setting;
    use crate::side_faults::*;
    use crate::sweep::{centre, kept, Point};

    /// Ways to be wrong, beside those of the sides. `GOOD` is none.
    const GOOD: u8 = 0;
    const WRITES_BEFORE_THE_START: u8 = 5;
    const WRITES_THE_TAIL: u8 = 6;
    const WRITES_ON_REFUSAL: u8 = 7;
    const CHANGES_THE_PATH: u8 = 8;
    const KEEPS_TOUCHING_RUNS_APART: u8 = 9;
    const COUNTS_ONE_TOO_MANY: u8 = 10;
    const PLACE_OF_THE_LAST: u8 = 11;
    const LEAVES_SPARE_BITS: u8 = 12;
    const TAKES_THE_LEFT_OVER_FOR_ROOM: u8 = 13;
    const CHECKS_THE_ROW_LAST: u8 = 14;
    const ROOM_FIRST: u8 = 15;
    const ONE_PAST_A_LIMIT: u8 = 16;
    const WRITES_NOTHING: u8 = 17;
    const WRITES_PAST_THE_END: u8 = 18;

    fn columns_if_kept(request: &Request, kept: fn(Point) -> bool) -> Vec<u64> {
        let sweeps = sweeps(&request.setting, request.path);
        let black = |&column: &u64| {
            let x = centre(column as i128, request.row as i128);
            sweeps.iter().any(|sweep| sweep.black_if_kept(x, kept))
        };
        (0..request.columns).filter(black).collect()
    }

    fn put_runs(columns: &[u64], apart: bool, list: &mut [u8]) -> Answer {
        let mut runs: Vec<(u16, u16)> = Vec::new();
        for &column in columns {
            let column = column as u16;
            match runs.last_mut() {
                Some((_, right)) if *right + 1 == column && !apart => *right = column,
                _ => runs.push((column, column)),
            }
        }
        if runs.len() > list.len() / 4 {
            return refused(7, 0);
        }
        for (four, (left, right)) in list.chunks_exact_mut(4).zip(&runs) {
            four[..2].copy_from_slice(&left.to_le_bytes());
            four[2..].copy_from_slice(&right.to_le_bytes());
        }
        done(runs.len())
    }

    /// Only of small calls: each column is decided by itself.
    fn wrong_runs(fault: u8, request: &Request, list: &mut [u8]) -> Option<Answer> {
        if request.columns > 64 || request.path.len() > 8 * 100 {
            return None;
        }
        let rule = match fault {
            KEEPS_TOUCHING_RUNS_APART => kept,
            _ => rule(fault)?,
        };
        let columns = columns_if_kept(request, rule);
        Some(put_runs(&columns, fault == KEEPS_TOUCHING_RUNS_APART, list))
    }

    unsafe extern "C" fn function<const FAULT: u8, const PACKED: bool>(
        w: u64,
        p: u64,
        q: u64,
        path: *const u8,
        path_length: usize,
        columns: u64,
        rows: u64,
        row: u64,
        lent: *mut u8,
        length: usize,
    ) -> u64 {
        let path_of = |pointer: *const u8| match path_length {
            0 => &[],
            _ => std::slice::from_raw_parts(pointer, path_length),
        };
        let list: &mut [u8] = match length {
            0 => &mut [],
            _ => std::slice::from_raw_parts_mut(lent, length),
        };
        let mut request = Request {
            setting: Setting::new(w, p, q),
            path: path_of(path),
            columns,
            rows,
            row,
        };
        if FAULT == ONE_PAST_A_LIMIT && request.columns == 16_385 {
            request.columns = 16_384;
        }
        if FAULT == ROOM_FIRST && length == 0 {
            return in_one_number(refused(7, 0));
        }
        let before = list.to_vec();
        let mut drawer = Drawer::default();
        let mut answer = match PACKED {
            false => drawer.row_answer(&request, list),
            true => drawer.packed_row(&request, list),
        };
        let done = answer.refusal == 0;
        if done && !PACKED {
            if let Some(wrong) = wrong_runs(FAULT, &request, list) {
                answer = wrong;
            }
        }
        match FAULT {
            WRITES_PAST_THE_END if done && length > 0 => *lent.add(length) ^= 1,
            WRITES_BEFORE_THE_START if done && length > 0 => *lent.sub(1) ^= 1,
            WRITES_THE_TAIL if done => {
                let filled = if PACKED {
                    answer.count
                } else {
                    4 * answer.count
                };
                list[filled..].fill(0);
            }
            WRITES_ON_REFUSAL if !done && length > 0 => *lent ^= 1,
            CHANGES_THE_PATH if done => *path.cast_mut() ^= 1,
            COUNTS_ONE_TOO_MANY if done && columns % 8 == 0 => answer.count += 1,
            PLACE_OF_THE_LAST if answer.refusal == 3 => {
                let bad = |four: &[u8]| {
                    let number = i32::from_le_bytes([four[0], four[1], four[2], four[3]]);
                    !(-262_144..=262_144).contains(&number)
                };
                let last = request.path.chunks_exact(4).rposition(bad);
                answer.place = last.unwrap() as u64;
            }
            LEAVES_SPARE_BITS if done && PACKED && columns % 8 != 0 => {
                list[answer.count - 1] |= 1;
            }
            TAKES_THE_LEFT_OVER_FOR_ROOM if answer.refusal == 7 && !PACKED && length % 4 != 0 => {
                answer = refused(0, 0);
                answer.count = length.div_ceil(4);
            }
            CHECKS_THE_ROW_LAST if answer.refusal == 5 => {
                request.row = 0;
                let other = drawer.row_answer(&request, &mut []);
                if other.refusal == 3 {
                    answer = other;
                }
            }
            WRITES_NOTHING => list.copy_from_slice(&before),
            _ => {}
        }
        in_one_number(answer)
    }

    fn outcome<const FAULT: u8>(count: u64) -> Result<String, String> {
        let (row, packed) = (function::<FAULT, false>, function::<FAULT, true>);
        test(row, packed, count, 1, Guards::Bytes)
    }

    #[test]
    fn what_is_right_passes() {
        let line = outcome::<GOOD>(2_000).unwrap();
        assert!(line.ends_with("all equal"), "{line}");
        let exact = test(
            function::<GOOD, false>,
            function::<GOOD, true>,
            500,
            2,
            Guards::None,
        );
        assert!(exact.is_ok());
    }

    #[test]
    fn what_is_wrong_is_caught() {
        let caught = |outcome: Result<String, String>| match outcome {
            Ok(line) => panic!("{line}"),
            Err(complaint) => assert!(complaint.contains("call ")),
        };
        caught(outcome::<KEEPS_LEFT_SIDES>(2_000));
        caught(outcome::<KEEPS_FLAT_BOTTOMS>(2_000));
        caught(outcome::<KEEPS_ALL_SIDES>(2_000));
        caught(outcome::<WRITES_PAST_THE_END>(2_000));
        caught(outcome::<WRITES_BEFORE_THE_START>(2_000));
        caught(outcome::<WRITES_THE_TAIL>(2_000));
        caught(outcome::<WRITES_ON_REFUSAL>(2_000));
        caught(outcome::<CHANGES_THE_PATH>(2_000));
        caught(outcome::<KEEPS_TOUCHING_RUNS_APART>(2_000));
        caught(outcome::<COUNTS_ONE_TOO_MANY>(2_000));
        caught(outcome::<PLACE_OF_THE_LAST>(2_000));
        caught(outcome::<LEAVES_SPARE_BITS>(2_000));
        caught(outcome::<TAKES_THE_LEFT_OVER_FOR_ROOM>(2_000));
        caught(outcome::<CHECKS_THE_ROW_LAST>(2_000));
        caught(outcome::<ROOM_FIRST>(2_000));
        caught(outcome::<ONE_PAST_A_LIMIT>(2_000));
        caught(outcome::<WRITES_NOTHING>(2_000));
        caught(outcome::<DROPS_FLAT_SIDES>(2_000));
    }
}
