//! The band in the form of the plotter's host program: a stroke laid over the bytes
//! of some neighbouring rows of a film, one literal packed row after another.

use crate::row::{self, check_path_and_raster, done, packed_row, refused, Answer};
use crate::setting::Setting;

/// What a band call is asked.
#[derive(Clone, Copy)]
pub struct Request<'a> {
    pub setting: Setting,
    pub path: &'a [u8],
    pub columns: u64,
    pub rows: u64,
    pub first_row: u64,
    pub n_rows: u64,
    pub stride: u64,
}

impl Request<'_> {
    /// Refusal 5 is given "where first_row is not below rows, or n_rows is 0, or
    /// n_rows is more than rows - first_row".
    fn rows_are_there(&self) -> bool {
        self.first_row < self.rows && self.n_rows != 0 && self.n_rows <= self.rows - self.first_row
    }

    /// Refusal 7 is given "where stride is less than ceil(columns/8), or bytes_len /
    /// stride (whole number) is less than n_rows".
    fn rows_fit(&self, length: usize) -> bool {
        self.stride >= self.columns.div_ceil(8) && length as u64 / self.stride >= self.n_rows
    }

    /// One of its rows alone.
    pub fn row(&self, row: u64) -> row::Request<'_> {
        row::Request {
            setting: self.setting,
            path: self.path,
            columns: self.columns,
            rows: self.rows,
            row,
        }
    }
}

/// The first refusal of 1, 2, 4, 5, 3, 7, for so many bytes, if there is one.
pub fn check(request: &Request, length: usize) -> Result<(), Answer> {
    if !request.setting.within_limits() {
        return Err(refused(1, 0));
    }
    let (columns, rows) = (request.columns, request.rows);
    check_path_and_raster(request.path, columns, rows, request.rows_are_there())?;
    match request.rows_fit(length) {
        true => Ok(()),
        false => Err(refused(7, 0)),
    }
}

/// The band. "Each pixel's bit (leftmost pixel in the highest bit, black 1) becomes 1
/// where the stroke is black by the rule of the packed row and stays what it was
/// elsewhere". The answer counts its rows.
pub fn band(request: &Request, bytes: &mut [u8]) -> Answer {
    if let Err(answer) = check(request, bytes.len()) {
        return answer;
    }
    let mut packed = vec![0; request.columns.div_ceil(8) as usize];
    for below_top in 0..request.n_rows {
        // "the top one (highest row) of them at bytes, each next lower row stride
        // bytes further"
        let row = request.first_row + request.n_rows - 1 - below_top;
        let start = (below_top * request.stride) as usize;
        let answer = packed_row(&request.row(row), &mut packed);
        assert_eq!(answer, done(packed.len()));
        for column in 0..request.columns {
            let (byte, bit) = ((column / 8) as usize, 128 >> (column % 8));
            if packed[byte] & bit != 0 {
                bytes[start + byte] |= bit;
            }
        }
    }
    done(request.n_rows as usize)
}

#[cfg(test)]
mod tests {
    use super::*;
    use crate::row::path_bytes;

    const DIRT: u8 = 0b0100_0010;

    /// Rows 0 to 11 of 20 columns with three bytes each, unless changed.
    fn request(w: u64, path: &[u8]) -> Request<'_> {
        Request {
            setting: Setting::new(w, 1, 1),
            path,
            columns: 20,
            rows: 12,
            first_row: 0,
            n_rows: 12,
            stride: 3,
        }
    }

    /// "rows 1 and 3 are 3..11, row 2 is 2..11", the top row first.
    #[test]
    fn a_level_path() {
        let path = path_bytes(&[48, 32, 160, 32]);
        let short = [0b0001_1111, 0b1111_0000];
        let long = [0b0011_1111, 0b1111_0000];
        let rows = [[0, 0], short, long, short, [0, 0]];
        for (first_row, n_rows) in [(0, 5), (1, 3), (1, 1), (2, 1), (2, 3), (4, 8)] {
            for stride in [3, 4, 9] {
                let mut asked = request(48, &path);
                (asked.first_row, asked.n_rows, asked.stride) = (first_row, n_rows, stride);
                let length = (n_rows * stride) as usize;
                let (mut white, mut dirty) = (vec![0; length + 2], vec![DIRT; length + 2]);
                assert_eq!(band(&asked, &mut white), done(n_rows as usize));
                assert_eq!(band(&asked, &mut dirty), done(n_rows as usize));
                let mut expected = vec![0; length + 2];
                for i in 0..n_rows {
                    let row = (first_row + n_rows - 1 - i) as usize;
                    let start = (i * stride) as usize;
                    let black = rows.get(row).unwrap_or(&[0, 0]);
                    expected[start..start + 2].copy_from_slice(black);
                }
                assert_eq!(white, expected);
                let over: Vec<u8> = expected.iter().map(|byte| byte | DIRT).collect();
                assert_eq!(dirty, over);
            }
        }
    }

    /// The rows of "The whole PBM file for w=16, dot at (32,16), 5 columns, 3 rows", in
    /// one band and in several.
    #[test]
    fn the_file_of_the_cases() {
        let path = path_bytes(&[32, 16]);
        for bands in [vec![3], vec![1, 2], vec![2, 1], vec![1, 1, 1]] {
            let mut asked = request(16, &path);
            (asked.columns, asked.rows, asked.first_row, asked.stride) = (5, 3, 3, 1);
            let mut rest = &mut [0; 3][..];
            let mut file = Vec::new();
            for n_rows in bands {
                asked.n_rows = n_rows as u64;
                asked.first_row -= asked.n_rows;
                let (bytes, lower) = rest.split_at_mut(n_rows);
                assert_eq!(band(&asked, bytes), done(n_rows));
                file.extend_from_slice(bytes);
                rest = lower;
            }
            assert_eq!(file, [0, 32, 0]);
        }
    }

    /// Spare bits and padding are not the film's.
    #[test]
    fn nothing_else_is_changed() {
        let path = path_bytes(&[-1_000, 16, 1_000, 16]);
        let mut asked = request(48, &path);
        (asked.columns, asked.n_rows, asked.stride) = (11, 3, 4);
        let mut bytes = [0; 13];
        assert_eq!(band(&asked, &mut bytes), done(3));
        let row = [0xFF, 0b1110_0000, 0, 0];
        assert_eq!(bytes[..12], [row, row, row].concat());
        assert_eq!(bytes[12], 0);
    }

    fn answer(change: impl Fn(&mut Request), length: usize) -> Answer {
        let path = path_bytes(&[8, 8, 24, 24]);
        let mut asked = request(16, &path);
        change(&mut asked);
        let mut bytes = vec![DIRT; length];
        let answer = band(&asked, &mut bytes);
        if answer.refusal != 0 {
            assert_eq!(answer.count, 0);
            assert!(bytes.iter().all(|&byte| byte == DIRT));
        }
        answer
    }

    #[test]
    fn rows_that_are_not_there() {
        for (first_row, n_rows, there) in [
            (0, 1, true),
            (0, 12, true),
            (11, 1, true),
            (0, 0, false),
            (0, 13, false),
            (11, 2, false),
            (12, 0, false),
            (12, 1, false),
            (1, u64::MAX, false),
            (u64::MAX, 1, false),
            (u64::MAX, 2, false),
            (u64::MAX, u64::MAX, false),
        ] {
            let change = |asked: &mut Request| {
                (asked.first_row, asked.n_rows) = (first_row, n_rows);
            };
            let expected = if there {
                done(n_rows as usize)
            } else {
                refused(5, 0)
            };
            assert_eq!(answer(change, 100), expected, "{first_row} {n_rows}");
        }
    }

    #[test]
    fn rows_that_do_not_fit() {
        for (stride, length, fit) in [
            (3, 36, true),
            (3, 35, false),
            (3, 0, false),
            (2, 100, false),
            (0, 100, false),
            (4, 47, false),
            (4, 48, true),
            (8, 96, true),
            (8, 95, false),
            (u64::MAX, 100, false),
            (1 << 62, 100, false),
            ((1 << 62) + 3, 100, false),
        ] {
            let expected = if fit { done(12) } else { refused(7, 0) };
            let change = |asked: &mut Request| asked.stride = stride;
            assert_eq!(answer(change, length), expected, "{stride} {length}");
        }
    }

    /// Each refusal stands before all that come after it in 1, 2, 4, 5, 3, 7.
    #[test]
    fn the_order_of_refusals() {
        let far = path_bytes(&[8, 300_000, 24, 24]);
        let bad = |faults: &[u8]| {
            let has = |n| faults.contains(&n);
            let path = if has(3) {
                far.clone()
            } else {
                path_bytes(&[8; 4])
            };
            let mut asked = request(if has(1) { 15 } else { 16 }, &path);
            if has(2) {
                asked.path = &path[1..];
            }
            if has(4) {
                asked.rows = 16_385;
            }
            if has(5) {
                asked.n_rows = 13;
            }
            band(&asked, &mut vec![0; if has(7) { 2 } else { 39 }])
        };
        let order = [1, 2, 4, 5, 3, 7];
        for (i, &first) in order.iter().enumerate() {
            let place = u64::from(first == 3);
            assert_eq!(bad(&order[i..]), refused(first, place));
            assert_eq!(bad(&[first]), refused(first, place));
        }
        assert_eq!(bad(&[]), done(12));
    }
}
