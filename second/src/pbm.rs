//! The whole PBM file of one or more strokes.

use crate::row::{packed_row, Request};
use crate::setting::Setting;

/// A setting and its path, the path as bytes.
pub struct Stroke {
    pub setting: Setting,
    pub path: Vec<u8>,
}

/// The file: "P4, newline", the sizes, "columns first", "newline"; then "The
/// top row comes first, the leftmost pixel in the highest bit, black is 1,
/// spare bits are 0." A refusal is given back as its number and place.
pub fn file(strokes: &[Stroke], columns: u64, rows: u64) -> Result<Vec<u8>, (u8, u64)> {
    assert!(!strokes.is_empty());
    // Asked for row 0 with no room, a good stroke is refused with 7 only; so
    // no file is begun for a bad one, nor for a bad raster.
    for stroke in strokes {
        let request = Request {
            setting: stroke.setting,
            path: &stroke.path,
            columns,
            rows,
            row: 0,
        };
        let answer = packed_row(&request, &mut []);
        if answer.refusal != 7 {
            return Err((answer.refusal, answer.place));
        }
    }
    let mut file = format!("P4\n{columns} {rows}\n").into_bytes();
    let length = columns.div_ceil(8) as usize;
    for row in (0..rows).rev() {
        let mut line = vec![0; length];
        for stroke in strokes {
            let request = Request {
                setting: stroke.setting,
                path: &stroke.path,
                columns,
                rows,
                row,
            };
            let mut packed = vec![0; length];
            let answer = packed_row(&request, &mut packed);
            if answer.refusal != 0 {
                return Err((answer.refusal, answer.place));
            }
            for (byte, more) in line.iter_mut().zip(packed) {
                *byte |= more;
            }
        }
        file.extend(line);
    }
    Ok(file)
}

#[cfg(test)]
mod tests {
    use super::*;
    use crate::row::path_bytes;

    fn stroke(w: u64, path: &[i32]) -> Stroke {
        Stroke {
            setting: Setting::new(w, 1, 1),
            path: path_bytes(path),
        }
    }

    /// The file of document 01's "Cases".
    #[test]
    fn the_file_of_the_cases() {
        let bytes = file(&[stroke(16, &[32, 16])], 5, 3).unwrap();
        assert_eq!(
            bytes,
            [b'P', b'4', b'\n', b'5', b' ', b'3', b'\n', 0, 32, 0]
        );
    }

    #[test]
    fn the_top_row_comes_first() {
        let bytes = file(&[stroke(16, &[0, 0]), stroke(16, &[144, 16])], 10, 2).unwrap();
        let mut expected = b"P4\n10 2\n".to_vec();
        expected.extend([0, 0b0100_0000, 0b1000_0000, 0]);
        assert_eq!(bytes, expected);
    }

    #[test]
    fn refusals_pass_through() {
        assert_eq!(file(&[stroke(15, &[0, 0])], 5, 3), Err((1, 0)));
        assert_eq!(file(&[stroke(16, &[0, 0, 0, 300_000])], 5, 3), Err((3, 3)));
        assert_eq!(file(&[stroke(16, &[0, 0])], 5, 0), Err((4, 0)));
        assert_eq!(file(&[stroke(16, &[0, 0])], u64::MAX, 1), Err((4, 0)));
    }
}
