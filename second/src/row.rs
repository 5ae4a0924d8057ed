//! The row answer and the packed row in the form of the plotter's host
//! program: the setting as w, p, q, path and runs as bytes.

use crate::pen::{self, Corner};
use crate::setting::Setting;
use crate::sweep::{centre, Sweep};

/// What a row call is asked.
#[derive(Clone, Copy)]
pub struct Request<'a> {
    pub setting: Setting,
    /// "four to a coordinate, two's complement, lowest byte first".
    pub path: &'a [u8],
    pub columns: u64,
    pub rows: u64,
    pub row: u64,
}

/// A refusal number and the place reported with it; 0 and 0 for "done", with
/// the number of runs, or of bytes that a packed row fills.
#[derive(Clone, Copy, Debug, PartialEq, Eq)]
pub struct Answer {
    pub refusal: u8,
    pub place: u64,
    pub count: usize,
}

pub fn refused(refusal: u8, place: u64) -> Answer {
    Answer {
        refusal,
        place,
        count: 0,
    }
}

pub fn done(count: usize) -> Answer {
    Answer {
        refusal: 0,
        place: 0,
        count,
    }
}

/// The coordinates of a path of bytes; None where the length is no multiple of
/// four.
fn coordinates(path: &[u8]) -> Option<Vec<i32>> {
    let fours = path.chunks_exact(4);
    if !fours.remainder().is_empty() {
        return None;
    }
    Some(
        fours
            .map(|four| i32::from_le_bytes([four[0], four[1], four[2], four[3]]))
            .collect(),
    )
}

/// The path's coordinates, or the first refusal of 2, 4, 5, 3.
pub fn check_all_but_setting(request: &Request) -> Result<Vec<i32>, Answer> {
    let (columns, rows) = (request.columns, request.rows);
    check_path_and_raster(request.path, columns, rows, request.row < rows)
}

/// The same for any rows; whether those asked for are there is told.
pub fn check_path_and_raster(
    path: &[u8],
    columns: u64,
    rows: u64,
    there: bool,
) -> Result<Vec<i32>, Answer> {
    let Some(path) = coordinates(path) else {
        return Err(refused(2, 0));
    };
    if path.is_empty() || path.len() % 2 != 0 || path.len() > 8_192 {
        return Err(refused(2, 0));
    }
    for size in [columns, rows] {
        if !(1..=16_384).contains(&size) {
            return Err(refused(4, 0));
        }
    }
    if !there {
        return Err(refused(5, 0));
    }
    for (index, coordinate) in path.iter().enumerate() {
        if !(-262_144..=262_144).contains(coordinate) {
            return Err(refused(3, index as u64));
        }
    }
    Ok(path)
}

/// A good path drawn with a pen: the sweeps of its segments.
pub struct Drawn(pub Vec<Sweep>);

impl Drawn {
    pub fn new(quarter: &[Corner], path: &[i32]) -> Drawn {
        let pen = pen::whole(quarter);
        let points: Vec<(i128, i128)> = path
            .chunks(2)
            .map(|pair| (pair[0] as i128, pair[1] as i128))
            .collect();
        // "a path of one point is one such segment"
        Drawn(if points.len() == 1 {
            vec![Sweep::new(&pen, points[0], points[0])]
        } else {
            points
                .windows(2)
                .map(|ends| Sweep::new(&pen, ends[0], ends[1]))
                .collect()
        })
    }

    /// The black columns of a row, of so many. "A pixel is black when any segment
    /// makes it so."
    pub fn columns(&self, columns: u64, row: u64) -> Vec<u64> {
        let black = |column: u64| {
            let x = centre(column as i128, row as i128);
            self.0.iter().any(|sweep| sweep.black(x))
        };
        (0..columns).filter(|&column| black(column)).collect()
    }
}

/// The black columns of the row within the raster, or the first refusal of
/// 1 (where 6 stood), 2, 4, 5, 3.
fn black_columns(request: &Request) -> Result<Vec<u64>, Answer> {
    let Some(quarter) = pen::quarter(&request.setting) else {
        return Err(refused(1, 0));
    };
    let path = check_all_but_setting(request)?;
    Ok(Drawn::new(&quarter, &path).columns(request.columns, request.row))
}

/// "Runs are the longest unbroken stretches, so touching ones are joined."
fn runs_of(columns: &[u64]) -> Vec<(u64, u64)> {
    let mut runs: Vec<(u64, u64)> = Vec::new();
    for &column in columns {
        match runs.last_mut() {
            Some((_, right)) if *right + 1 == column => *right = column,
            _ => runs.push((column, column)),
        }
    }
    runs
}

/// The runs of these black columns in a list. "a run is four bytes, left then right
/// column, two bytes each, lowest first, and the room is the whole number of such
/// fours."
pub fn put_runs(columns: &[u64], list: &mut [u8]) -> Answer {
    let runs = runs_of(columns);
    let room = list.len() / 4;
    if runs.len() > room {
        return refused(7, 0);
    }
    for (record, &(left, right)) in list.chunks_exact_mut(4).zip(&runs) {
        record[..2].copy_from_slice(&(left as u16).to_le_bytes());
        record[2..].copy_from_slice(&(right as u16).to_le_bytes());
    }
    done(runs.len())
}

/// The row answer.
pub fn row_answer(request: &Request, list: &mut [u8]) -> Answer {
    match black_columns(request) {
        Ok(columns) => put_runs(&columns, list),
        Err(answer) => answer,
    }
}

/// The packed row: ceil(columns/8) bytes, the leftmost pixel in the highest
/// bit, spare bits 0.
pub fn packed_row(request: &Request, buffer: &mut [u8]) -> Answer {
    let columns = match black_columns(request) {
        Ok(columns) => columns,
        Err(answer) => return answer,
    };
    let length = request.columns.div_ceil(8);
    if length > buffer.len() as u64 {
        return refused(7, 0);
    }
    let packed = &mut buffer[..length as usize];
    packed.fill(0);
    for column in columns {
        packed[(column / 8) as usize] |= 128 >> (column % 8);
    }
    done(length as usize)
}

/// Coordinates as the path's bytes.
pub fn path_bytes(coordinates: &[i32]) -> Vec<u8> {
    coordinates.iter().flat_map(|c| c.to_le_bytes()).collect()
}

/// A list's first records as pairs of columns.
pub fn records(list: &[u8], count: usize) -> Vec<(u16, u16)> {
    list.chunks_exact(4)
        .take(count)
        .map(|r| {
            (
                u16::from_le_bytes([r[0], r[1]]),
                u16::from_le_bytes([r[2], r[3]]),
            )
        })
        .collect()
}

#[cfg(test)]
mod tests {
    use super::*;

    struct Drawing {
        setting: Setting,
        path: Vec<u8>,
        columns: u64,
        rows: u64,
    }

    impl Drawing {
        /// "Rows, in a raster of 20 by 12 unless stated".
        fn new(w: u64, path: &[i32]) -> Drawing {
            Drawing {
                setting: Setting::new(w, 1, 1),
                path: path_bytes(path),
                columns: 20,
                rows: 12,
            }
        }

        fn request(&self, row: u64) -> Request<'_> {
            Request {
                setting: self.setting,
                path: &self.path,
                columns: self.columns,
                rows: self.rows,
                row,
            }
        }

        fn answer(&self, row: u64, room: usize) -> (Answer, Vec<(u16, u16)>) {
            let mut list = vec![0xEE; 4 * room];
            let answer = row_answer(&self.request(row), &mut list);
            assert!(list[4 * answer.count..].iter().all(|&b| b == 0xEE));
            (answer, records(&list, answer.count))
        }

        fn row(&self, row: u64) -> Vec<(u16, u16)> {
            let (answer, runs) = self.answer(row, 20);
            assert_eq!((answer.refusal, answer.place), (0, 0));
            runs
        }
    }

    #[test]
    fn dots() {
        for (path, black) in [
            ([32, 32], vec![(2, 2)]),
            ([40, 32], vec![(3, 3)]),
            ([32, 40], vec![]),
        ] {
            // One point, and two equal ones.
            for twice in [1, 2] {
                let drawing = Drawing::new(16, &path.repeat(twice));
                for row in 0..12 {
                    let expected = if row == 2 { black.clone() } else { vec![] };
                    assert_eq!(drawing.row(row), expected);
                }
            }
        }
    }

    #[test]
    fn level_paths() {
        let mut drawing = Drawing::new(48, &[48, 32, 160, 32]);
        for row in 0..12 {
            let expected = match row {
                1 | 3 => vec![(3, 11)],
                2 => vec![(2, 11)],
                _ => vec![],
            };
            assert_eq!(drawing.row(row), expected);
        }
        drawing.columns = 6;
        assert_eq!(drawing.row(2), [(2, 5)]);

        // "The stroke at height 40": its rows are those of document 02's W7.
        let drawing = Drawing::new(48, &[48, 40, 160, 40]);
        for row in 0..12 {
            let expected = match row {
                2 | 3 => vec![(2, 11)],
                4 => vec![(3, 10)],
                _ => vec![],
            };
            assert_eq!(drawing.row(row), expected);
        }
    }

    #[test]
    fn a_slanted_path() {
        let drawing = Drawing::new(16, &[0, 0, 160, 160]);
        for row in 0..11 {
            assert_eq!(drawing.row(row), [(row as u16, row as u16)]);
        }
        assert_eq!(drawing.row(11), []);
    }

    #[test]
    fn four_points() {
        let drawing = Drawing::new(16, &[16, 64, 16, 16, 80, 16, 80, 64]);
        assert_eq!(drawing.row(1), [(1, 5)]);
        assert_eq!(drawing.row(3), [(1, 1), (5, 5)]);
        assert_eq!(drawing.answer(3, 2).0, done(2));
        assert_eq!(drawing.answer(3, 1), (refused(7, 0), vec![]));
        assert_eq!(drawing.answer(3, 0), (refused(7, 0), vec![]));
        assert_eq!(drawing.answer(0, 0), (done(0), vec![]));
    }

    /// "w=64 in direction (1,2): c is 9, so two neighbouring middle rows hold
    /// 9 pixels": at many places of the path.
    #[test]
    fn line_weight() {
        for x in 100..116 {
            for y in 100..116 {
                let mut drawing = Drawing::new(64, &[x, y, x + 100, y + 200]);
                drawing.rows = 30;
                let pixels = |row: u64| -> u16 {
                    drawing
                        .row(row)
                        .iter()
                        .map(|(left, right)| right - left + 1)
                        .sum()
                };
                for row in 0..29 {
                    let inside = |j: i32| y + 8 * 4 <= 16 * j && 16 * j <= y + 200 - 8 * 4;
                    if inside(row as i32) && inside(row as i32 + 1) {
                        assert_eq!(pixels(row) + pixels(row + 1), 9);
                    }
                }
            }
        }
    }

    fn refusal(drawing: &Drawing, row: u64) -> (u8, u64) {
        let mut list = vec![0xEE; 80];
        let answer = row_answer(&drawing.request(row), &mut list);
        let mut buffer = vec![0xEE; 2_048];
        let packed = packed_row(&drawing.request(row), &mut buffer);
        assert_eq!(
            (answer.refusal, answer.place),
            (packed.refusal, packed.place)
        );
        if answer.refusal != 0 {
            assert_eq!(answer.count, 0);
            assert!(list.iter().chain(&buffer).all(|&b| b == 0xEE));
        }
        (answer.refusal, answer.place)
    }

    #[test]
    fn limits() {
        for (w, number) in [(15, 1), (16, 0), (512, 0), (513, 1)] {
            assert_eq!(refusal(&Drawing::new(w, &[0, 0]), 0), (number, 0));
        }
        let mut long = Drawing::new(16, &vec![16; 8_192]);
        long.columns = 3;
        assert_eq!(refusal(&long, 1), (0, 0));
        assert_eq!(long.row(1), [(1, 1)]);
        assert_eq!(refusal(&Drawing::new(16, &vec![16; 8_194]), 0), (2, 0));
        for length in [0, 1, 3, 8_191, 8_193] {
            assert_eq!(refusal(&Drawing::new(16, &vec![16; length]), 0), (2, 0));
        }
        for limit in [262_144i32, -262_144] {
            let beyond = limit + limit.signum();
            assert_eq!(refusal(&Drawing::new(16, &[limit, 0, 0, limit]), 0), (0, 0));
            assert_eq!(refusal(&Drawing::new(16, &[beyond, beyond]), 0), (3, 0));
            assert_eq!(
                refusal(&Drawing::new(16, &[limit, limit, 0, beyond, beyond, 0]), 0),
                (3, 3)
            );
        }
        for (columns, rows, number) in [
            (0, 12, 4),
            (1, 12, 0),
            (16_384, 12, 0),
            (16_385, 12, 4),
            (20, 0, 4),
            (20, 16_384, 0),
            (20, 16_385, 4),
        ] {
            let drawing = Drawing {
                columns,
                rows,
                ..Drawing::new(16, &[0, 0])
            };
            assert_eq!(refusal(&drawing, 0), (number, 0));
        }
        assert_eq!(refusal(&Drawing::new(16, &[0, 0]), 11), (0, 0));
        assert_eq!(refusal(&Drawing::new(16, &[0, 0]), 12), (5, 0));
        // A path's length in bytes that is no multiple of four.
        for cut in 1..8 {
            let mut drawing = Drawing::new(16, &[16, 16, 16, 16]);
            drawing.path.truncate(16 - cut);
            assert_eq!(refusal(&drawing, 0), (2, 0));
        }
    }

    /// Each refusal stands before all that come after it in 1, 2, 4, 5, 3, 7.
    #[test]
    fn the_order_of_refusals() {
        let bad = |faults: &[u8]| {
            let has = |n| faults.contains(&n);
            let mut path = vec![8, 8, 24, 24];
            if has(3) {
                path[1] = 300_000;
            }
            let mut drawing = Drawing::new(if has(1) { 15 } else { 16 }, &path);
            if has(2) {
                drawing.path.pop();
            }
            if has(4) {
                drawing.columns = 0;
            }
            let row = if has(5) { 12 } else { 1 };
            let room = if has(7) { 0 } else { 20 };
            drawing.answer(row, room).0
        };
        let order = [1, 2, 4, 5, 3, 7];
        for (i, &first) in order.iter().enumerate() {
            let place = u64::from(first == 3);
            assert_eq!(bad(&order[i..]), refused(first, place));
            assert_eq!(bad(&[first]), refused(first, place));
        }
        assert_eq!(bad(&[]).refusal, 0);
    }

    #[test]
    fn packed_rows() {
        let mut drawing = Drawing::new(48, &[48, 32, 160, 32]);
        let mut buffer = [0xEE; 5];
        assert_eq!(packed_row(&drawing.request(2), &mut buffer), done(3));
        assert_eq!(buffer, [0b0011_1111, 0b1111_0000, 0, 0xEE, 0xEE]);
        drawing.columns = 9;
        let mut buffer = [0xEE; 2];
        assert_eq!(packed_row(&drawing.request(2), &mut buffer), done(2));
        assert_eq!(buffer, [0b0011_1111, 0b1000_0000]);
        let mut short = [0xEE; 1];
        assert_eq!(packed_row(&drawing.request(2), &mut short), refused(7, 0));
        assert_eq!(short, [0xEE]);
        // Records of a list that do not come out even are no room.
        let mut list = [0xEE; 7];
        assert_eq!(row_answer(&drawing.request(2), &mut list), done(1));
        assert_eq!(list, [2, 0, 8, 0, 0xEE, 0xEE, 0xEE]);
        assert_eq!(
            row_answer(&drawing.request(2), &mut list[..3]),
            refused(7, 0)
        );
    }

    #[test]
    fn touching_runs_are_joined() {
        assert_eq!(runs_of(&[]), []);
        assert_eq!(runs_of(&[3, 4, 5, 6, 7, 8]), [(3, 8)]);
        assert_eq!(runs_of(&[0, 2, 3, 9]), [(0, 0), (2, 3), (9, 9)]);
        // Two strokes side by side: 1..1 and 2..2 are one run.
        let drawing = Drawing::new(16, &[16, 16, 16, 64, 32, 64, 32, 16]);
        assert_eq!(drawing.row(2), [(1, 2)]);
    }
}
