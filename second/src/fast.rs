//! The obvious fast way to the same pixels, as a peer for the benchmark: for a
//! segment and a row, each side leaves the columns on its inner side, found by
//! one floor division; what all sides leave is the segment's stretch. The tests
//! hold it to the literal way of `sweep.rs`, `row.rs` and `band.rs`.

use crate::band;
use crate::pen;
use crate::row::{self, Answer, Request};
use crate::setting::Setting;

type Point = (i64, i64);

/// A side normal·X <= offset, or < offset for one that is not kept.
#[derive(Clone, Copy)]
struct Side {
    normal: Point,
    offset: i64,
}

fn dot(a: Point, b: Point) -> i64 {
    a.0 * b.0 + a.1 * b.1
}

/// A pen in sixteenths of a pixel.
pub struct Pen {
    setting: Setting,
    corners: Vec<Point>,
    edges: Vec<Side>,
    /// Half its height.
    reach: i64,
}

impl Pen {
    pub fn new(setting: Setting) -> Option<Pen> {
        let half_pixels = pen::whole(&pen::quarter(&setting)?);
        let corners: Vec<Point> = half_pixels.iter().map(|c| (8 * c.0, 8 * c.1)).collect();
        let edges = (0..corners.len())
            .map(|i| {
                let (from, to) = (corners[i], corners[(i + 1) % corners.len()]);
                let normal = (to.1 - from.1, from.0 - to.0);
                Side {
                    normal,
                    offset: dot(normal, from),
                }
            })
            .collect();
        let reach = 8 * setting.dy();
        Some(Pen {
            setting,
            corners,
            edges,
            reach,
        })
    }

    /// The sides of a segment, in place of what the list held.
    fn sides(&self, a: Point, b: Point, sides: &mut Vec<Side>) {
        sides.clear();
        sides.extend(self.edges.iter().map(|edge| Side {
            normal: edge.normal,
            offset: edge.offset + dot(edge.normal, a).max(dot(edge.normal, b)),
        }));
        if a != b {
            let normal = (b.1 - a.1, a.0 - b.0);
            let touching = self.corners.iter().map(|&corner| dot(normal, corner)).max();
            let touching = touching.expect("a pen has corners");
            // The pen is equal to itself turned by half a turn, so the line on
            // the other hand is as far out.
            for normal in [normal, (-normal.0, -normal.1)] {
                sides.push(Side {
                    normal,
                    offset: dot(normal, a) + touching,
                });
            }
        }
    }

    /// The first and last black column of a segment in a row, not cut to any raster.
    pub fn extent(&self, a: Point, b: Point, row: i64) -> Option<(i64, i64)> {
        let mut sides = Vec::with_capacity(self.edges.len() + 2);
        self.sides(a, b, &mut sides);
        extent(&sides, row)
    }

    /// The rows that a segment may touch.
    fn rows(&self, a: Point, b: Point) -> (i64, i64) {
        let low = (a.1.min(b.1) - self.reach + 15).div_euclid(16);
        (low, (a.1.max(b.1) + self.reach).div_euclid(16))
    }
}

/// The first and last black column of a row, if there are such.
fn extent(sides: &[Side], row: i64) -> Option<(i64, i64)> {
    let (mut first, mut last) = (i64::MIN, i64::MAX);
    for side in sides {
        let (x, y) = side.normal;
        let rest = side.offset - 16 * row * y;
        if x > 0 {
            last = last.min(rest.div_euclid(16 * x));
        } else if x < 0 {
            first = first.max((-rest).div_euclid(-16 * x) + 1);
        } else if rest < 0 || (rest == 0 && y < 0) {
            return None;
        }
    }
    (first <= last).then_some((first, last))
}

/// The points of a path of bytes, the path being good.
fn points(path: &[u8]) -> impl Iterator<Item = Point> + Clone + '_ {
    path.chunks_exact(8).map(|eight| {
        let number = |at: usize| {
            i32::from_le_bytes([eight[at], eight[at + 1], eight[at + 2], eight[at + 3]])
        };
        (number(0) as i64, number(4) as i64)
    })
}

/// The segments of a path: from each point to the next, or one point alone.
fn segments(path: &[u8]) -> impl Iterator<Item = (Point, Point)> + '_ {
    let alone = if path.len() == 8 { 0 } else { 1 };
    points(path).zip(points(path).skip(alone))
}

/// The runs of a row within the raster, in place of what the list held.
fn runs(pen: &Pen, path: &[u8], columns: i64, row: i64, runs: &mut Vec<(i64, i64)>) {
    runs.clear();
    let mut sides = Vec::with_capacity(pen.edges.len() + 2);
    for (a, b) in segments(path) {
        let (low, high) = pen.rows(a, b);
        if row < low || high < row {
            continue;
        }
        pen.sides(a, b, &mut sides);
        if let Some((first, last)) = extent(&sides, row) {
            let (first, last) = (first.max(0), last.min(columns - 1));
            if first <= last {
                runs.push((first, last));
            }
        }
    }
    runs.sort_unstable();
    runs.dedup_by(|next, run| {
        let touches = next.0 <= run.1 + 1;
        if touches {
            run.1 = run.1.max(next.1);
        }
        touches
    });
}

/// Sets the bits of the columns first..=last, the leftmost in the highest bit.
fn fill(line: &mut [u8], first: i64, last: i64) {
    let (first, last) = (first as usize, last as usize);
    let (from, to) = (first / 8, last / 8);
    let head = 0xFF >> (first % 8);
    let tail = 0xFFu8 << (7 - last % 8);
    if from == to {
        line[from] |= head & tail;
    } else {
        line[from] |= head;
        line[from + 1..to].fill(0xFF);
        line[to] |= tail;
    }
}

/// A good stroke drawn into a film of good sizes, the top row first, as many
/// bytes to a row as it needs.
pub fn draw(pen: &Pen, path: &[u8], columns: usize, rows: usize, film: &mut [u8]) {
    let stride = columns.div_ceil(8);
    draw_rows(pen, path, columns as i64, (0, rows as i64), stride, film);
}

/// The rows from the first to below the end, the top one first, each so many
/// bytes after the one above it.
fn draw_rows(
    pen: &Pen,
    path: &[u8],
    columns: i64,
    (first_row, end): (i64, i64),
    stride: usize,
    bytes: &mut [u8],
) {
    let mut sides = Vec::with_capacity(pen.edges.len() + 2);
    for (a, b) in segments(path) {
        let (low, high) = pen.rows(a, b);
        let (low, high) = (low.max(first_row), high.min(end - 1));
        if low > high {
            continue;
        }
        pen.sides(a, b, &mut sides);
        for row in low..=high {
            if let Some((first, last)) = extent(&sides, row) {
                let (first, last) = (first.max(0), last.min(columns - 1));
                if first <= last {
                    let at = (end - 1 - row) as usize * stride;
                    fill(&mut bytes[at..at + stride], first, last);
                }
            }
        }
    }
}

/// The calls in the fast way; the pen last built is kept.
#[derive(Default)]
pub struct Drawer {
    pen: Option<Pen>,
    runs: Vec<(i64, i64)>,
}

impl Drawer {
    /// Refusal 1 where there is no pen.
    fn build(&mut self, setting: Setting) -> Result<(), Answer> {
        if self.pen.as_ref().map(|pen| pen.setting) != Some(setting) {
            self.pen = Some(Pen::new(setting).ok_or(row::refused(1, 0))?);
        }
        Ok(())
    }

    fn runs(&mut self, request: &Request) -> Result<&[(i64, i64)], Answer> {
        self.build(request.setting)?;
        row::check_all_but_setting(request)?;
        if let Some(pen) = &self.pen {
            let (columns, row) = (request.columns as i64, request.row as i64);
            runs(pen, request.path, columns, row, &mut self.runs);
        }
        Ok(&self.runs)
    }

    pub fn row_answer(&mut self, request: &Request, list: &mut [u8]) -> Answer {
        let runs = match self.runs(request) {
            Ok(runs) => runs,
            Err(answer) => return answer,
        };
        if runs.len() > list.len() / 4 {
            return row::refused(7, 0);
        }
        for (record, &(left, right)) in list.chunks_exact_mut(4).zip(runs) {
            record[..2].copy_from_slice(&(left as u16).to_le_bytes());
            record[2..].copy_from_slice(&(right as u16).to_le_bytes());
        }
        row::done(runs.len())
    }

    pub fn packed_row(&mut self, request: &Request, buffer: &mut [u8]) -> Answer {
        let runs = match self.runs(request) {
            Ok(runs) => runs,
            Err(answer) => return answer,
        };
        let length = request.columns.div_ceil(8) as usize;
        if length > buffer.len() {
            return row::refused(7, 0);
        }
        let line = &mut buffer[..length];
        line.fill(0);
        for &(left, right) in runs {
            fill(line, left, right);
        }
        row::done(length)
    }

    pub fn band(&mut self, request: &band::Request, bytes: &mut [u8]) -> Answer {
        let checked = band::check(request, bytes.len());
        if let Err(answer) = checked.and_then(|()| self.build(request.setting)) {
            return answer;
        }
        if let Some(pen) = &self.pen {
            let first = request.first_row as i64;
            let rows = (first, first + request.n_rows as i64);
            let (columns, stride) = (request.columns as i64, request.stride as usize);
            draw_rows(pen, request.path, columns, rows, stride, bytes);
        }
        row::done(request.n_rows as usize)
    }
}

#[cfg(test)]
mod tests {
    use super::*;
    use crate::calls::{some_call, Call};
    use crate::extent;
    use crate::large::{self, Drawing};
    use crate::lending::Tried;
    use crate::pbm::{self, Stroke};
    use crate::segments::random_segments;
    use crate::stream::Sequence;

    #[test]
    fn extents_are_the_literal_ones() {
        for record in random_segments(3_000, 11) {
            // The literal way walks along a segment, so only short ones.
            if (record.a.0 - record.b.0).abs() > 2_000 {
                continue;
            }
            let pen = Pen::new(record.setting).unwrap();
            let point = |p: (i32, i32)| (p.0 as i64, p.1 as i64);
            let (a, b) = (point(record.a), point(record.b));
            let own = pen.extent(a, b, record.row);
            assert_eq!(Ok(own), extent::extent(&record), "{record:?}");
            let (low, high) = pen.rows(a, b);
            assert!(own.is_none() || (low <= record.row && record.row <= high));
        }
    }

    #[test]
    fn answers_are_the_literal_ones() {
        let mut sequence = Sequence::new(12);
        for _ in 0..5_000 {
            let call: Call = some_call(&mut sequence);
            if !call.literally(&mut sequence) {
                continue;
            }
            let (mut own, mut literal) = (vec![0xEE; call.length], vec![0xEE; call.length]);
            let (fast_answer, answer) = (call.fast(&mut own), call.literal(&mut literal));
            assert_eq!((fast_answer, own), (answer, literal), "{call}");
        }
    }

    /// The literal packed row of a few columns from this one on, which starts a
    /// byte: the first columns of the drawing moved there. None where that is
    /// outside the limits.
    fn literal_piece(drawing: &Drawing, row: u64, column: u64) -> Option<Vec<u8>> {
        let left = [16 * column as i32, 0].into_iter().cycle();
        let piece = Drawing {
            columns: (drawing.columns - column).min(16),
            coordinates: drawing
                .coordinates
                .iter()
                .zip(left)
                .map(|(c, left)| c - left)
                .collect(),
            ..*drawing
        };
        let mut bytes = vec![0; 2];
        let answer = piece.call(true, row).literal(&mut bytes);
        bytes.truncate(answer.count);
        (answer.refusal == 0).then_some(bytes)
    }

    /// Rows of large drawings, at ends of runs and anywhere.
    #[test]
    fn pieces_of_large_rows_are_the_literal_ones() {
        let mut sequence = Sequence::new(14);
        let (mut pieces, mut mixed) = (0, 0);
        for _ in 0..1_000 {
            let row = sequence.below(16_000);
            let drawing = large::some_drawing(&mut sequence, row);
            let mut bytes = vec![0xEE; drawing.columns.div_ceil(8) as usize];
            let answer = drawing.call(true, row).fast(&mut bytes);
            assert_eq!(answer, row::done(bytes.len()));
            let ends: Vec<usize> = (0..bytes.len())
                .filter(|&i| ![0, 0xFF].contains(&bytes[i]))
                .collect();
            for anywhere in [false, true] {
                let at = match ends.len() as u64 {
                    n if n > 0 && !anywhere => ends[sequence.below(n) as usize],
                    _ => sequence.below(bytes.len() as u64) as usize,
                };
                if let Some(piece) = literal_piece(&drawing, row, 8 * at as u64) {
                    let own = &bytes[at..at + piece.len()];
                    assert_eq!(own, piece, "row {row}, byte {at} of {drawing:?}");
                    pieces += 1;
                    mixed += usize::from(ends.contains(&at));
                }
            }
        }
        assert!(pieces > 1_800 && mixed > 700, "{pieces} {mixed}");
    }

    #[test]
    fn films_are_the_literal_ones() {
        let mut sequence = Sequence::new(13);
        for _ in 0..150 {
            let call = some_call(&mut sequence);
            let (columns, rows) = (1 + sequence.below(40), 1 + sequence.below(40));
            let stroke = Stroke {
                setting: call.setting,
                path: call.path,
            };
            let Ok(file) = pbm::file(std::slice::from_ref(&stroke), columns, rows) else {
                continue;
            };
            let length = columns.div_ceil(8) as usize * rows as usize;
            let mut film = vec![0; length];
            let pen = Pen::new(stroke.setting).unwrap();
            draw(
                &pen,
                &stroke.path,
                columns as usize,
                rows as usize,
                &mut film,
            );
            assert_eq!(film, file[file.len() - length..]);
        }
    }

    #[test]
    fn stretches_are_filled() {
        for first in 0..24 {
            for last in first..24 {
                let mut line = [0; 3];
                fill(&mut line, first, last);
                for column in 0..24 {
                    let bit = line[column / 8] & (128 >> (column % 8)) != 0;
                    assert_eq!(bit, (first..=last).contains(&(column as i64)));
                }
            }
        }
    }
}
