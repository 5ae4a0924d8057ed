//! Band calls to try over the C boundary: good ones with ties forced, near and far,
//! over white, black and mixed films, and ones with one fault or several. Films are
//! mostly small; some bands are wide, some tall, and some paths long.

use crate::band::{band, Request};
use crate::calls::{bad_coordinate, bad_setting, far_number, far_segment, some_rows};
use crate::calls::{show_path, small_drawing, some_faults, spoil_length, spoil_size, within};
use crate::fast::Drawer;
use crate::large::{self, coordinates, some_size, Drawing};
use crate::lending::{Before, Lending, Tried};
use crate::row::{path_bytes, Answer};
use crate::segments::{between, some_setting, some_step, some_way};
use crate::setting::Setting;
use crate::stream::Sequence;
use std::fmt;

/// Of so many calls one has a large band.
const LARGE: u64 = 20;

/// How many times a segment is asked about a pixel, in a call that the literal way
/// always decides, and in the mean of the others.
const MOST_QUESTIONS: u64 = 120;

const MOST: i64 = 16_384;

/// One call.
pub struct Call {
    pub setting: Setting,
    pub path: Vec<u8>,
    pub columns: u64,
    pub rows: u64,
    pub first_row: u64,
    pub n_rows: u64,
    pub stride: u64,
    /// Of what is lent to be written, in bytes.
    pub length: usize,
    /// Its bytes before the call.
    pub film: Before,
    /// Whether slices of length 0 are lent as null pointers.
    pub null: bool,
}

impl Call {
    pub fn request(&self) -> Request<'_> {
        Request {
            setting: self.setting,
            path: &self.path,
            columns: self.columns,
            rows: self.rows,
            first_row: self.first_row,
            n_rows: self.n_rows,
            stride: self.stride,
        }
    }

    /// How often the literal way asks a segment about a pixel; not at all where it
    /// refuses.
    fn questions(&self) -> u64 {
        match crate::band::check(&self.request(), self.length) {
            Ok(()) => self.columns * self.n_rows * self.path.len() as u64 / 8,
            Err(_) => 0,
        }
    }
}

impl Tried for Call {
    fn lending(&self) -> Lending<'_> {
        Lending {
            path: &self.path,
            length: self.length,
            before: self.film,
            null: self.null,
        }
    }

    fn literal(&self, bytes: &mut [u8]) -> Answer {
        band(&self.request(), bytes)
    }

    fn fast(&self, bytes: &mut [u8]) -> Answer {
        Drawer::default().band(&self.request(), bytes)
    }

    /// Refused and tiny calls always, others the more rarely the larger they are. The
    /// largest would take minutes under valgrind.
    fn literally(&self, sequence: &mut Sequence) -> bool {
        let questions = self.questions();
        questions <= MOST_QUESTIONS
            || (questions < 2_000_000 && sequence.below(questions) < MOST_QUESTIONS)
    }
}

impl fmt::Display for Call {
    /// The whole call.
    fn fmt(&self, f: &mut fmt::Formatter) -> fmt::Result {
        let (w, p, q) = (self.setting.w, self.setting.p, self.setting.q);
        write!(
            f,
            "zimarolfo_band: w {w}, p {p}, q {q}, columns {}, rows {}, first_row {}, n_rows {}, \
             stride {}, {} bytes, {:?} before, path of {} bytes",
            self.columns,
            self.rows,
            self.first_row,
            self.n_rows,
            self.stride,
            self.length,
            self.film,
            self.path.len()
        )?;
        show_path(f, &self.path, self.null)
    }
}

/// The rows of a band, and of its film.
struct Band {
    rows: u64,
    first_row: u64,
    n_rows: u64,
}

/// A band of so many rows at most: of one, of all, at the bottom, at the top, or
/// anywhere.
fn some_band(sequence: &mut Sequence, rows: u64, most: u64) -> Band {
    let n_rows = match sequence.below(5) {
        0 => 1,
        1 if rows <= most => rows,
        _ => 1 + sequence.below(rows.min(most)),
    };
    let first_row = match sequence.below(6) {
        0 => 0,
        1 => rows - n_rows,
        _ => sequence.below(rows - n_rows + 1),
    };
    Band {
        rows,
        first_row,
        n_rows,
    }
}

/// A row of the band, or one beside it.
fn some_row(sequence: &mut Sequence, band: &Band) -> u64 {
    let (first, last) = (
        band.first_row as i64,
        (band.first_row + band.n_rows) as i64 - 1,
    );
    let row = match sequence.below(6) {
        0 => first + between(sequence, -2, 1),
        1 => last + between(sequence, -1, 2),
        _ => between(sequence, first, last),
    };
    row.max(0) as u64
}

fn small(sequence: &mut Sequence) -> (Drawing, Band) {
    let rows = some_rows(sequence);
    let band = some_band(sequence, rows, 16);
    let row = some_row(sequence, &band);
    (small_drawing(sequence, row), band)
}

/// Few rows of a wide film, or of one with a long path.
fn wide(sequence: &mut Sequence) -> (Drawing, Band) {
    let rows = within(sequence, 16_384);
    let band = some_band(sequence, rows, 6);
    let row = some_row(sequence, &band);
    (large::some_drawing(sequence, row), band)
}

/// From below the band to above it, in as many points as there may be, or few.
fn climb(sequence: &mut Sequence, setting: &Setting, columns: i64, band: &Band) -> Vec<(i64, i64)> {
    let step = some_step(sequence);
    let points = match sequence.below(8) {
        0 => [4_095, 4_096][sequence.below(2) as usize],
        1 => some_size(sequence, 8, 4_096),
        _ => between(sequence, 2, 7),
    };
    let low = 16 * band.first_row as i64 - between(sequence, -200, 200);
    let high = 16 * (band.first_row + band.n_rows) as i64 + between(sequence, -200, 200);
    let aside = 8 * setting.dx();
    let mut path: Vec<(i64, i64)> = (0..points)
        .map(|k| {
            let x = between(sequence, -aside, 16 * columns + aside).div_euclid(step) * step;
            let y = low + (high - low) * k / (points - 1);
            (x, y.div_euclid(step) * step)
        })
        .collect();
    if sequence.below(2) == 0 {
        path.reverse();
    }
    path
}

/// Short ways, each from anywhere in the band.
fn scattered(
    sequence: &mut Sequence,
    setting: &Setting,
    columns: i64,
    band: &Band,
) -> Vec<(i64, i64)> {
    let step = some_step(sequence);
    let mut path: Vec<(i64, i64)> = Vec::new();
    for _ in 0..=sequence.below(6) {
        let row = band.first_row + sequence.below(band.n_rows);
        let x = between(sequence, 0, 16 * columns).div_euclid(step) * step;
        let (right, up) = some_way(sequence, setting, step);
        let y = 16 * row as i64;
        path.extend([(x, y), (x + right, y + up)]);
    }
    path
}

/// Many rows of a narrow film, or all of one of some size.
fn tall(sequence: &mut Sequence) -> (Drawing, Band) {
    let setting = some_setting(sequence);
    let n_rows = match sequence.below(20) {
        0 => MOST,
        1 | 2 => between(sequence, 4_000, 6_000),
        3..=6 => 256 * (1 + sequence.below(4) as i64) + between(sequence, -1, 1),
        _ => some_size(sequence, 100, 2_000),
    };
    let columns = match sequence.below(6) {
        0 => between(sequence, 1, (1_000_000 / n_rows).min(600)),
        _ => between(sequence, 1, 40),
    };
    let rows = match sequence.below(2) {
        0 => n_rows,
        _ => between(sequence, n_rows, MOST),
    };
    let band = Band {
        rows: rows as u64,
        first_row: sequence.below((rows - n_rows) as u64 + 1),
        n_rows: n_rows as u64,
    };
    let points = match sequence.below(8) {
        0 | 1 => {
            let row = band.first_row + sequence.below(band.n_rows);
            let x = 8 * between(sequence, 0, 2 * columns);
            far_segment(sequence, (x, 16 * row as i64)).to_vec()
        }
        2 | 3 => scattered(sequence, &setting, columns, &band),
        _ => climb(sequence, &setting, columns, &band),
    };
    let drawing = Drawing {
        setting,
        columns: columns as u64,
        coordinates: coordinates(&points),
    };
    (drawing, band)
}

/// From one row of the film to the next in memory; and how many bytes are lent.
fn some_room(sequence: &mut Sequence, columns: u64, n_rows: u64) -> (u64, usize) {
    let needed = columns.div_ceil(8);
    let stride = match sequence.below(8) {
        0..=3 => needed,
        4..=6 => needed + 1 + sequence.below(9),
        _ => needed.next_multiple_of(8) + 8 * sequence.below(4),
    };
    let over = match sequence.below(4) {
        0 => sequence.below(stride),
        1 => stride + sequence.below(2 * stride),
        _ => 0,
    };
    (stride, (stride * n_rows + over) as usize)
}

/// Rows that are not all there.
fn spoil_rows(sequence: &mut Sequence, band: &mut Band) {
    let above = band.rows - band.first_row;
    match sequence.below(8) {
        0 => band.first_row = band.rows,
        1 => band.first_row = band.rows + sequence.below(20),
        2 => band.first_row = far_number(sequence).max(band.rows),
        3 => band.n_rows = 0,
        4 => band.n_rows = above + 1,
        5 => band.n_rows = above + 1 + sequence.below(20),
        6 => band.n_rows = far_number(sequence).max(above + 1),
        // Their end comes back into the film in 64 bits.
        _ => {
            let end = sequence.below(band.rows + 1);
            band.n_rows = end.wrapping_sub(band.first_row);
            if band.n_rows <= above {
                band.n_rows = u64::MAX - sequence.below(3);
            }
        }
    }
}

/// Room in which not all rows fit.
fn spoil_room(sequence: &mut Sequence, columns: u64, n_rows: u64, room: &mut (u64, usize)) {
    let needed = columns.div_ceil(8);
    let (stride, length) = room;
    let all = (*stride * n_rows) as usize;
    match sequence.below(9) {
        0 => *stride = needed - 1,
        1 => *stride = sequence.below(needed),
        2 => *stride = 0,
        3 | 4 => *length = all - 1,
        5 => *length = sequence.below(all as u64) as usize,
        6 => *length = 0,
        7 => *stride = far_number(sequence),
        // The product with the rows comes back to a small number in 64 bits.
        _ => *stride = u64::MAX / n_rows + 1 + sequence.below(2),
    }
}

pub fn some_call(sequence: &mut Sequence) -> Call {
    let large = sequence.below(LARGE) == 0;
    let (drawing, mut band) = match large {
        true if sequence.below(2) == 0 => wide(sequence),
        true => tall(sequence),
        false => small(sequence),
    };
    let Drawing {
        mut setting,
        mut columns,
        mut coordinates,
    } = drawing;
    let mut room = some_room(sequence, columns, band.n_rows);

    let faults = match sequence.below(10) {
        0..=2 => some_faults(sequence, large, &[3, 3, 3, 7], &[1, 2, 4, 5, 5, 3, 7, 7, 7]),
        _ => Vec::new(),
    };
    let has = |fault: u8| faults.contains(&fault);
    if has(3) {
        // What is refused costs little, so its path may well be long.
        if large && sequence.below(2) == 0 {
            let entries = 2 * some_size(sequence, 512, 4_096) as usize;
            coordinates = coordinates.into_iter().cycle().take(entries).collect();
        }
        for _ in 0..=sequence.below(2) {
            let entries = coordinates.len() as u64;
            let index = match sequence.below(if large { 2 } else { 4 }) {
                0 => entries - 1 - sequence.below(entries.min(4)),
                _ => sequence.below(entries),
            } as usize;
            coordinates[index] = bad_coordinate(sequence);
        }
    }
    let mut path = path_bytes(&coordinates);
    if has(2) {
        spoil_length(sequence, &mut path);
    }
    if has(1) {
        setting = bad_setting(sequence);
    }
    if has(7) {
        spoil_room(sequence, columns, band.n_rows, &mut room);
    }
    if has(5) {
        spoil_rows(sequence, &mut band);
    }
    if has(4) {
        spoil_size(sequence, &mut columns, &mut band.rows);
    }
    let film = match sequence.below(6) {
        0 | 1 => Before::All(0),
        2 => Before::All(0xFF),
        3 => Before::All(1 << sequence.below(8)),
        _ => Before::Mixed,
    };
    Call {
        setting,
        path,
        columns,
        rows: band.rows,
        first_row: band.first_row,
        n_rows: band.n_rows,
        stride: room.0,
        length: room.1,
        film,
        null: sequence.below(2) == 0,
    }
}

#[cfg(test)]
mod tests {
    use super::*;
    use crate::band_kinds::{Kinds, Outcome};
    use crate::row::{done, packed_row};

    /// Every refusal comes often, and every kind of call.
    #[test]
    fn kinds() {
        let mut sequence = Sequence::new(1);
        let mut kinds = Kinds::default();
        for _ in 0..20_000 {
            let call = some_call(&mut sequence);
            let before = vec![0; call.length];
            let mut after = before.clone();
            let answer = call.fast(&mut after);
            kinds.count(&Outcome {
                call: &call,
                answer,
                before: &before,
                after: &after,
            });
        }
        assert!(kinds.rarest() >= 10, "{kinds}");
    }

    /// Rows of large bands that the fast way draws, each against the packed row: the
    /// literal one where that is not too long, else the fast one.
    #[test]
    fn rows_of_large_bands_are_packed_rows() {
        let mut sequence = Sequence::new(3);
        let mut drawer = Drawer::default();
        let (mut literal, mut fast, mut black) = (0, 0, 0);
        for i in 0..1_000 {
            let (drawing, band) = match i % 2 {
                0 => wide(&mut sequence),
                _ => tall(&mut sequence),
            };
            let length = drawing.columns.div_ceil(8) as usize;
            let path = path_bytes(&drawing.coordinates);
            let asked = Request {
                setting: drawing.setting,
                path: &path,
                columns: drawing.columns,
                rows: band.rows,
                first_row: band.first_row,
                n_rows: band.n_rows,
                stride: length as u64,
            };
            let mut bytes = vec![0; length * band.n_rows as usize];
            assert_eq!(drawer.band(&asked, &mut bytes), done(band.n_rows as usize));
            for _ in 0..5 {
                let below_top = match sequence.below(3) {
                    0 => sequence.below(band.n_rows.div_ceil(256)) * 256,
                    _ => sequence.below(band.n_rows),
                };
                let row = asked.row(band.first_row + band.n_rows - 1 - below_top);
                let mut packed = vec![0; length];
                let short = drawing.columns * drawing.coordinates.len() as u64 <= 10_000;
                let answer = match short {
                    true => packed_row(&row, &mut packed),
                    false => drawer.packed_row(&row, &mut packed),
                };
                assert_eq!(answer, done(length));
                let start = length * below_top as usize;
                assert!(
                    bytes[start..start + length] == packed,
                    "{below_top} {drawing:?}"
                );
                literal += usize::from(short);
                fast += usize::from(!short);
                black += usize::from(short && packed.iter().any(|&byte| byte != 0));
            }
        }
        assert!(
            literal > 2_000 && fast > 1_000 && black > 1_000,
            "{literal} {fast} {black}"
        );
    }

    /// The fast way is held to the literal one, here on larger calls than those that
    /// are always tried.
    #[test]
    fn answers_are_the_literal_ones() {
        let mut sequence = Sequence::new(2);
        let (mut compared, mut changed) = (0, 0);
        while compared < 4_000 {
            let call = some_call(&mut sequence);
            let questions = call.questions();
            if questions > 20_000 || (questions > 1_000 && sequence.below(questions) > 1_000) {
                continue;
            }
            let mut own = vec![0; call.length];
            let mut literal = own.clone();
            let (fast_answer, answer) = (call.fast(&mut own), call.literal(&mut literal));
            changed += usize::from(literal.iter().any(|&byte| byte != 0));
            assert!(fast_answer == answer && own == literal, "{call}");
            compared += 1;
        }
        assert!(changed > 1_000, "{changed}");
    }
}
