//! Row calls to try over the C boundary: good ones with ties forced, near and
//! far, and ones with one fault or several, each just beyond a limit or far
//! beyond it. Rasters and paths are mostly small, so that a call is cheap; some
//! are as large as they may be.

use crate::fast::Drawer;
use crate::large::{self, coordinates, Drawing};
use crate::lending::{Before, Lending, Tried};
use crate::row::{packed_row, path_bytes, row_answer, Answer, Request};
use crate::segments::{between, some_setting, some_step, some_way, LIMIT};
use crate::setting::Setting;
use crate::stream::Sequence;
use std::fmt;

/// Of so many calls one has a large drawing.
const LARGE: u64 = 15;

/// How many segments are asked about a column, in a call that the literal way
/// always decides.
pub const MOST_QUESTIONS: u64 = 40_000;

/// One call of one of the two functions.
pub struct Call {
    pub packed: bool,
    pub setting: Setting,
    pub path: Vec<u8>,
    pub columns: u64,
    pub rows: u64,
    pub row: u64,
    /// Of the list of runs, or of the packed row's buffer, in bytes.
    pub length: usize,
    /// Whether slices of length 0 are lent as null pointers.
    pub null: bool,
}

impl Call {
    pub fn request(&self) -> Request<'_> {
        Request {
            setting: self.setting,
            path: &self.path,
            columns: self.columns,
            rows: self.rows,
            row: self.row,
        }
    }

    /// How often the literal way asks a segment about a column; not at all where
    /// it refuses the film.
    fn questions(&self) -> u64 {
        match self.columns {
            columns @ ..=16_384 => columns * self.path.len() as u64 / 8,
            _ => 0,
        }
    }

    pub fn is_large(&self) -> bool {
        self.questions() > MOST_QUESTIONS
    }
}

impl Tried for Call {
    fn lending(&self) -> Lending<'_> {
        Lending {
            path: &self.path,
            length: self.length,
            before: Before::Mixed,
            null: self.null,
        }
    }

    fn literal(&self, lent: &mut [u8]) -> Answer {
        match self.packed {
            true => packed_row(&self.request(), lent),
            false => row_answer(&self.request(), lent),
        }
    }

    fn fast(&self, lent: &mut [u8]) -> Answer {
        let mut drawer = Drawer::default();
        match self.packed {
            true => drawer.packed_row(&self.request(), lent),
            false => drawer.row_answer(&self.request(), lent),
        }
    }

    /// Small calls always, large ones the more rarely the larger they are, so that each
    /// costs 10,000 questions in the mean. The largest would take minutes under valgrind.
    fn literally(&self, sequence: &mut Sequence) -> bool {
        let questions = self.questions();
        !self.is_large() || (questions < 2_000_000 && sequence.below(questions) < 10_000)
    }
}

impl fmt::Display for Call {
    /// The whole call.
    fn fmt(&self, f: &mut fmt::Formatter) -> fmt::Result {
        let name = match self.packed {
            false => "zimarolfo_row",
            true => "zimarolfo_packed_row",
        };
        let (w, p, q) = (self.setting.w, self.setting.p, self.setting.q);
        write!(
            f,
            "{name}: w {w}, p {p}, q {q}, columns {}, rows {}, row {}, room of {} bytes, path of {} bytes",
            self.columns,
            self.rows,
            self.row,
            self.length,
            self.path.len()
        )?;
        show_path(f, &self.path, self.null)
    }
}

/// The end of a call that is shown: its path, after whether null stands for no bytes.
pub(crate) fn show_path(f: &mut fmt::Formatter, path: &[u8], null: bool) -> fmt::Result {
    let fours = path.chunks_exact(4);
    let left_over = fours.remainder();
    let coordinates: Vec<i32> = fours
        .map(|four| i32::from_le_bytes([four[0], four[1], four[2], four[3]]))
        .collect();
    if null {
        write!(f, ", null for length 0")?;
    }
    write!(f, "\n path {coordinates:?}")?;
    if !left_over.is_empty() {
        write!(f, " and the bytes {left_over:?}")?;
    }
    Ok(())
}

/// Numbers that are out of most limits, and such as come back into them in
/// narrower arithmetic.
pub(crate) fn far_number(sequence: &mut Sequence) -> u64 {
    let small = sequence.below(20);
    match sequence.below(5) {
        0 => u64::MAX,
        1 => u64::MAX - small,
        2 => (1 << (14 + sequence.below(50))) + small,
        3 => sequence.next(),
        _ => 1 << 63,
    }
}

pub(crate) fn bad_setting(sequence: &mut Sequence) -> Setting {
    loop {
        let mut bad = some_setting(sequence);
        match sequence.below(8) {
            0 => bad.w = [0, 1, 15, 513, 514, 1_024][sequence.below(6) as usize],
            1 => bad.p = [0, 17, 18][sequence.below(3) as usize],
            2 => bad.q = [0, 17, 18][sequence.below(3) as usize],
            3 => bad.w = far_number(sequence),
            4 => bad.p = far_number(sequence),
            5 => bad.q = far_number(sequence),
            6 => {
                let (w, p, q) = (far_number(sequence), far_number(sequence), sequence.next());
                bad = Setting::new(w, p, q);
            }
            // Each number good by itself, w*p against q bad.
            _ => {
                bad.p = 1 + sequence.below(16);
                bad.q = 1 + sequence.below(16);
            }
        }
        if !bad.within_limits() {
            return bad;
        }
    }
}

pub(crate) fn within(sequence: &mut Sequence, most: u64) -> u64 {
    match sequence.below(6) {
        0 => most,
        1 => 1,
        _ => 1 + sequence.below(most),
    }
}

/// A straight path through a point, its ends far off.
pub(crate) fn far_segment(sequence: &mut Sequence, (x, y): (i64, i64)) -> [(i64, i64); 2] {
    let direction = match sequence.below(4) {
        0 => (1, 0),
        1 => (0, 1),
        2 => (between(sequence, -4, 4), between(sequence, -4, 4)),
        _ => (
            between(sequence, -5_000, 5_000),
            between(sequence, -5_000, 5_000),
        ),
    };
    // As far as the limits let it, or less.
    let most = |from: i64, step: i64| match step {
        0 => LIMIT,
        step => (LIMIT - from * step.signum()) / step.abs(),
    };
    let mut end = |sign: i64| {
        let (u, v) = (sign * direction.0, sign * direction.1);
        let times = most(x, u).min(most(y, v));
        let times = match sequence.below(2) {
            0 => times,
            _ => between(sequence, 0, times),
        };
        (x + times * u, y + times * v)
    };
    [end(1), end(-1)]
}

fn good_path(sequence: &mut Sequence, setting: &Setting, columns: u64, row: u64) -> Vec<i32> {
    let step = some_step(sequence);
    let side = 16 * columns.min(64) as i64;
    let x = between(sequence, -64, side + 64).div_euclid(step) * step;
    let reach = 8 * setting.dy() + 24;
    let y = 16 * row as i64 + between(sequence, -reach, reach).div_euclid(step) * step;
    let start = (x.clamp(-LIMIT, LIMIT), y.clamp(-LIMIT, LIMIT));
    let mut points = vec![start];
    let count = match sequence.below(1_000) {
        // Only over few columns: each point costs.
        0 if columns <= 8 => 4_096,
        1 if columns <= 8 => 4_095,
        n if n < 10 => 7 + sequence.below(100) as usize,
        n if n % 5 == 0 => 1,
        n if n % 5 <= 2 => 2,
        _ => 3 + sequence.below(4) as usize,
    };
    if count > 1 && sequence.below(10) == 0 {
        points.clear();
        points.extend(far_segment(sequence, start));
    }
    while points.len() < count {
        let (x, y) = *points.last().expect("a path has a start");
        let (right, up) = match sequence.below(12) {
            0 => (0, 0),
            // Back to the start.
            1 => (start.0 - x, start.1 - y),
            _ => some_way(sequence, setting, step),
        };
        points.push((
            (x + right).clamp(-LIMIT, LIMIT),
            (y + up).clamp(-LIMIT, LIMIT),
        ));
    }
    coordinates(&points)
}

/// Up and down across the row, the legs beside each other: overlapping, touching
/// or apart, so that there are several runs.
fn comb(sequence: &mut Sequence, setting: &Setting, row: u64) -> Vec<i32> {
    let step = some_step(sequence);
    let height = 8 * setting.dy() + 16;
    let mut above = sequence.below(2) == 0;
    let mut x = 16 * between(sequence, -2, 8);
    let mut coordinates = Vec::new();
    for _ in 0..2 + sequence.below(6) {
        let far = height + between(sequence, 0, 4) * step;
        let y = 16 * row as i64 + if above { far } else { -far };
        coordinates.extend([x as i32, y as i32]);
        if sequence.below(3) > 0 {
            x += 16 * setting.dx() + step * between(sequence, -1, 3);
            coordinates.extend([x as i32, y as i32]);
        }
        above = !above;
        x += between(sequence, -1, 2) * step;
    }
    coordinates
}

pub(crate) fn bad_coordinate(sequence: &mut Sequence) -> i32 {
    let limit = LIMIT as i32;
    let beyond = limit + 1 + sequence.below(4) as i32;
    match sequence.below(6) {
        0 | 1 => beyond,
        2 | 3 => -beyond,
        4 => [i32::MIN, i32::MAX, i32::MIN + 1][sequence.below(3) as usize],
        _ => limit + 1 + sequence.below(1 << 30) as i32,
    }
}

/// A path's bytes made bad in their number.
pub(crate) fn spoil_length(sequence: &mut Sequence, path: &mut Vec<u8>) {
    let longest = 4 * 8_192;
    match sequence.below(60) {
        0 => path.resize(longest + [1, 4, 7, 8][sequence.below(4) as usize], 0),
        // As many entries as 2, and 4, in sixteen bits.
        1 => path.resize(4 * (65_536 + 2 + 2 * sequence.below(2) as usize), 0),
        n if n < 20 => path.clear(),
        n if n < 40 => path.truncate(path.len() - 4),
        _ => path.truncate(path.len() - [1, 2, 3, 5, 6, 7][sequence.below(6) as usize]),
    }
}

/// A film's columns, or its rows, made too many or none.
pub(crate) fn spoil_size(sequence: &mut Sequence, columns: &mut u64, rows: &mut u64) {
    let size = match sequence.below(4) {
        0 => 0,
        1 => 16_385,
        2 => 16_385 + sequence.below(20),
        _ => far_number(sequence).max(16_385),
    };
    match sequence.below(2) {
        0 => *columns = size,
        _ => *rows = size,
    }
}

/// The refusals that one to three faults are for. What is wrong with a large call is
/// mostly what its size makes possible.
pub(crate) fn some_faults(
    sequence: &mut Sequence,
    large: bool,
    of_large: &[u8],
    of_all: &[u8],
) -> Vec<u8> {
    let count = 1 + sequence.below(3);
    let mut some_fault = || {
        let refusals = match large && sequence.below(4) > 0 {
            true => of_large,
            false => of_all,
        };
        refusals[sequence.below(refusals.len() as u64) as usize]
    };
    (0..count).map(|_| some_fault()).collect()
}

/// How many rows a film has: mostly few.
pub(crate) fn some_rows(sequence: &mut Sequence) -> u64 {
    match sequence.below(4) {
        0 => within(sequence, 16_384),
        _ => within(sequence, 40),
    }
}

fn some_columns(sequence: &mut Sequence) -> u64 {
    match sequence.below(2_000) {
        0 => 16_384,
        1 => 1 + sequence.below(16_384),
        n if n % 4 == 0 => 8 * (1 + sequence.below(5)) - sequence.below(2),
        _ => within(sequence, 40),
    }
}

/// How many bytes are lent; `runs` is the number of runs where it is known.
fn some_length(
    sequence: &mut Sequence,
    packed: bool,
    columns: u64,
    runs: Option<u64>,
    short: bool,
) -> usize {
    let columns = columns.min(16_384);
    if packed {
        let needed = columns.div_ceil(8);
        match short {
            true => sequence.below(needed + 1).saturating_sub(1) as usize,
            false if sequence.below(2) == 0 => needed as usize,
            false => (needed + sequence.below(10)) as usize,
        }
    } else {
        let room = match (short, runs) {
            (true, Some(runs)) if sequence.below(3) > 0 => runs.saturating_sub(1),
            (true, _) => sequence.below(2),
            (false, Some(runs)) if sequence.below(2) == 0 => runs,
            (false, Some(runs)) => runs + sequence.below(10),
            (false, None) if sequence.below(3) == 0 => columns.div_ceil(2),
            (false, None) => 1 + sequence.below(5),
        };
        let left_over = match sequence.below(4) {
            0 => sequence.below(4),
            _ => 0,
        };
        (4 * room + left_over) as usize
    }
}

pub(crate) fn small_drawing(sequence: &mut Sequence, row: u64) -> Drawing {
    let mut setting = some_setting(sequence);
    let mut columns = some_columns(sequence);
    let coordinates = match sequence.below(4) {
        0 => {
            while setting.dx() > 6 {
                setting = some_setting(sequence);
            }
            if columns < 64 {
                columns += 20;
            }
            comb(sequence, &setting, row)
        }
        _ => good_path(sequence, &setting, columns, row),
    };
    Drawing {
        setting,
        columns,
        coordinates,
    }
}

fn runs_of(drawing: &Drawing, row: u64) -> u64 {
    let mut list = [0; 4 * 8_192];
    drawing.call(false, row).fast(&mut list).count as u64
}

pub fn some_call(sequence: &mut Sequence) -> Call {
    let packed = sequence.below(2) == 0;
    let mut rows = some_rows(sequence);
    let mut row = match sequence.below(6) {
        0 => rows - 1,
        _ => sequence.below(rows),
    };
    let large = sequence.below(LARGE) == 0;
    let drawing = match large {
        true => large::some_drawing(sequence, row),
        false => small_drawing(sequence, row),
    };
    let runs = large.then(|| runs_of(&drawing, row));
    let Drawing {
        mut setting,
        mut columns,
        mut coordinates,
    } = drawing;

    let faults = match sequence.below(10) {
        0..=3 => some_faults(sequence, large, &[3, 7], &[1, 2, 4, 5, 3, 7, 7, 7]),
        _ => Vec::new(),
    };
    let has = |fault: u8| faults.contains(&fault);
    if has(3) {
        for _ in 0..=sequence.below(2) {
            let index = match sequence.below(4) {
                0 => coordinates.len() - 1,
                _ => sequence.below(coordinates.len() as u64) as usize,
            };
            coordinates[index] = bad_coordinate(sequence);
        }
    }
    let mut path = path_bytes(&coordinates);
    if has(2) {
        spoil_length(sequence, &mut path);
    }
    if has(1) {
        setting = bad_setting(sequence);
    }
    if has(5) {
        row = match sequence.below(3) {
            0 => rows,
            1 => far_number(sequence).max(rows),
            _ => rows + sequence.below(20),
        };
    }
    if has(4) {
        spoil_size(sequence, &mut columns, &mut rows);
    }
    let length = some_length(sequence, packed, columns, runs, has(7));
    Call {
        packed,
        setting,
        path,
        columns,
        rows,
        row,
        length,
        null: sequence.below(2) == 0,
    }
}

#[cfg(test)]
mod tests {
    use super::*;
    use crate::kinds::{Kinds, Outcome};

    /// Every refusal comes often, alone and before others, and so do rows with
    /// black pixels, long paths, wide rasters, limits that are taken, and what only
    /// large calls reach.
    #[test]
    fn kinds() {
        let mut sequence = Sequence::new(1);
        let mut refusals = [0; 8];
        let mut kinds = Kinds::default();
        let (mut black, mut empty, mut several, mut null) = (0, 0, 0, 0);
        let (mut long, mut wide, mut far, mut exact) = (0, 0, 0, 0);
        for _ in 0..20_000 {
            let call = some_call(&mut sequence);
            let mut lent = vec![0; call.length];
            let answer = call.fast(&mut lent);
            let outcome = Outcome {
                call: &call,
                answer,
                lent: &lent,
            };
            kinds.count(&outcome);
            refusals[answer.refusal as usize] += 1;
            null += usize::from(call.null && (call.length == 0 || call.path.is_empty()));
            if answer.refusal != 0 {
                continue;
            }
            black += usize::from(outcome.black());
            empty += usize::from(!outcome.black());
            several += usize::from(!call.packed && answer.count > 1);
            long += usize::from(call.path.len() == 4 * 8_192);
            wide += usize::from(call.columns == 16_384);
            exact +=
                usize::from(!call.packed && answer.count > 0 && answer.count == call.length / 4);
            far += usize::from(call.path.chunks(4).any(|four| {
                i32::from_le_bytes([four[0], four[1], four[2], four[3]]).abs() == 262_144
            }));
        }
        for refusal in [0, 1, 2, 3, 4, 5, 7] {
            assert!(refusals[refusal] > 500, "{refusals:?}");
        }
        assert_eq!(refusals[6], 0);
        assert!(black > 5_000 && empty > 1_000, "{black} {empty}");
        assert!(
            several > 400 && null > 200 && exact > 500,
            "{several} {null} {exact}"
        );
        assert!(long > 0 && wide > 0 && far > 100, "{long} {wide} {far}");
        assert!(kinds.rarest() >= 10, "{kinds}");
    }
}
