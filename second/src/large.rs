//! Large drawings to try: wide films with black far to the right, combs of many
//! runs, and long paths of which only a few segments touch the row.

use crate::calls::Call;
use crate::row::path_bytes;
use crate::segments::{between, some_setting, some_step, some_way, LIMIT};
use crate::setting::Setting;
use crate::stream::Sequence;

/// What is drawn, but for the row.
#[derive(Debug)]
pub struct Drawing {
    pub setting: Setting,
    pub columns: u64,
    pub coordinates: Vec<i32>,
}

impl Drawing {
    /// One row of it, the last of a film, asked for.
    pub fn call(&self, packed: bool, row: u64) -> Call {
        Call {
            packed,
            setting: self.setting,
            path: path_bytes(&self.coordinates),
            columns: self.columns,
            rows: row + 1,
            row,
            length: 0,
            null: false,
        }
    }
}

type Point = (i64, i64);

const MOST_COLUMNS: i64 = 16_384;
const MOST_POINTS: i64 = 4_096;

/// The path's entries, each point brought within the limits.
pub fn coordinates(points: &[Point]) -> Vec<i32> {
    let within = |c: i64| c.clamp(-LIMIT, LIMIT) as i32;
    let entries = points.iter().flat_map(|&(x, y)| [within(x), within(y)]);
    entries.collect()
}

/// A number of any magnitude.
pub(crate) fn some_size(sequence: &mut Sequence, least: i64, most: i64) -> i64 {
    let halvings = (most / least).ilog2() as u64 + 1;
    let top = most >> sequence.below(halvings);
    between(sequence, least, top.max(least))
}

fn some_columns(sequence: &mut Sequence) -> i64 {
    match sequence.below(4) {
        0 => MOST_COLUMNS - sequence.below(2) as i64 * sequence.below(20) as i64,
        _ => some_size(sequence, 64, MOST_COLUMNS),
    }
}

/// A column: at the right end or past it, next to a power of two or to the border
/// of a byte, or anywhere.
fn some_column(sequence: &mut Sequence, columns: i64) -> i64 {
    let anywhere = between(sequence, 0, columns - 1);
    match sequence.below(4) {
        0 => columns + between(sequence, -20, 3),
        1 => (1 << sequence.below(15)) + between(sequence, -3, 3),
        2 => anywhere / 8 * 8 + between(sequence, -1, 1),
        _ => anywhere,
    }
}

/// A few points near the row, each a short way from the last or anywhere on the
/// film.
fn strokes(sequence: &mut Sequence, row: i64) -> Drawing {
    let setting = some_setting(sequence);
    let columns = some_columns(sequence);
    let step = some_step(sequence);
    let reach = 8 * setting.dy() + 24;
    let mut points: Vec<Point> = Vec::new();
    for _ in 0..=sequence.below(6) {
        let point = match points.last() {
            Some(&(x, y)) if sequence.below(2) == 0 => {
                let (right, up) = some_way(sequence, &setting, step);
                (x + right, y + up)
            }
            _ => {
                let aside = between(sequence, -16, 16).div_euclid(step) * step;
                let up = between(sequence, -reach, reach).div_euclid(step) * step;
                (16 * some_column(sequence, columns) + aside, 16 * row + up)
            }
        };
        points.push(point);
    }
    Drawing {
        setting,
        columns: columns as u64,
        coordinates: coordinates(&points),
    }
}

/// Points at these x, so far from the row that it stays white, on one side of it
/// and then on the other: only the segments that change sides touch the row.
fn weave(
    sequence: &mut Sequence,
    far: i64,
    row: i64,
    xs: &[i64],
    crosses: impl Fn(usize) -> bool,
) -> Vec<i32> {
    let mut side = [-1, 1][sequence.below(2) as usize];
    let mut points = Vec::new();
    for (i, &x) in xs.iter().enumerate() {
        if i > 0 && crosses(i - 1) {
            side = -side;
        }
        points.push((x, 16 * row + side * (far + between(sequence, 0, 64))));
    }
    coordinates(&points)
}

/// Where a comb turns: at both ends of each upright leg, the legs in any order, or
/// once between any two of a zigzag, from one end to the other.
fn turns(
    sequence: &mut Sequence,
    legs: i64,
    zigzag: bool,
    column_of: impl Fn(i64) -> i64,
) -> Vec<i64> {
    let (places, times) = if zigzag { (legs + 1, 1) } else { (legs, 2) };
    let (order, aside) = (sequence.below(3), between(sequence, 0, 15));
    let shake = [0, 0, 0, 8][sequence.below(4) as usize];
    let mut xs = Vec::new();
    for i in 0..places {
        let place = match order {
            0 => places - 1 - i,
            // A prime that divides no number of legs, so each comes once.
            1 if !zigzag => i * 7_919 % places,
            _ => i,
        };
        let x = 16 * column_of(place) + aside + between(sequence, 0, shake);
        xs.extend([x].repeat(times));
    }
    xs
}

/// A comb of so many legs, apart from each other but where they are shaken. As a
/// zigzag it has the most legs that a path can have.
fn comb(sequence: &mut Sequence, row: i64, legs: i64) -> Drawing {
    let zigzag = 2 * legs > MOST_POINTS || sequence.below(3) == 0;
    // A slanted leg may be a little wider than an upright one.
    let gap = if zigzag { 2 } else { 1 };
    let mut setting = some_setting(sequence);
    while legs * (setting.dx() + gap) > MOST_COLUMNS {
        setting = some_setting(sequence);
    }
    let widest = (MOST_COLUMNS / legs).min(setting.dx() + 8);
    let apart = between(sequence, setting.dx() + gap, widest);
    let needed = legs * apart;
    let columns = match sequence.below(2) {
        0 => needed,
        _ => between(sequence, needed, MOST_COLUMNS),
    };
    // At the right end or past it, or anywhere.
    let left = match sequence.below(3) {
        0 => columns - needed + between(sequence, 0, 3),
        _ => between(sequence, 0, columns - needed),
    };
    let xs = turns(sequence, legs, zigzag, |place| left + apart * place);
    // Steep, so that slanted legs are hardly wider.
    let far = 8 * setting.dy() + some_size(sequence, 1_000, LIMIT);
    Drawing {
        setting,
        columns: columns as u64,
        coordinates: weave(sequence, far, row, &xs, |i| zigzag || i % 2 == 0),
    }
}

fn some_legs(sequence: &mut Sequence) -> i64 {
    match sequence.below(8) {
        0 => MOST_POINTS - 1,
        1 => between(sequence, 254, 258),
        _ => some_size(sequence, 8, MOST_POINTS - 1),
    }
}

/// A long path that touches the row on its last segment, its first, the one in
/// the middle, any other, or a few of these.
fn long_path(sequence: &mut Sequence, row: i64) -> Drawing {
    let setting = some_setting(sequence);
    let columns = some_columns(sequence);
    let points = match sequence.below(2) {
        0 => [33, 64, 65, 120, 121, 200, 1_000, 4_095, 4_096][sequence.below(9) as usize],
        _ => some_size(sequence, 33, MOST_POINTS) as usize,
    };
    let crossings: Vec<usize> = (0..=sequence.below(3))
        .map(|_| match sequence.below(6) {
            0 => 0,
            1 => points / 2 - 1,
            2 => sequence.below(points as u64 - 1) as usize,
            _ => points - 2,
        })
        .collect();
    let middle = 16 * some_column(sequence, columns);
    let xs: Vec<i64> = (0..points)
        .map(|_| middle + between(sequence, -300, 300))
        .collect();
    let far = 8 * setting.dy() + some_size(sequence, 16, LIMIT);
    Drawing {
        setting,
        columns: columns as u64,
        coordinates: weave(sequence, far, row, &xs, |i| crossings.contains(&i)),
    }
}

pub fn some_drawing(sequence: &mut Sequence, row: u64) -> Drawing {
    let row = row as i64;
    match sequence.below(8) {
        0..=2 => strokes(sequence, row),
        3..=4 => long_path(sequence, row),
        _ => {
            let legs = some_legs(sequence);
            comb(sequence, row, legs)
        }
    }
}
