//! Segments to try, with ties forced: coordinates often on pixel centres and
//! halfway between, paths often along an edge of the pen, rows often the first
//! and the last that the pen touches.

use crate::extent::Record;
use crate::pen;
use crate::setting::Setting;
use crate::stream::Sequence;

pub const LIMIT: i64 = 262_144;

pub fn between(sequence: &mut Sequence, a: i64, b: i64) -> i64 {
    a + sequence.below((b - a) as u64 + 1) as i64
}

/// A good setting; every second one small, so that ties are frequent.
pub fn some_setting(sequence: &mut Sequence) -> Setting {
    loop {
        let widest = if sequence.below(2) == 0 { 128 } else { 512 };
        let w = between(sequence, 16, widest) as u64;
        let w = if sequence.below(3) == 0 {
            w - w % 16
        } else {
            w
        };
        let (p, q) = match sequence.below(3) {
            0 => (1, 1),
            _ => (1 + sequence.below(16), 1 + sequence.below(16)),
        };
        let setting = Setting::new(w, p, q);
        if setting.within_limits() {
            return setting;
        }
    }
}

/// What coordinates are multiples of: pixels, half pixels, or nothing much.
pub fn some_step(sequence: &mut Sequence) -> i64 {
    [16, 16, 8, 8, 8, 4, 1][sequence.below(7) as usize]
}

/// A coordinate: mostly near 0 on either side, sometimes near a limit.
fn some_coordinate(sequence: &mut Sequence, step: i64) -> i64 {
    let near = match sequence.below(12) {
        0 => between(sequence, LIMIT - 400, LIMIT),
        1 => -between(sequence, LIMIT - 400, LIMIT),
        2 => between(sequence, -LIMIT, LIMIT),
        _ => between(sequence, -300, 300),
    };
    near.div_euclid(step) * step
}

/// From the first end to the second, for a short segment.
pub fn some_way(sequence: &mut Sequence, setting: &Setting, step: i64) -> (i64, i64) {
    let mut sign = |n: i64| if sequence.below(2) == 0 { n } else { -n };
    let (right, up) = (sign(1), sign(1));
    let length = |sequence: &mut Sequence| between(sequence, 1, 1 + 200 / step) * step;
    match sequence.below(8) {
        0 => (0, 0),
        1 => (right * length(sequence), 0),
        2 => (0, up * length(sequence)),
        // Along an edge of the pen.
        3 | 4 => {
            let corners = pen::whole(&pen::quarter(setting).expect("a good setting"));
            let i = sequence.below(corners.len() as u64) as usize;
            let (from, to) = (corners[i], corners[(i + 1) % corners.len()]);
            let (dx, dy) = (to.0 - from.0, to.1 - from.1);
            let unit = if sequence.below(2) == 0 { step } else { 1 };
            let times = unit * between(sequence, 1, 1 + 160 / (unit * (dx.abs() + dy.abs())));
            (right * times * dx, right * times * dy)
        }
        // In a simple direction.
        5 => {
            let (u, v) = (between(sequence, 1, 5), between(sequence, 1, 5));
            let times = between(sequence, 1, 1 + 60 / step) * step;
            (right * u * times, up * v * times)
        }
        _ => (right * length(sequence), up * length(sequence)),
    }
}

/// The second end of a long segment: in any direction, level, upright, or
/// nearly so, and often at a limit.
pub(crate) fn far_end(sequence: &mut Sequence, x0: i64, y0: i64, step: i64) -> (i64, i64) {
    let mut far = || match sequence.below(4) {
        0 => LIMIT,
        1 => -LIMIT,
        _ => between(sequence, -LIMIT, LIMIT).div_euclid(step) * step,
    };
    let (x, y) = (far(), far());
    let little = between(sequence, -8, 8) * step;
    match sequence.below(6) {
        0 => (x, y0),
        1 => (x0, y),
        2 => (x, y0 + little),
        3 => (x0 + little, y),
        _ => (x, y),
    }
}

/// A row that the segment may touch, or that is next to such; every second one
/// at the lower or upper end.
fn some_row(sequence: &mut Sequence, setting: &Setting, y0: i64, y1: i64) -> i64 {
    let reach = 8 * setting.dy();
    let lowest = (y0.min(y1) - reach).div_euclid(16);
    let highest = (y0.max(y1) + reach).div_euclid(16) + 1;
    match sequence.below(8) {
        0 | 1 => between(sequence, lowest - 1, lowest + 1),
        2 | 3 => between(sequence, highest - 2, highest + 1),
        _ => between(sequence, lowest, highest),
    }
}

pub fn random_segments(count: usize, seed: u64) -> Vec<Record> {
    let mut sequence = Sequence::new(seed);
    let sequence = &mut sequence;
    let mut records = Vec::new();
    while records.len() < count {
        let setting = some_setting(sequence);
        let step = some_step(sequence);
        let (x0, y0) = (
            some_coordinate(sequence, step),
            some_coordinate(sequence, step),
        );
        let long = sequence.below(100) == 0;
        let (x1, y1) = if long {
            far_end(sequence, x0, y0, step)
        } else {
            let (dx, dy) = some_way(sequence, &setting, step);
            (x0 + dx, y0 + dy)
        };
        if [x0, y0, x1, y1]
            .iter()
            .any(|c| !(-LIMIT..=LIMIT).contains(c))
        {
            continue;
        }
        // Rows of a long segment: at its ends, and sometimes anywhere.
        let row = match long {
            true => {
                let end = if sequence.below(2) == 0 { y0 } else { y1 };
                match sequence.below(4) {
                    0 => some_row(sequence, &setting, y0, y1),
                    _ => some_row(sequence, &setting, end, end),
                }
            }
            false => some_row(sequence, &setting, y0, y1),
        };
        records.push(Record {
            setting,
            a: (x0 as i32, y0 as i32),
            b: (x1 as i32, y1 as i32),
            row,
        });
    }
    records
}

/// Such records with rows of a raster, 0 to 16,383: one whose row is not there
/// is moved by whole rows, which moves its black pixels with it.
pub fn raster_segments(count: usize, seed: u64) -> Vec<Record> {
    random_segments(count, seed)
        .into_iter()
        .map(|r| {
            let row = r.row.rem_euclid(16_384);
            let up = 16 * (row - r.row);
            let moved = |p: (i32, i32)| (p.0, (i64::from(p.1) + up) as i32);
            Record {
                a: moved(r.a),
                b: moved(r.b),
                row,
                ..r
            }
        })
        .filter(|r| {
            [r.a.1, r.b.1]
                .iter()
                .all(|y| (-LIMIT..=LIMIT).contains(&i64::from(*y)))
        })
        .collect()
}

#[cfg(test)]
mod tests {
    use super::*;
    use crate::extent::extent;
    use crate::sweep::{centre, Sweep};

    /// Every kind is there: dots, level, upright and slanted ones, both signs,
    /// long ones; most rows are touched, and many have a tie at an end.
    #[test]
    fn kinds_and_ties() {
        let records = random_segments(3_000, 5);
        let count = |f: &dyn Fn(&Record) -> bool| records.iter().filter(|r| f(r)).count();
        assert!(count(&|r| r.a == r.b) > 200);
        assert!(count(&|r| r.a.1 == r.b.1 && r.a.0 != r.b.0) > 200);
        assert!(count(&|r| r.a.0 == r.b.0 && r.a.1 != r.b.1) > 200);
        assert!(count(&|r| r.a.0 != r.b.0 && r.a.1 != r.b.1) > 1_000);
        assert!(count(&|r| r.a.0 < 0) > 500 && count(&|r| r.a.0 > 0) > 500);
        assert!(count(&|r| r.row < 0) > 500 && count(&|r| r.row > 0) > 500);
        assert!(count(&|r| (r.a.0 - r.b.0).abs() > 10_000) > 3);
        // Rows with black pixels, and rows with a centre on a side at the left,
        // at the right, and on a flat side or at a corner between.
        let (mut black, mut left, mut right, mut other) = (0, 0, 0, 0);
        for record in &records {
            let quarter = pen::quarter(&record.setting).unwrap();
            let point = |p: (i32, i32)| (p.0 as i128, p.1 as i128);
            let sweep = Sweep::new(&pen::whole(&quarter), point(record.a), point(record.b));
            let x = |i: i64| centre(i as i128, record.row as i128);
            let within = |i: i64| sweep.contains(x(i));
            let on_a_side = |i: i64| sweep.sides_through(x(i)) > 0;
            if let Some((first, last)) = extent(record).unwrap() {
                black += 1;
                left += usize::from(within(first - 1));
                right += usize::from(on_a_side(last));
                other += usize::from(first < last && on_a_side(first));
            }
        }
        assert!(black > 1_500 && black < 2_900, "{black}");
        assert!(
            left > 300 && right > 300 && other > 50,
            "{left} {right} {other}"
        );
    }

    #[test]
    fn a_seed_gives_one_list() {
        assert_eq!(random_segments(50, 9), random_segments(50, 9));
        assert_ne!(random_segments(50, 9), random_segments(50, 10));
    }
}
