//! Figures 13 and 14 of source document 001 for a fall of one straight
//! segment, line by line, and its rows against those of `sweep.rs`. The tests also
//! have source document 000's rule for centres on the boundary.

use crate::extent::Record;
use crate::pen::{self, Corner};
use crate::segments::random_segments;
use crate::sweep::{centre, kept, Sweep};
use std::collections::HashMap;

/// In sixteenths of a pixel.
type Point = (i64, i64);

/// The vertices on or to the right of the upright line through the middle,
/// from the bottom: P̄[1] to P̄[k], in half pixels, P̄[0] not used.
fn right_half(quarter: &[Corner]) -> Vec<Corner> {
    let mut list = vec![(0, 0)];
    list.extend(quarter);
    for &(x, y) in quarter.iter().rev() {
        if list.last() != Some(&(x, -y)) {
            list.push((x, -y));
        }
    }
    list
}

/// f(⌊x⌋, j) for each point (x, j) of the segment with a whole j; "as though
/// they contain the upper endpoint but not the lower".
fn plot(from: Point, to: Point, mut f: impl FnMut(i64, i64)) {
    let (low, high) = if from.1 < to.1 {
        (from, to)
    } else {
        (to, from)
    };
    let (m, n) = (high.0 - low.0, high.1 - low.1);
    let mut j = low.1.div_euclid(16) + 1;
    while 16 * j <= high.1 {
        f((low.0 * n + m * (16 * j - low.1)).div_euclid(16 * n), j);
        j += 1;
    }
}

/// The arrays L and R; what is not in them is ∞ and -∞.
#[derive(Default)]
struct Rows {
    l: HashMap<i64, i64>,
    r: HashMap<i64, i64>,
}

impl Rows {
    fn rtrans(&mut self, x: i64, y: i64) {
        let r = self.r.entry(y).or_insert(x);
        *r = x.max(*r);
    }

    fn ltrans(&mut self, x: i64, y: i64) {
        let l = self.l.entry(y).or_insert(x);
        *l = x.min(*l);
    }

    /// Lines 31 to 37.
    fn ochange(&mut self, p: &[Corner], c: Point, j: usize, j_new: usize, up: bool) {
        let plus = |i: usize| (c.0 + 8 * p[i].0, c.1 + 8 * p[i].1);
        let minus = |i: usize| (c.0 - 8 * p[i].0, c.1 - 8 * p[i].1);
        for i in j + 1..=j_new {
            if up {
                plot(plus(i - 1), plus(i), |x, y| self.rtrans(x, y));
            } else {
                plot(minus(i - 1), minus(i), |x, y| self.ltrans(x, y));
            }
        }
        for i in (j_new + 1..=j).rev() {
            if up {
                plot(minus(i - 1), minus(i), |x, y| self.ltrans(x, y));
            } else {
                plot(plus(i - 1), plus(i), |x, y| self.rtrans(x, y));
            }
        }
    }
}

/// Lines 4 to 25 for the fall from c to c', c.y and c'.y being different. The
/// pixels that line 25 turns on, as first and last column of each row.
fn do_fall(quarter: &[Corner], c: Point, c_end: Point) -> HashMap<i64, (i64, i64)> {
    let p = right_half(quarter);
    let k = p.len() - 1;
    let n = p[k].1;
    let up = c_end.1 > c.1;
    // oindex: the vertex furthest to the right of the upward direction.
    let sign = if up { 1 } else { -1 };
    let along = (sign * (c_end.0 - c.0), sign * (c_end.1 - c.1));
    let j = (1..=k)
        .max_by_key(|&i| along.1 * p[i].0 - along.0 * p[i].1)
        .expect("a pen has corners");
    let t = (c.1 + 8 * n).div_euclid(16);
    let t_end = (c_end.1 + 8 * n).div_euclid(16);
    let mut rows = Rows::default();
    rows.ochange(&p, c, 1, j, up);
    rows.ochange(&p, c, k, j, up);
    let (dx, dy) = p[j];
    let shifted = |z: Point| (z.0 + 8 * dx, z.1 + 8 * dy);
    plot(shifted(c), shifted(c_end), |x, y| {
        rows.rtrans(x, y);
        rows.ltrans(x - dx, y - dy);
    });
    rows.ochange(&p, c_end, j, 1, up);
    rows.ochange(&p, c_end, j, k, up);
    let mut pixels = HashMap::new();
    for j in t.min(t_end) + 1 - n..=t.max(t_end) {
        if let (Some(&l), Some(&r)) = (rows.l.get(&j), rows.r.get(&j)) {
            if l < r {
                pixels.insert(j, (l + 1, r));
            }
        }
    }
    pixels
}

/// The pixels of all rows within reach that are black, as first and last column of
/// each row.
fn black_rows(
    record: &Record,
    is_black: impl Fn((i128, i128)) -> bool,
) -> HashMap<i64, (i64, i64)> {
    let range = |a: i32, b: i32, reach: i64| {
        let (low, high) = (a.min(b) as i64, a.max(b) as i64);
        (low - 8 * reach).div_euclid(16) - 1..=(high + 8 * reach).div_euclid(16) + 2
    };
    let mut pixels = HashMap::new();
    for row in range(record.a.1, record.b.1, record.setting.dy()) {
        let black: Vec<i64> = range(record.a.0, record.b.0, record.setting.dx())
            .filter(|&i| is_black(centre(i as i128, row as i128)))
            .collect();
        if let (Some(&first), Some(&last)) = (black.first(), black.last()) {
            pixels.insert(row, (first, last));
        }
    }
    pixels
}

fn wide(z: (i32, i32)) -> (i128, i128) {
    (z.0 as i128, z.1 as i128)
}

fn sweep(record: &Record, quarter: &[Corner]) -> Sweep {
    Sweep::new(&pen::whole(quarter), wide(record.a), wide(record.b))
}

/// Short segments that are no level ones.
fn falls(count: usize) -> Vec<Record> {
    let mut list = random_segments(count, 11);
    list.retain(|r| {
        r.a.1 != r.b.1 && (r.a.1 - r.b.1).abs() < 1_000 && (r.a.0 - r.b.0).abs() < 1_000
    });
    list
}

/// The listing's rows against those of a rule for kept sides.
#[derive(Default)]
struct Comparison {
    segments: usize,
    rows: usize,
    different: usize,
    first: String,
}

fn compare(kept: impl Fn((i128, i128)) -> bool) -> Comparison {
    let mut outcome = Comparison::default();
    for record in falls(2_000) {
        let quarter = pen::quarter(&record.setting).expect("a good setting");
        let point = |z: (i32, i32)| (z.0 as i64, z.1 as i64);
        let theirs = do_fall(&quarter, point(record.a), point(record.b));
        let sweep = sweep(&record, &quarter);
        let ours = black_rows(&record, |x| sweep.black_if_kept(x, &kept));
        outcome.segments += 1;
        let mut all: Vec<i64> = ours.keys().chain(theirs.keys()).copied().collect();
        all.sort_unstable();
        all.dedup();
        for row in all {
            outcome.rows += 1;
            if ours.get(&row) != theirs.get(&row) {
                outcome.different += 1;
                if outcome.first.is_empty() {
                    outcome.first = format!(
                        "  first: w={} p={} q={}, {:?} to {:?}, row {row}: the rule {:?}; 001 {:?}\n",
                        record.setting.w,
                        record.setting.p,
                        record.setting.q,
                        record.a,
                        record.b,
                        ours.get(&row),
                        theirs.get(&row)
                    );
                }
            }
        }
    }
    outcome
}

/// What `second paper-differs` says about rows.
pub fn report() -> String {
    let found = compare(kept);
    format!(
        "rows by Figures 13 and 14: {} segments, {} rows, {} different\n{}",
        found.segments, found.rows, found.different, found.first
    )
}

#[cfg(test)]
mod tests {
    use super::*;
    use crate::setting::Setting;

    /// The listing's rows are the rule's, each of them. They are no other rule's:
    /// many have a tie on a flat side, and many on a left or right one.
    #[test]
    fn the_listing_has_the_rule() {
        let own = compare(kept);
        assert_eq!(own.different, 0, "{}", own.first);
        let others: [(&str, fn((i128, i128)) -> bool); 5] = [
            ("no flat side", |n| n.0 > 0),
            ("both flat sides", |n| n.0 >= 0),
            ("flat bottoms", |n| n.0 > 0 || (n.0 == 0 && n.1 < 0)),
            ("left sides", |n| n.0 < 0 || (n.0 == 0 && n.1 > 0)),
            ("neither left nor right", |n| n.0 == 0 && n.1 > 0),
        ];
        for (keeps, other) in others {
            let different = compare(other).different;
            assert!(different > 100, "{keeps}: {different}");
        }
    }

    fn our_rows(record: &Record) -> HashMap<i64, (i64, i64)> {
        let sweep = sweep(record, &pen::quarter(&record.setting).unwrap());
        black_rows(record, |x| sweep.black(x))
    }

    /// A path of the examples in docs/SOURCES.md, at this x.
    fn upright(x: i32) -> Record {
        Record {
            setting: Setting::new(48, 1, 1),
            a: (x, 40),
            b: (x, 104),
            row: 0,
        }
    }

    /// Its rows: 2 to 7, and 8 on the flat top.
    fn rows(middle: (i64, i64), top: (i64, i64)) -> HashMap<i64, (i64, i64)> {
        let mut rows: HashMap<_, _> = (2..=7).map(|row| (row, middle)).collect();
        rows.insert(8, top);
        rows
    }

    #[test]
    fn the_example_for_001() {
        let record = upright(48);
        let quarter = pen::quarter(&record.setting).unwrap();
        assert_eq!(our_rows(&record), rows((2, 4), (3, 3)));
        assert_eq!(do_fall(&quarter, (48, 40), (48, 104)), rows((2, 4), (3, 3)));
    }

    /// Source 000, section 1.1: a centre z on the boundary of R counts where
    /// z + (δ₁, -δ₂) lies in R, δ₁ being small and δ₂ smaller by far. All is
    /// enlarged so much that these are whole numbers, and that no other centre comes
    /// across the boundary by them.
    fn rows_by_000(record: &Record) -> HashMap<i64, (i64, i64)> {
        const ENLARGED: i128 = 1_000_000;
        let (right, down) = (1_000, 1);
        let large = |(x, y): (i128, i128)| (ENLARGED * x, ENLARGED * y);
        let pen: Vec<Corner> = pen::whole(&pen::quarter(&record.setting).unwrap())
            .iter()
            .map(|&(x, y)| (ENLARGED as i64 * x, ENLARGED as i64 * y))
            .collect();
        let sweep = Sweep::new(&pen, large(wide(record.a)), large(wide(record.b)));
        black_rows(record, |z| {
            let (x, y) = large(z);
            sweep.contains((x + right, y - down))
        })
    }

    /// The rule in an upright mirror is source 000's, for level segments and dots
    /// too.
    #[test]
    fn a_mirror_for_000() {
        let mut different = 0;
        for record in random_segments(2_000, 12) {
            let far = |a: i32, b: i32| (a - b).abs() > 300;
            if far(record.a.0, record.b.0) || far(record.a.1, record.b.1) {
                continue;
            }
            let mirrored = Record {
                a: (-record.a.0, record.a.1),
                b: (-record.b.0, record.b.1),
                ..record
            };
            let ours: HashMap<_, _> = our_rows(&mirrored)
                .into_iter()
                .map(|(row, (first, last))| (row, (-last, -first)))
                .collect();
            assert_eq!(rows_by_000(&record), ours, "{record:?}");
            different += usize::from(ours != our_rows(&record));
        }
        assert!(different > 100, "{different}");
    }

    #[test]
    fn the_examples_for_000() {
        let record = upright(40);
        assert_eq!(our_rows(&record), rows((2, 4), (3, 3)));
        assert_eq!(rows_by_000(&record), rows((1, 3), (2, 2)));
        let level = Record {
            a: (48, 40),
            b: (160, 40),
            ..record
        };
        let both = HashMap::from([(2, (2, 11)), (3, (2, 11)), (4, (3, 10))]);
        assert_eq!(our_rows(&level), both);
        assert_eq!(rows_by_000(&level), both);
    }
}
