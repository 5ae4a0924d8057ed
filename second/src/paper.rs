//! The listing of source document 001 (Figures 10 and 11, with the changes of
//! its section 2.2), line by line as it prints it, and what each of its
//! differences from document 01 does to the pens. docs/SOURCES.md holds the
//! outcome.

use crate::pen::{self, Corner};
use crate::setting::Setting;
use crate::stream::good_settings;

/// What becomes of a number exactly between two whole ones. The source only
/// says "round".
#[derive(Clone, Copy, PartialEq, Eq)]
enum Half {
    Up,
    Down,
    ToEven,
}

/// How the listing is read. `DOCUMENT_01` is what document 01 says.
#[derive(Clone, Copy)]
struct Reading {
    /// Line 17 also sets l.c, as document 01's step 4 does.
    offset_in_line_17: bool,
    /// Lines 41 and 42: the shortcuts to an existing retention point.
    line_41: bool,
    line_42: bool,
    /// Line 43 counts l2 from the end corner, with halves up; otherwise l1 is
    /// counted from the start corner, with halves up.
    line_43_from_the_end: bool,
    /// Line 43 by document 01's fraction, which takes x and c, and not by the
    /// source's, which takes x and y.
    line_43_by_offset: bool,
    /// The rounding of d and ad in lines 5 and 6.
    lines_5_and_6: Half,
    /// The rounding of the root in line 13.
    line_13: Half,
}

const DOCUMENT_01: Reading = Reading {
    offset_in_line_17: true,
    line_41: false,
    line_42: false,
    line_43_from_the_end: false,
    line_43_by_offset: true,
    lines_5_and_6: Half::Up,
    line_13: Half::Up,
};

/// The listing as printed, with halves going up in every "round".
const AS_PRINTED: Reading = Reading {
    offset_in_line_17: false,
    line_41: true,
    line_42: true,
    line_43_from_the_end: true,
    line_43_by_offset: false,
    lines_5_and_6: Half::Up,
    line_13: Half::Up,
};

/// a/b to the nearest whole number, b > 0.
fn round(a: i128, b: i128, half: Half) -> i128 {
    let up = (2 * a + b).div_euclid(2 * b);
    let tie = (2 * a + b).rem_euclid(2 * b) == 0;
    settle(up, tie, half)
}

/// `up` is the number with halves up; `tie` says that it was a half.
fn settle(up: i128, tie: bool, half: Half) -> i128 {
    match half {
        Half::Down if tie => up - 1,
        Half::ToEven if tie && up % 2 != 0 => up - 1,
        _ => up,
    }
}

/// round(d√(ū²+a²v̄²)) of section 2.2, d = w/16 and a = p/q.
fn round_root(setting: &Setting, u: i64, v: i64, half: Half) -> i64 {
    let up = pen::near_root(setting, u, v) as i128;
    let (w, p, q) = (setting.w as i128, setting.p as i128, setting.q as i128);
    let (u, v) = (u as i128, v as i128);
    let twice = 2 * up - 1;
    let tie = 64 * q * q * twice * twice == w * w * (p * p * v * v + q * q * u * u);
    settle(up, tie, half) as i64
}

/// An edge node: w, c, l1 and l2.
#[derive(Clone, Copy, Default)]
struct EdgeNode {
    w: (i64, i64),
    c: i64,
    l1: i64,
    l2: i64,
}

/// A cell s[i]: a vertex and the counterclockwise adjacent edge.
#[derive(Clone, Copy, Default)]
struct Cell {
    z: (i64, i64),
    r: EdgeNode,
}

/// The variables of the listing. The stack is s[1..=t]; s[0] is not used.
struct MakePen<'a> {
    setting: &'a Setting,
    reading: Reading,
    s: Vec<Cell>,
    t: usize,
    l: EdgeNode,
    delta: i64,
    u_bar: i64,
    v_bar: i64,
    c_bar: i64,
    output: Vec<Corner>,
    met: Met,
}

/// Which of the special places a pen's construction comes to.
#[derive(Clone, Copy, Default)]
struct Met {
    /// Line 14 with a negative δ.
    negative: bool,
    /// Line 17, and whether its edge is then used for anything but a pop.
    line_17: bool,
    line_17_matters: bool,
    /// The conditions of lines 41 and 42 (42 where 41 does not hold).
    line_41: bool,
    line_42: bool,
    /// Line 44 changes the number of line 43.
    line_44: bool,
}

impl MakePen<'_> {
    /// Lines 1 to 27. The output counts half pixels here, so line 29 does not
    /// halve.
    fn run(setting: &Setting, reading: Reading) -> (Vec<Corner>, Met) {
        let (w, p, q) = (setting.w as i128, setting.p as i128, setting.q as i128);
        let round_d = round(w, 16, reading.lines_5_and_6) as i64;
        let round_ad = round(w * p, 16 * q, reading.lines_5_and_6) as i64;
        let mut m = MakePen {
            setting,
            reading,
            s: vec![Cell::default(); 2],
            t: 1,
            l: EdgeNode::default(),
            delta: 0,
            u_bar: 0,
            v_bar: 0,
            c_bar: 0,
            output: Vec::new(),
            met: Met::default(),
        };
        m.l.w = (1, 0);
        m.s[1].r.w = (0, 1);
        (m.l.c, m.s[1].r.l1, m.s[1].r.l2) = (round_d, round_d, round_d);
        (m.s[1].r.c, m.l.l1, m.l.l2) = (round_ad, round_ad, round_ad);
        m.s[1].z = (m.l.l2, -m.l.c);
        while m.t > 0 {
            m.turn();
        }
        (m.output, m.met)
    }

    /// The body of the loop, lines 9 to 27.
    fn turn(&mut self) {
        let t = self.t;
        if turn_amt(self.l.w, self.s[t].r.w) > 1 {
            return self.pop();
        }
        self.delta = self.l.l2.min(self.s[t].r.l1);
        if self.delta > 0 {
            self.u_bar = self.l.w.0 + self.s[t].r.w.0;
            self.v_bar = self.l.w.1 + self.s[t].r.w.1;
            self.c_bar = self.l.c + self.s[t].r.c;
            let root = round_root(self.setting, self.u_bar, self.v_bar, self.reading.line_13);
            self.delta = self.delta.min(self.c_bar - root);
        }
        if self.delta <= 0 {
            self.met.negative |= self.delta < 0;
            return self.pop();
        }
        let all_of_r = self.s[t].r.l1 + self.s[t].r.l2 == self.delta;
        if self.delta == self.l.l1 + self.l.l2 {
            if all_of_r {
                self.t -= 1;
                self.l.w = (self.u_bar, self.v_bar);
                if self.reading.offset_in_line_17 {
                    self.l.c = self.c_bar - self.delta;
                }
                self.met.line_17 = true;
                self.met.line_17_matters |= turn_amt(self.l.w, self.s[self.t].r.w) <= 1;
            } else {
                self.rchop(t);
                self.l = self.eset(self.l);
            }
        } else {
            if all_of_r {
                self.lchop();
            } else {
                self.t += 1;
                if self.s.len() == self.t {
                    self.s.push(Cell::default());
                }
                self.s[self.t].z = self.s[self.t - 1].z;
                self.lchop();
                self.rchop(self.t - 1);
                self.set_rp();
            }
            self.s[self.t].r = self.eset(self.s[self.t].r);
        }
    }

    /// Lines 28 to 32.
    fn pop(&mut self) {
        self.output.push(self.s[self.t].z);
        self.l = self.s[self.t].r;
        self.t -= 1;
        self.l.l2 += self.l.l1;
        self.l.l1 = 0;
    }

    /// Lines 34 to 36.
    fn lchop(&mut self) {
        self.l.l2 -= self.delta;
        let z = &mut self.s[self.t].z;
        *z = (z.0 - self.delta * self.l.w.0, z.1 - self.delta * self.l.w.1);
    }

    /// Lines 37 to 39.
    fn rchop(&mut self, i: usize) {
        let cell = &mut self.s[i];
        cell.r.l1 -= self.delta;
        cell.z = (
            cell.z.0 + self.delta * cell.r.w.0,
            cell.z.1 + self.delta * cell.r.w.1,
        );
    }

    /// Lines 40 to 45. The scan opens a brace in line 43 and never closes it;
    /// here it closes before line 45, since without line 45 the new edge would
    /// have no l1.
    fn set_rp(&mut self) {
        let t = self.t;
        let delta = self.delta;
        let in_41 = self.s[t - 1].r.l1 == 0;
        let in_42 = !in_41 && self.l.l2 == 0;
        self.met.line_41 |= in_41;
        self.met.line_42 |= in_42;
        let l2 = if self.reading.line_41 && in_41 {
            0
        } else if self.reading.line_42 && in_42 {
            delta
        } else {
            let l2 = self.line_43();
            self.met.line_44 |= l2 < 0 || l2 > delta;
            l2.clamp(0, delta)
        };
        self.s[t].r.l2 = l2;
        self.s[t].r.l1 = delta - l2;
    }

    /// Line 43 with the fraction of section 2.2, both halves of it taken p²
    /// times.
    fn line_43(&self) -> i64 {
        let (p, q) = (self.setting.p as i128, self.setting.q as i128);
        let (u, v) = (self.u_bar as i128, self.v_bar as i128);
        let below = q * q * u * u + p * p * v * v;
        let from = |z: (i64, i64)| q * q * u * z.0 as i128 + p * p * v * z.1 as i128;
        if self.reading.line_43_from_the_end {
            return round(from(self.s[self.t - 1].z), below, Half::Up) as i64;
        }
        let start = self.s[self.t].z;
        let l1 = if self.reading.line_43_by_offset {
            let c = (self.c_bar - self.delta) as i128;
            round(p * p * v * c - start.0 as i128 * below, u * below, Half::Up)
        } else {
            round(-from(start), below, Half::Up)
        };
        self.delta - l1 as i64
    }

    /// Lines 46 to 48.
    fn eset(&self, e: EdgeNode) -> EdgeNode {
        EdgeNode {
            w: (self.u_bar, self.v_bar),
            c: self.c_bar - self.delta,
            ..e
        }
    }
}

/// Line 33.
fn turn_amt(a: (i64, i64), b: (i64, i64)) -> i64 {
    a.0 * b.1 - b.0 * a.1
}

/// The readings that are tried, one difference each, then together.
fn readings() -> Vec<(&'static str, Reading)> {
    let d = DOCUMENT_01;
    vec![
        ("the listing by document 01's rules", d),
        (
            "line 17 sets no offset",
            Reading {
                offset_in_line_17: false,
                ..d
            },
        ),
        ("line 41 alone", Reading { line_41: true, ..d }),
        ("line 42 alone", Reading { line_42: true, ..d }),
        (
            "lines 41 and 42",
            Reading {
                line_41: true,
                line_42: true,
                ..d
            },
        ),
        (
            "line 43 by the source's fraction, from the start, halves up",
            Reading {
                line_43_by_offset: false,
                ..d
            },
        ),
        (
            "line 43 from the end, halves up",
            Reading {
                line_43_from_the_end: true,
                line_43_by_offset: false,
                ..d
            },
        ),
        (
            "lines 41 to 45 as printed",
            Reading {
                offset_in_line_17: true,
                ..AS_PRINTED
            },
        ),
        (
            "lines 5 and 6 with halves down",
            Reading {
                lines_5_and_6: Half::Down,
                ..d
            },
        ),
        (
            "lines 5 and 6 with halves to even",
            Reading {
                lines_5_and_6: Half::ToEven,
                ..d
            },
        ),
        (
            "line 13 with halves down",
            Reading {
                line_13: Half::Down,
                ..d
            },
        ),
        (
            "line 13 with halves to even",
            Reading {
                line_13: Half::ToEven,
                ..d
            },
        ),
        ("the whole listing as printed, halves up", AS_PRINTED),
    ]
}

/// The settings that get another pen under a reading, with the two quarters.
fn differing(reading: Reading) -> Vec<(Setting, Vec<Corner>, Vec<Corner>)> {
    let mut list = Vec::new();
    for setting in good_settings() {
        let ours = pen::quarter(&setting).expect("within the limits");
        let theirs = MakePen::run(&setting, reading).0;
        if ours != theirs {
            list.push((setting, ours, theirs));
        }
    }
    list
}

/// What `second paper-differs` prints.
pub fn report() -> String {
    let mut text = String::new();
    for (name, reading) in readings() {
        let list = differing(reading);
        let circles = list.iter().filter(|(s, _, _)| s.p == s.q).count();
        text += &format!(
            "{name}: {} settings get another pen, {circles} of them with p = q\n",
            list.len()
        );
        let first = list.first();
        let round = list.iter().find(|(s, _, _)| s.p == s.q && s.p == 1);
        for (which, example) in [("first", first), ("first with p=q=1", round)] {
            if let Some((s, ours, theirs)) = example {
                text += &format!(
                    "  {which}: w={} p={} q={}: document 01 {}; so read {}\n",
                    s.w,
                    s.p,
                    s.q,
                    show(ours),
                    show(theirs)
                );
            }
        }
    }
    text + &places()
}

/// How many settings come to the special places, by document 01's rules and
/// by the listing as printed.
fn places() -> String {
    let mut text = String::new();
    for (name, reading) in [
        ("by document 01's rules", DOCUMENT_01),
        ("as printed", AS_PRINTED),
    ] {
        let met: Vec<(bool, Met)> = good_settings()
            .iter()
            .map(|s| (s.p == s.q, MakePen::run(s, reading).1))
            .collect();
        let count = |f: &dyn Fn(&Met) -> bool| {
            let all = met.iter().filter(|(_, m)| f(m)).count();
            let circles = met.iter().filter(|(circle, m)| *circle && f(m)).count();
            format!("{all} settings ({circles} with p = q)")
        };
        text += &format!("{name}:\n");
        text += &format!(
            "  line 14 with a negative number: {}\n",
            count(&|m| m.negative)
        );
        text += &format!("  line 17: {}\n", count(&|m| m.line_17));
        text += &format!(
            "  line 17, and the corner after it not put out at once: {}\n",
            count(&|m| m.line_17_matters)
        );
        text += &format!("  line 41's condition: {}\n", count(&|m| m.line_41));
        text += &format!("  line 42's condition: {}\n", count(&|m| m.line_42));
        text += &format!("  line 44 changes the number: {}\n", count(&|m| m.line_44));
    }
    text
}

fn show(corners: &[Corner]) -> String {
    let list: Vec<String> = corners.iter().map(|(x, y)| format!("({x},{y})")).collect();
    list.join(" ")
}

#[cfg(test)]
mod tests {
    use super::*;

    /// Read by document 01's rules the listing gives document 01's pens, so
    /// the counts of the other readings show their own differences only.
    #[test]
    fn the_listing_by_document_01() {
        assert!(differing(DOCUMENT_01).is_empty());
    }

    #[test]
    fn halves() {
        for (half, of_half, of_three_halves) in
            [(Half::Up, 1, 2), (Half::Down, 0, 1), (Half::ToEven, 0, 2)]
        {
            assert_eq!(round(1, 2, half), of_half);
            assert_eq!(round(3, 2, half), of_three_halves);
            assert_eq!(round(4, 3, half), 1);
            assert_eq!(round(5, 3, half), 2);
        }
    }
}
