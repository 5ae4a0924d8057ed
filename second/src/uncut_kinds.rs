//! What the requests reach that are tried on the extent given uncut, counted.

use crate::segment::Segment;
use crate::sweep::{centre, Sweep};
use crate::tally::Tally;
use crate::uncut::{Reached, Request};

/// A request that was answered.
pub struct Called<'a> {
    pub request: &'a Request,
    pub reached: Reached,
    /// None where it was refused.
    pub sweep: Option<&'a Sweep>,
}

impl Called<'_> {
    fn done(&self) -> bool {
        self.reached.answer.refusal == 0
    }

    fn refused(&self, refusal: u8) -> bool {
        self.reached.answer.refusal == refusal
    }

    /// Answered for such a segment.
    fn done_with(&self, is: impl Fn(&Segment) -> bool) -> bool {
        self.done() && is(&self.request.segment())
    }

    fn none(&self) -> bool {
        self.done() && self.reached.extent.is_none()
    }

    /// Answered with such a first and last column.
    fn columns(&self, are: impl Fn(i64, i64) -> bool) -> bool {
        let extent = self.reached.extent;
        extent.is_some_and(|(first, last)| are(first, last))
    }

    /// How many sides of the sweep go through the centre of a column in this row.
    fn sides(&self, column: i64) -> usize {
        let x = centre(column as i128, self.request.row as i128);
        self.sweep.map_or(0, |sweep| sweep.sides_through(x))
    }

    fn height(&self) -> i64 {
        16 * self.request.row as i64
    }

    /// The row against the lowest and the highest height of the sweep.
    fn row(&self, is: impl Fn(i64, i64, i64) -> bool) -> bool {
        self.done() && {
            let [lowest, highest, ..] = self.request.segment().bounds();
            is(self.height(), lowest, highest)
        }
    }

    /// Whether a centre lies on the flat bottom of the sweep.
    fn on_a_flat_bottom(&self) -> bool {
        self.row(|height, lowest, _| height == lowest) && {
            let ends = self.request.segment().ends;
            let about = |p: (i64, i64)| (p.0.div_euclid(16) - 1)..=(p.0.div_euclid(16) + 2);
            ends.iter().any(|&p| about(p).any(|i| self.sides(i) > 0))
        }
    }

    fn entries(&self) -> usize {
        self.request.path.len()
    }

    fn is_segment(&self) -> bool {
        self.entries() == 2 || self.entries() == 4
    }

    /// How many entries of the path are out of range.
    fn bad_entries(&self) -> usize {
        let good = |c: &i32| (-262_144..=262_144).contains(c);
        self.request.path.iter().filter(|c| !good(c)).count()
    }

    fn row_is_bad(&self) -> bool {
        self.request.row > 16_383
    }

    /// Refused with 6 because of the setting alone.
    fn bad_setting(&self) -> bool {
        let Request {
            setting,
            defined,
            number,
            ..
        } = self.request;
        !setting.within_limits() && defined == number && (10..=41).contains(number)
    }
}

type Kind = (&'static str, fn(&Called) -> bool);

/// The columns furthest out that a segment can blacken: a centre at 262,144 and a pen
/// of 32 pixels; on the left its side is dropped.
const FURTHEST: (i64, i64) = (-16_399, 16_400);

const KINDS: [Kind; 66] = [
    ("done", |c| c.done()),
    ("columns", |c| c.columns(|_, _| true)),
    ("none", |c| c.none()),
    ("one column", |c| c.columns(|l, r| l == r)),
    ("from left of 0 to right of it", |c| {
        c.columns(|l, r| l < 0 && 0 <= r)
    }),
    ("all left of 0", |c| c.columns(|_, r| r < 0)),
    ("past column 16,383", |c| {
        c.columns(|l, r| l <= 16_383 && 16_383 < r)
    }),
    ("all past column 16,383", |c| c.columns(|l, _| 16_383 < l)),
    ("over the whole raster and more", |c| {
        c.columns(|l, r| l < 0 && 16_383 < r)
    }),
    ("column -16,399", |c| c.columns(|l, _| l == FURTHEST.0)),
    ("column 16,400", |c| c.columns(|_, r| r == FURTHEST.1)),
    ("one point", |c| c.done() && c.entries() == 2),
    ("two equal points", |c| {
        c.entries() == 4 && c.done_with(Segment::is_dot)
    }),
    ("level", |c| c.done_with(Segment::level)),
    ("upright", |c| c.done_with(Segment::upright)),
    ("nearly level", |c| c.done_with(Segment::nearly_level)),
    ("nearly upright", |c| c.done_with(Segment::nearly_upright)),
    ("upwards", |c| c.done_with(|s| s.way().1 > 0)),
    ("downwards", |c| c.done_with(|s| s.way().1 < 0)),
    ("along an edge of the pen", |c| {
        c.done_with(Segment::along_an_edge)
    }),
    ("an end at a limit", |c| {
        c.done_with(|s| s.ends_at_a_limit() > 0)
    }),
    ("both ends at a limit", |c| {
        c.entries() == 4 && c.done_with(|s| s.ends_at_a_limit() == 2)
    }),
    ("a centre on the left flank", |c| {
        c.columns(|l, _| c.sides(l - 1) > 0)
    }),
    ("on a corner of the left flank", |c| {
        c.columns(|l, _| c.sides(l - 1) > 1)
    }),
    ("a centre on the right flank", |c| {
        c.columns(|_, r| c.sides(r) > 0)
    }),
    ("on a corner of the right flank", |c| {
        c.columns(|_, r| c.sides(r) > 1)
    }),
    ("a centre on a flat top", |c| {
        c.columns(|_, _| c.row(|height, _, highest| height == highest))
    }),
    ("a centre on a flat bottom", |c| c.on_a_flat_bottom()),
    ("a row far below", |c| {
        c.row(|height, lowest, _| height + 256 < lowest)
    }),
    ("just below", |c| {
        c.row(|height, lowest, _| height < lowest && lowest <= height + 16)
    }),
    ("just above", |c| {
        c.row(|height, _, highest| highest < height && height <= highest + 16)
    }),
    ("far above", |c| {
        c.row(|height, _, highest| highest + 256 < height)
    }),
    ("between, and none", |c| {
        c.none() && c.row(|height, lowest, highest| lowest < height && height < highest)
    }),
    ("columns in row 0", |c| {
        c.request.row == 0 && c.columns(|_, _| true)
    }),
    ("columns in row 16,383", |c| {
        c.request.row == 16_383 && c.columns(|_, _| true)
    }),
    ("refused, 6", |c| c.refused(6)),
    ("a number below 10", |c| {
        c.refused(6) && c.request.number < 10
    }),
    ("above 41", |c| c.refused(6) && c.request.number > 41),
    ("above 41, and defined", |c| {
        c.refused(6) && c.request.number > 41 && c.request.defined == c.request.number
    }),
    ("not defined", |c| {
        let both = [c.request.number, c.request.defined];
        c.refused(6) && both.iter().all(|n| (10..=41).contains(n)) && both[0] != both[1]
    }),
    ("a setting refused", |c| c.refused(6) && c.bad_setting()),
    ("6 before 2", |c| c.refused(6) && !c.is_segment()),
    ("6 before 5", |c| c.refused(6) && c.row_is_bad()),
    ("6 before 3", |c| c.refused(6) && c.bad_entries() > 0),
    ("2", |c| c.refused(2)),
    ("of 0 entries", |c| c.refused(2) && c.entries() == 0),
    ("of 1", |c| c.refused(2) && c.entries() == 1),
    ("of 3", |c| c.refused(2) && c.entries() == 3),
    ("of 5", |c| c.refused(2) && c.entries() == 5),
    ("of 6", |c| c.refused(2) && c.entries() == 6),
    ("of 7", |c| c.refused(2) && c.entries() == 7),
    ("of 8", |c| c.refused(2) && c.entries() == 8),
    ("of more", |c| c.refused(2) && c.entries() > 8),
    ("of 2 or 4 in one byte", |c| {
        c.refused(2) && [2, 4].contains(&(c.entries() % 256))
    }),
    ("2 before 5", |c| c.refused(2) && c.row_is_bad()),
    ("2 before 3", |c| c.refused(2) && c.bad_entries() > 0),
    ("5", |c| c.refused(5)),
    ("in row 16,384", |c| c.refused(5) && c.request.row == 16_384),
    ("in a huge row", |c| c.refused(5) && c.request.row > 1 << 32),
    ("5 before 3", |c| c.refused(5) && c.bad_entries() > 0),
    ("3", |c| c.refused(3)),
    ("place 0", |c| c.refused(3) && c.reached.answer.place == 0),
    ("place 1", |c| c.refused(3) && c.reached.answer.place == 1),
    ("place 2", |c| c.refused(3) && c.reached.answer.place == 2),
    ("place 3", |c| c.refused(3) && c.reached.answer.place == 3),
    ("the first of several", |c| {
        c.refused(3) && c.bad_entries() > 1
    }),
];

/// A stream with fewer requests need not have all kinds; and one with fewer need not
/// have all pens.
const LONG: u64 = 20_000;
const LONGEST: u64 = 100_000;

/// What a stream had in it, before it is looked at.
pub fn none_yet() -> Tally {
    let kinds = KINDS.iter().map(|kind| kind.0);
    Tally::new(("uncut", "requests"), kinds, (LONG, LONGEST))
}

pub fn count(tally: &mut Tally, called: &Called) {
    tally.tried += 1;
    tally.count(0, KINDS.iter().map(|(_, is)| is(called)));
    if called.done() {
        tally.count_pen(&called.request.setting);
    }
}
