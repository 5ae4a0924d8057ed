//! What the requests and steps reach that are tried on the engine, counted.

use crate::engine::{Engine, Request};
use crate::row::Answer;
use crate::segment::Segment;
use crate::sweep::{centre, Point};
use crate::tally::Tally;

/// A start or a step that was answered.
pub struct Driven<'b, 'a> {
    pub request: &'a Request,
    /// None where the start was refused.
    pub engine: Option<&'b Engine<'a>>,
    /// The row in which the engine stood.
    pub row: u64,
    /// Which step; None for the start.
    pub step: Option<usize>,
    /// What was answered before it, and what was answered.
    pub before: Answer,
    pub answer: Answer,
}

impl Driven<'_, '_> {
    /// A start that was not refused.
    fn started(&self) -> bool {
        self.step.is_none() && self.answer.refusal == 0
    }

    fn refused_start(&self, refusal: u8) -> bool {
        self.step.is_none() && self.answer.refusal == refusal
    }

    /// A step that was answered so.
    fn step_of(&self, refusal: u8) -> bool {
        self.step.is_some() && self.engine.is_some() && self.answer.refusal == refusal
    }

    /// A step that gave a run.
    fn black(&self) -> bool {
        self.step_of(0) && self.answer.count > 0
    }

    fn room(&self) -> u8 {
        self.step.map_or(0, |i| self.request.rooms[i])
    }

    fn segment(&self) -> Segment {
        self.request.segment()
    }

    /// A start that was not refused, of such a segment.
    fn started_with(&self, is: impl Fn(&Segment) -> bool) -> bool {
        self.started() && is(&self.segment())
    }

    fn bounds(&self) -> [i64; 4] {
        self.segment().bounds()
    }

    fn height(&self) -> i64 {
        16 * self.row as i64
    }

    /// The centre of a column in this row.
    fn centre(&self, column: i128) -> Point {
        centre(column, self.row as i128)
    }

    /// Whether a column's centre lies in the sweep, sides included.
    fn within(&self, column: i128) -> bool {
        self.engine
            .is_some_and(|engine| engine.drawn.0[0].contains(self.centre(column)))
    }

    /// Whether it lies on a side.
    fn on_a_side(&self, column: i128) -> bool {
        self.engine
            .is_some_and(|engine| engine.drawn.0[0].sides_through(self.centre(column)) > 0)
    }

    /// The run's columns, where there is one.
    fn run(&self) -> Option<(i128, i128)> {
        if !self.black() {
            return None;
        }
        let columns = self.engine?.drawn.columns(self.request.columns, self.row);
        Some((*columns.first()? as i128, *columns.last()? as i128))
    }
}

type Kind = (&'static str, fn(&Driven) -> bool);

/// Of starts.
const STARTS: [Kind; 25] = [
    ("started", |d| d.started()),
    ("one point", |d| d.started() && d.request.path.len() == 2),
    ("two equal points", |d| {
        d.request.path.len() == 4 && d.started_with(Segment::is_dot)
    }),
    ("level", |d| d.started_with(Segment::level)),
    ("upright", |d| d.started_with(Segment::upright)),
    ("nearly level", |d| d.started_with(Segment::nearly_level)),
    ("nearly upright", |d| {
        d.started_with(Segment::nearly_upright)
    }),
    ("downwards", |d| d.started_with(|s| s.way().1 < 0)),
    ("along an edge of the pen", |d| {
        d.started_with(Segment::along_an_edge)
    }),
    ("an end at a limit", |d| {
        d.started_with(|s| s.ends_at_a_limit() > 0)
    }),
    ("both ends at a limit", |d| {
        d.started_with(|s| s.ends_at_a_limit() == 2)
    }),
    ("left of the raster", |d| d.started() && d.bounds()[3] < 0),
    ("right of the raster", |d| {
        d.started() && d.bounds()[2] > 16 * d.request.columns as i64
    }),
    ("from far below", |d| {
        d.started() && d.height() + 16 * 16 < d.bounds()[0]
    }),
    ("from below", |d| d.started() && d.height() < d.bounds()[0]),
    ("from the lowest height", |d| {
        d.started() && d.height() == d.bounds()[0]
    }),
    ("from the middle", |d| {
        d.started() && d.bounds()[0] < d.height() && d.height() < d.bounds()[1]
    }),
    ("from the highest height", |d| {
        d.started() && d.height() == d.bounds()[1]
    }),
    ("from above", |d| d.started() && d.bounds()[1] < d.height()),
    ("from the last row", |d| {
        d.started() && d.row + 1 == d.request.rows
    }),
    ("refused start, 6", |d| d.refused_start(6)),
    ("2", |d| d.refused_start(2)),
    ("4", |d| d.refused_start(4)),
    ("5", |d| d.refused_start(5)),
    ("3", |d| d.refused_start(3)),
];

/// Of steps.
const STEPS: [Kind; 15] = [
    ("a step after a refused start", |d| {
        d.step.is_some() && d.engine.is_none()
    }),
    ("black rows", |d| d.black()),
    ("clear rows", |d| d.step_of(0) && d.answer.count == 0),
    ("clear with no room", |d| {
        d.step_of(0) && d.answer.count == 0 && d.room() == 0
    }),
    ("just enough room", |d| d.black() && d.room() == 2),
    ("more room", |d| d.black() && d.room() > 3),
    ("no room (7)", |d| d.step_of(7) && d.room() == 0),
    ("room 1 (7)", |d| d.step_of(7) && d.room() == 1),
    ("black after 7", |d| d.black() && d.before.refusal == 7),
    ("7 after 7", |d| d.step_of(7) && d.before.refusal == 7),
    ("past the last row (5)", |d| d.step_of(5)),
    ("5 after 5", |d| d.step_of(5) && d.before.refusal == 5),
    ("a centre on a flat top", |d| {
        d.black() && d.height() == d.bounds()[1]
    }),
    ("a centre on a flat bottom", |d| {
        let columns = d.request.columns as i128;
        d.step_of(0) && d.height() == d.bounds()[0] && (0..columns).any(|i| d.within(i))
    }),
    ("16,384 columns", |d| {
        d.black() && d.request.columns == 16_384
    }),
];

/// A run, and the film's columns.
type Span = (i128, i128, u64);
type SpanKind = (&'static str, fn(&Driven, Span) -> bool);

/// Of steps that gave a run.
const SPANS: [SpanKind; 4] = [
    ("a centre on the left flank", |d, (first, ..)| {
        first > 0 && d.within(first - 1)
    }),
    ("a centre on the right flank", |d, (_, last, columns)| {
        last + 1 < columns as i128 && d.on_a_side(last)
    }),
    ("cut on the left", |d, (first, ..)| {
        first == 0 && d.within(-1)
    }),
    ("cut on the right", |d, (_, last, columns)| {
        last + 1 == columns as i128 && d.within(last + 1)
    }),
];

/// A stream with fewer steps need not have all kinds; and one with fewer need not
/// have all pens.
const LONG: u64 = 20_000;
const LONGEST: u64 = 1_000_000;

/// What a stream had in it, before it is looked at.
pub fn none_yet() -> Tally {
    let kinds = STARTS.iter().chain(&STEPS).map(|kind| kind.0);
    let spans = SPANS.iter().map(|kind| kind.0);
    Tally::new(("engine", "steps"), kinds.chain(spans), (LONG, LONGEST))
}

pub fn count(tally: &mut Tally, driven: &Driven) {
    tally.tried += u64::from(driven.step.is_some());
    let (first, kinds) = match driven.step {
        None => (0, &STARTS[..]),
        Some(_) => (STARTS.len(), &STEPS[..]),
    };
    tally.count(first, kinds.iter().map(|(_, is)| is(driven)));
    if let Some((first, last)) = driven.run() {
        let span = (first, last, driven.request.columns);
        let spans = SPANS.iter().map(|(_, is)| is(driven, span));
        tally.count(STARTS.len() + STEPS.len(), spans);
    }
    if driven.started() {
        tally.count_pen(&driven.request.setting);
    }
}
