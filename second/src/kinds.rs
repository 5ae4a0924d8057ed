//! What the calls reach that are tried, counted.

use crate::calls::Call;
use crate::row::{records, Answer};

/// A call with its answer and what it wrote.
pub struct Outcome<'a> {
    pub call: &'a Call,
    pub answer: Answer,
    pub lent: &'a [u8],
}

impl Outcome<'_> {
    /// How many runs were written.
    fn runs(&self) -> usize {
        self.answer.count * usize::from(!self.call.packed)
    }

    /// The last run's columns.
    fn last_run(&self) -> (u16, u16) {
        let runs = records(self.lent, self.runs());
        runs.last().copied().unwrap_or((0, 0))
    }

    /// Whether a packed row has black pixels from this column on, which starts a
    /// byte.
    fn packed_from(&self, column: usize) -> bool {
        let filled = &self.lent[..self.answer.count * usize::from(self.call.packed)];
        filled.iter().skip(column / 8).any(|&byte| byte != 0)
    }

    pub fn black(&self) -> bool {
        self.runs() > 0 || self.packed_from(0)
    }

    fn points(&self) -> usize {
        self.call.path.len() / 8
    }

    fn refused(&self, refusal: u8) -> bool {
        self.answer.refusal == refusal
    }
}

type Kind = (&'static str, fn(&Outcome) -> bool);

const KINDS: [Kind; 15] = [
    ("9 runs or more", |o| o.runs() >= 9),
    ("30 runs or more", |o| o.runs() >= 30),
    ("256 runs or more", |o| o.runs() >= 256),
    ("4,095 runs", |o| o.runs() == 4_095),
    ("just enough room for 30 runs or more", |o| {
        o.runs() >= 30 && o.runs() == o.call.length / 4
    }),
    ("too little room for 30 runs or more", |o| {
        o.refused(7) && !o.call.packed && o.call.length >= 4 * 29
    }),
    ("left column above 255", |o| o.last_run().0 > 255),
    ("left column above 4,095", |o| o.last_run().0 > 4_095),
    ("runs up to the end of a row above 255", |o| {
        o.call.columns > 255 && u64::from(o.last_run().1) + 1 == o.call.columns
    }),
    ("black past column 160 of a packed row", |o| {
        o.packed_from(160)
    }),
    ("black past column 8,192 of a packed row", |o| {
        o.packed_from(8_192)
    }),
    ("black from more than 120 points", |o| {
        o.points() > 120 && o.black()
    }),
    ("black from 4,096 points", |o| {
        o.points() == 4_096 && o.black()
    }),
    ("refusal 3 past entry 255", |o| {
        o.refused(3) && o.answer.place > 255
    }),
    ("refusal 3 past entry 4,095", |o| {
        o.refused(3) && o.answer.place > 4_095
    }),
];

/// How many outcomes are of each kind.
#[derive(Default)]
pub struct Kinds([u64; KINDS.len()]);

impl Kinds {
    pub fn count(&mut self, outcome: &Outcome) {
        for (count, (_, is)) in self.0.iter_mut().zip(KINDS) {
            *count += u64::from(is(outcome));
        }
    }

    pub fn rarest(&self) -> u64 {
        *self.0.iter().min().expect("there are kinds")
    }
}

impl std::fmt::Display for Kinds {
    fn fmt(&self, f: &mut std::fmt::Formatter) -> std::fmt::Result {
        let counts = self.0.iter().zip(KINDS);
        let words: Vec<String> = counts
            .map(|(count, (name, _))| format!("{name}: {count}"))
            .collect();
        f.write_str(&words.join("; "))
    }
}
