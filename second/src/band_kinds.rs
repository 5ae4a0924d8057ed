//! What the band calls reach that are tried, counted.

use crate::band_calls::Call;
use crate::row::Answer;

/// A call with its answer, and what was lent before and after.
pub struct Outcome<'a> {
    pub call: &'a Call,
    pub answer: Answer,
    pub before: &'a [u8],
    pub after: &'a [u8],
}

impl Outcome<'_> {
    fn done(&self) -> bool {
        self.answer.refusal == 0
    }

    fn refused(&self, refusal: u8) -> bool {
        self.answer.refusal == refusal
    }

    fn row_len(&self) -> usize {
        self.call.columns.div_ceil(8) as usize
    }

    /// Whether a byte of a row has become another; rows counted from the top.
    fn changed_in(&self, row: usize, from: usize) -> bool {
        let start = row * self.call.stride as usize;
        let bytes = start + from.min(self.row_len())..start + self.row_len();
        self.before[bytes.clone()] != self.after[bytes]
    }

    /// Whether a pixel has become black.
    pub fn changed(&self) -> bool {
        self.done() && self.before != self.after
    }

    fn points(&self) -> usize {
        self.call.path.len() / 8
    }

    fn last(&self) -> usize {
        self.answer.count - 1
    }

    /// Whether all rows that are so many apart have changed, the first being at least
    /// one of them, in a band of more than those.
    fn changed_in_each(&self, apart: usize) -> bool {
        let rows = (0..self.answer.count).step_by(apart);
        self.answer.count > apart && rows.into_iter().all(|row| self.changed_in(row, 0))
    }

    fn farthest(&self) -> bool {
        self.call.path.chunks_exact(4).any(|four| {
            i32::from_le_bytes([four[0], four[1], four[2], four[3]]).unsigned_abs() == 262_144
        })
    }
}

type Kind = (&'static str, fn(&Outcome) -> bool);

const KINDS: [Kind; 33] = [
    ("done", |o| o.done()),
    ("refusal 1", |o| o.refused(1)),
    ("2", |o| o.refused(2)),
    ("3", |o| o.refused(3)),
    ("4", |o| o.refused(4)),
    ("5", |o| o.refused(5)),
    ("7", |o| o.refused(7)),
    ("pixels become black", |o| o.changed()),
    ("none does", |o| o.done() && !o.changed()),
    ("in a band of one row", |o| {
        o.changed() && o.call.n_rows == 1
    }),
    ("of all rows", |o| {
        o.changed() && o.call.n_rows == o.call.rows && o.call.rows > 1
    }),
    ("in the top and the lowest row", |o| {
        o.changed() && o.last() > 0 && o.changed_in(0, 0) && o.changed_in(o.last(), 0)
    }),
    ("with padding", |o| {
        o.changed() && o.call.stride as usize > o.row_len()
    }),
    ("with room for a further row", |o| {
        o.changed() && o.call.length as u64 / o.call.stride > o.call.n_rows
    }),
    ("with spare bits, at the right end", |o| {
        let end = o.row_len() - 1;
        o.changed() && o.call.columns % 8 != 0 && (0..=o.last()).any(|row| o.changed_in(row, end))
    }),
    ("in every 256th row", |o| {
        o.changed() && o.changed_in_each(256)
    }),
    ("in every 256th row of 4,096 or more", |o| {
        o.changed() && o.call.n_rows >= 4_096 && o.changed_in_each(256)
    }),
    ("past column 160", |o| {
        o.changed() && o.changed_in(o.last(), 20)
    }),
    ("past column 8,192", |o| {
        o.changed() && o.changed_in(o.last(), 1_024)
    }),
    ("from more than 120 points", |o| {
        o.changed() && o.points() > 120
    }),
    ("from 4,096 points", |o| o.changed() && o.points() == 4_096),
    ("from 262,144 away", |o| o.changed() && o.farthest()),
    ("refusal 3 past entry 255", |o| {
        o.refused(3) && o.answer.place > 255
    }),
    ("past entry 4,095", |o| {
        o.refused(3) && o.answer.place > 4_095
    }),
    ("2 of more than 4,096 points", |o| {
        o.refused(2) && o.points() > 4_096
    }),
    ("5 of no rows", |o| o.refused(5) && o.call.n_rows == 0),
    ("of one row too many", |o| {
        o.refused(5)
            && o.call.first_row < o.call.rows
            && o.call.n_rows == o.call.rows - o.call.first_row + 1
    }),
    ("of an end past 64 bits", |o| {
        o.refused(5) && o.call.first_row.checked_add(o.call.n_rows).is_none()
    }),
    ("of the first row alone", |o| {
        o.refused(5) && o.call.first_row == o.call.rows && o.call.n_rows == 1
    }),
    ("7 of a stride one too small", |o| {
        o.refused(7) && o.call.stride as usize + 1 == o.row_len()
    }),
    ("of no stride", |o| o.refused(7) && o.call.stride == 0),
    ("of one byte too few", |o| {
        let needed = o.call.stride.checked_mul(o.call.n_rows);
        o.refused(7) && needed == Some(o.call.length as u64 + 1)
    }),
    ("of a length past 64 bits", |o| {
        o.refused(7) && o.call.stride.checked_mul(o.call.n_rows).is_none()
    }),
];

/// How many outcomes are of each kind.
#[derive(Default)]
pub struct Kinds(Vec<u64>);

impl Kinds {
    pub fn count(&mut self, outcome: &Outcome) {
        self.0.resize(KINDS.len(), 0);
        for (count, (_, is)) in self.0.iter_mut().zip(KINDS) {
            *count += u64::from(is(outcome));
        }
    }

    pub fn rarest(&self) -> u64 {
        self.0.iter().min().copied().unwrap_or(0)
    }
}

impl std::fmt::Display for Kinds {
    fn fmt(&self, f: &mut std::fmt::Formatter) -> std::fmt::Result {
        let counts = self.0.iter().zip(KINDS);
        let words: Vec<String> = counts
            .map(|(count, (name, _))| format!("{name}: {count}"))
            .collect();
        f.write_str(&words.join("; "))
    }
}
