//! How many of what was tried were of each kind, and how many pens had their turn.

use crate::engine_stream::all_pens;
use crate::pen;
use crate::setting::Setting;
use std::collections::HashSet;
use std::fmt;

pub struct Tally {
    /// As "engine" and "steps".
    name: &'static str,
    unit: &'static str,
    kinds: Vec<(&'static str, u64)>,
    /// The pens that were drawn with, by their quarters.
    pens: HashSet<Vec<pen::Corner>>,
    pub tried: u64,
    /// A stream with fewer need not have all kinds; and one with fewer need not have all
    /// pens.
    long: u64,
    longest: u64,
}

impl Tally {
    pub fn new(
        (name, unit): (&'static str, &'static str),
        kinds: impl Iterator<Item = &'static str>,
        (long, longest): (u64, u64),
    ) -> Tally {
        Tally {
            name,
            unit,
            kinds: kinds.map(|kind| (kind, 0)).collect(),
            pens: HashSet::new(),
            tried: 0,
            long,
            longest,
        }
    }

    /// Counts of which kinds something is: the first of them, and those that follow.
    pub fn count(&mut self, first: usize, of_kinds: impl Iterator<Item = bool>) {
        for ((_, count), is) in self.kinds[first..].iter_mut().zip(of_kinds) {
            *count += u64::from(is);
        }
    }

    /// Counts the pen of a good setting.
    pub fn count_pen(&mut self, setting: &Setting) {
        self.pens.extend(pen::quarter(setting));
    }

    pub fn rarest(&self) -> (&'static str, u64) {
        let rarest = self.kinds.iter().min_by_key(|kind| kind.1);
        *rarest.expect("there are kinds")
    }

    pub fn pens(&self) -> usize {
        self.pens.len()
    }

    /// A kind that a long stream does not have.
    pub fn missing(&self) -> Option<&'static str> {
        let (kind, count) = self.rarest();
        if self.tried >= self.long && count == 0 {
            return Some(kind);
        }
        let few = self.tried >= self.longest && self.pens() < all_pens().len();
        few.then_some("every pen there is")
    }

    /// The line for a full agreement, or which kind never occurs though the stream is
    /// long.
    pub fn verdict(&self) -> Result<String, String> {
        match self.missing() {
            Some(kind) => Err(format!("{self}: none of the kind \"{kind}\"")),
            None => Ok(format!("{self}: all equal")),
        }
    }
}

impl fmt::Display for Tally {
    fn fmt(&self, f: &mut fmt::Formatter) -> fmt::Result {
        let words: Vec<String> = self
            .kinds
            .iter()
            .map(|(name, count)| format!("{name}: {count}"))
            .collect();
        let Tally {
            name, unit, tried, ..
        } = self;
        let pens = self.pens();
        write!(
            f,
            "{name}: {tried} {unit}, {pens} pens; {}",
            words.join("; ")
        )
    }
}

#[cfg(test)]
mod tests {
    use super::*;

    #[test]
    fn what_is_missing() {
        let kinds = || ["black", "clear"].into_iter();
        let mut tally = Tally::new(("rows", "rows"), kinds(), (2, 3));
        let mut one = |first: usize, is: &[bool]| {
            tally.tried += 1;
            tally.count(first, is.iter().copied());
            tally.missing()
        };
        assert_eq!(one(0, &[true, false]), None);
        assert_eq!(one(0, &[true, false]), Some("clear"));
        assert_eq!(one(1, &[true]), Some("every pen there is"));
        tally.count_pen(&Setting::new(16, 1, 1));
        tally.count_pen(&Setting::new(16, 2, 2));
        assert_eq!(tally.rarest(), ("clear", 1));
        let line = "rows: 3 rows, 1 pens; black: 2; clear: 1";
        assert_eq!(tally.to_string(), line);
        assert!(tally.verdict().unwrap_err().starts_with(line));
    }
}
