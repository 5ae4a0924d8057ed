//! The table of apertures: "numbered 10 to 41: 32 places, each empty or holding
//! a setting and its pen". A pen follows from its setting, so only that is held.

use crate::setting::Setting;

#[derive(Clone, Default)]
pub struct Table {
    places: [Option<Setting>; 32],
}

/// The place of a number; None where no aperture has it.
fn place(number: u64) -> Option<usize> {
    (10..=41).contains(&number).then(|| (number - 10) as usize)
}

impl Table {
    /// "Defining checks number (6), setting (1), in use (8)." The refusal.
    pub fn define(&mut self, number: u64, setting: Setting) -> u8 {
        let Some(place) = place(number) else {
            return 6;
        };
        if !setting.within_limits() {
            return 1;
        }
        if self.places[place].is_some() {
            return 8;
        }
        self.places[place] = Some(setting);
        0
    }

    /// "aperture number outside 10 to 41, or empty where a pen is needed or
    /// removed". The refusal.
    pub fn remove(&mut self, number: u64) -> u8 {
        if self.setting(number).is_none() {
            return 6;
        }
        self.places[(number - 10) as usize] = None;
        0
    }

    /// What an aperture holds; None where refusal 6 is due.
    pub fn setting(&self, number: u64) -> Option<Setting> {
        self.places[place(number)?]
    }

    pub fn in_use(&self) -> usize {
        self.places.iter().flatten().count()
    }
}

#[cfg(test)]
mod tests {
    use super::*;

    const SMALL: Setting = Setting { w: 16, p: 1, q: 1 };
    const LARGE: Setting = Setting { w: 512, p: 1, q: 1 };
    const BAD: Setting = Setting { w: 15, p: 1, q: 1 };

    #[test]
    fn the_first_refusal_that_applies() {
        let mut table = Table::default();
        for number in [0, 9, 42, 266, u64::MAX] {
            assert_eq!(table.define(number, SMALL), 6);
            assert_eq!(table.define(number, BAD), 6);
            assert_eq!(table.remove(number), 6);
        }
        assert_eq!(table.define(10, BAD), 1);
        assert_eq!(table.remove(10), 6);
        assert_eq!(table.define(10, SMALL), 0);
        assert_eq!(table.define(10, LARGE), 8);
        assert_eq!(table.define(10, BAD), 1);
        assert_eq!(table.setting(10), Some(SMALL));
    }

    /// "every other aperture stays as it was. A removed aperture may be defined
    /// again."
    #[test]
    fn full_and_empty_again() {
        let mut table = Table::default();
        for number in 10..=41 {
            assert_eq!(table.define(number, Setting::new(16 + number, 1, 1)), 0);
        }
        assert_eq!(table.in_use(), 32);
        assert_eq!(table.remove(20), 0);
        assert_eq!(table.remove(20), 6);
        assert_eq!(table.define(20, LARGE), 0);
        for number in 10..=41 {
            let held = match number {
                20 => LARGE,
                _ => Setting::new(16 + number, 1, 1),
            };
            assert_eq!(table.setting(number), Some(held));
            assert_eq!(table.remove(number), 0);
        }
        assert_eq!(table.in_use(), 0);
    }
}
