//! The settings that are tried, and how they are written as bytes: three
//! numbers w, p, q to a setting, eight bytes each, lowest byte first.

use crate::setting::Setting;

/// Every setting within the limits.
pub fn good_settings() -> Vec<Setting> {
    in_the_box().filter(Setting::within_limits).collect()
}

/// All triples with w, p and q each within its own limits.
fn in_the_box() -> impl Iterator<Item = Setting> {
    (16..=512)
        .flat_map(|w| (1..=16).flat_map(move |p| (1..=16).map(move |q| Setting::new(w, p, q))))
}

/// What is tried after the good settings: refused ones at the borders and
/// such as turn into good ones in narrower arithmetic, and 20,000 mixed ones.
pub fn further_settings() -> Vec<Setting> {
    let mut list = borders();
    list.extend(wrapping());
    list.retain(|s| !s.within_limits());
    list.extend(mixed(20_000));
    list
}

fn borders() -> Vec<Setting> {
    let mut list = Vec::new();
    // w*p against 16q and 512q: every triple in the box that fails there, the
    // ones that miss by one among them.
    list.extend(in_the_box().filter(|s| !s.within_limits()));
    // One step and more outside the box, in one place and in several.
    for w in [0, 1, 14, 15, 16, 17, 64, 256, 511, 512, 513, 514, 1024] {
        for p in 0..=17 {
            for q in 0..=17 {
                list.push(Setting::new(w, p, q));
            }
        }
    }
    // Products on and one off a bound, also outside the box.
    for q in 1..=17u64 {
        for p in 1..=17u64 {
            for bound in [16 * q, 512 * q] {
                for product in [bound - 1, bound, bound + 1] {
                    if product % p == 0 {
                        list.push(Setting::new(product / p, p, q));
                    }
                }
            }
        }
    }
    list
}

/// Large numbers that a narrower or wrapping calculation would take for good
/// ones, in each place, in pairs, and in all places.
fn wrapping() -> Vec<Setting> {
    let mut large = vec![u64::MAX, u64::MAX - 15, u64::MAX - 511, 1 << 63];
    for power in [
        8, 9, 10, 15, 16, 31, 32, 52, 53, 55, 56, 58, 59, 60, 61, 62, 63,
    ] {
        for small in [0, 1, 2, 8, 16, 32, 64, 512] {
            large.push((1u64 << power) + small);
            large.push((1u64 << power) - 1);
            large.push((1u64 << power) - small);
        }
    }
    // 2^64 - n: the two's complement of n.
    for n in 1..=20u64 {
        large.push(0u64.wrapping_sub(n));
    }
    for n in [64, 512, 513] {
        large.push(0u64.wrapping_sub(n));
    }
    let mut list = Vec::new();
    for &big in &large {
        for &(a, b) in &[(1, 1), (16, 1), (1, 16), (16, 16), (2, 3), (5, 4)] {
            for w in [16, 64, 512] {
                list.push(Setting::new(big, a, b));
                list.push(Setting::new(w, big, b));
                list.push(Setting::new(w, a, big));
                list.push(Setting::new(big, big, b));
                list.push(Setting::new(big, a, big));
                list.push(Setting::new(w, big, big));
            }
        }
        list.push(Setting::new(big, big, big));
    }
    list
}

/// A simple pseudo-random sequence with a fixed start: a linear step, the
/// state's upper bits folded down.
pub struct Sequence(u64);

impl Sequence {
    pub fn new(seed: u64) -> Sequence {
        Sequence(seed ^ 0x5851_F42D_4C95_7F2D)
    }

    pub fn next(&mut self) -> u64 {
        self.0 = self
            .0
            .wrapping_mul(6_364_136_223_846_793_005)
            .wrapping_add(1_442_695_040_888_963_407);
        let mut x = self.0;
        x ^= x >> 32;
        x = x.wrapping_mul(0xD6E8_FEB8_6659_FD93);
        x ^ (x >> 29)
    }

    /// A number from 0 to n - 1.
    pub fn below(&mut self, n: u64) -> u64 {
        self.next() % n
    }
}

/// Mixed settings, good and bad.
fn mixed(count: usize) -> Vec<Setting> {
    let mut sequence = Sequence::new(1);
    let mut number = |usual: u64| match sequence.below(16) {
        0 => sequence.next(),
        1 => sequence.next() >> 32,
        2 => (sequence.below(usual) + 1) | (1 << (10 + sequence.below(54))),
        3 => 0u64.wrapping_sub(sequence.below(usual)),
        4 | 5 => sequence.below(2 * usual),
        _ => sequence.below(usual) + 1,
    };
    (0..count)
        .map(|_| Setting::new(number(512), number(16), number(16)))
        .collect()
}

/// All settings of the stream, the good ones first.
pub fn all_settings() -> Vec<Setting> {
    let mut list = good_settings();
    list.extend(further_settings());
    list
}

pub fn to_bytes(settings: &[Setting]) -> Vec<u8> {
    let mut bytes = Vec::new();
    for s in settings {
        for number in [s.w, s.p, s.q] {
            bytes.extend_from_slice(&number.to_le_bytes());
        }
    }
    bytes
}

pub fn from_bytes(bytes: &[u8]) -> Result<Vec<Setting>, String> {
    if bytes.len() % 24 != 0 {
        return Err(format!(
            "{} bytes are no whole number of settings",
            bytes.len()
        ));
    }
    let number = |at: usize| {
        let mut eight = [0; 8];
        eight.copy_from_slice(&bytes[at..at + 8]);
        u64::from_le_bytes(eight)
    };
    Ok((0..bytes.len() / 24)
        .map(|i| Setting::new(number(24 * i), number(24 * i + 8), number(24 * i + 16)))
        .collect())
}

#[cfg(test)]
mod tests {
    use super::*;

    #[test]
    fn bytes_and_back() {
        let settings = further_settings();
        let bytes = to_bytes(&settings);
        assert_eq!(from_bytes(&bytes), Ok(settings));
        assert!(from_bytes(&bytes[1..]).is_err());
    }

    /// Each border is in the stream; its good side is in the first part.
    #[test]
    fn borders_are_tried() {
        let list = further_settings();
        let has = |f: &dyn Fn(&Setting) -> bool| assert!(list.iter().any(f));
        for bad in [
            15,
            513,
            0,
            u64::MAX,
            1 << 63,
            (1 << 32) + 16,
            0u64.wrapping_sub(16),
        ] {
            has(&|s| s.w == bad && s.p == 1 && s.q == 1);
        }
        for bad in [
            0,
            17,
            u64::MAX,
            1 << 63,
            (1 << 32) + 16,
            0u64.wrapping_sub(16),
        ] {
            has(&|s| s.w == 64 && s.p == bad && s.q == 1);
            has(&|s| s.w == 64 && s.p == 1 && s.q == bad);
        }
        has(&|s| s.w == u64::MAX && s.p == u64::MAX && s.q == u64::MAX);
        let in_box =
            |s: &Setting| s.w >= 16 && s.w <= 512 && s.p >= 1 && s.p <= 16 && s.q >= 1 && s.q <= 16;
        has(&|s| in_box(s) && s.w * s.p + 1 == 16 * s.q);
        has(&|s| in_box(s) && s.w * s.p == 512 * s.q + 1);
        let good = good_settings();
        assert!(good.iter().any(|s| s.w * s.p == 16 * s.q));
        assert!(good.iter().any(|s| s.w * s.p == 512 * s.q));
        let mixed = mixed(20_000);
        let good = mixed.iter().filter(|s| s.within_limits()).count();
        assert!(good > 2_000 && good < 18_000, "{good}");
    }
}
