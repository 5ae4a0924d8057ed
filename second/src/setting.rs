//! A setting and its limits: "Units and sizes" of document 01.

/// Width w in sixteenths of a pixel, aspect p/q. Any numbers may stand here;
/// `within_limits` says which ones are settings.
#[derive(Clone, Copy, Debug, PartialEq, Eq)]
pub struct Setting {
    pub w: u64,
    pub p: u64,
    pub q: u64,
}

impl Setting {
    pub fn new(w: u64, p: u64, q: u64) -> Setting {
        Setting { w, p, q }
    }

    /// "width w in sixteenths, 16 to 512; aspect p/q with p and q each 1 to
    /// 16; and 16q <= w*p <= 512q". No product of two u64 leaves u128.
    pub fn within_limits(&self) -> bool {
        let (w, p, q) = (self.w as u128, self.p as u128, self.q as u128);
        16 <= w
            && w <= 512
            && 1 <= p
            && p <= 16
            && 1 <= q
            && q <= 16
            && 16 * q <= w * p
            && w * p <= 512 * q
    }

    /// "Dy is floor((w+8)/16)".
    pub fn dy(&self) -> i64 {
        (self.signed().0 + 8).div_euclid(16)
    }

    /// "Dx is floor((w*p+8q)/(16q))".
    pub fn dx(&self) -> i64 {
        let (w, p, q) = self.signed();
        (w * p + 8 * q).div_euclid(16 * q)
    }

    /// The three numbers with a sign, for settings within the limits.
    pub fn signed(&self) -> (i64, i64, i64) {
        assert!(self.within_limits());
        (self.w as i64, self.p as i64, self.q as i64)
    }
}
