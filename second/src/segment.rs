//! One segment and the setting that it is drawn with: what is asked of it to count the
//! kinds of requests.

use crate::pen;
use crate::setting::Setting;

pub struct Segment {
    pub setting: Setting,
    /// One and the same where the path has one point.
    pub ends: [(i64, i64); 2],
}

impl Segment {
    /// The path has one or two points.
    pub fn new(setting: Setting, path: &[i32]) -> Segment {
        let point = |i: usize| (i64::from(path[i]), i64::from(path[i + 1]));
        let ends = [point(0), point(path.len() - 2)];
        Segment { setting, ends }
    }

    /// From the first end to the second.
    pub fn way(&self) -> (i64, i64) {
        let [a, b] = self.ends;
        (b.0 - a.0, b.1 - a.1)
    }

    pub fn is_dot(&self) -> bool {
        self.way() == (0, 0)
    }

    pub fn level(&self) -> bool {
        self.way().1 == 0 && self.way().0 != 0
    }

    pub fn upright(&self) -> bool {
        self.way().0 == 0 && self.way().1 != 0
    }

    pub fn nearly_level(&self) -> bool {
        self.way().1 != 0 && 16 * self.way().1.abs() <= self.way().0.abs()
    }

    pub fn nearly_upright(&self) -> bool {
        self.way().0 != 0 && 16 * self.way().0.abs() <= self.way().1.abs()
    }

    /// How many ends have a coordinate at a limit.
    pub fn ends_at_a_limit(&self) -> usize {
        let at_limit = |p: &&(i64, i64)| p.0.abs() == 262_144 || p.1.abs() == 262_144;
        self.ends.iter().filter(at_limit).count()
    }

    /// The lowest and the highest height of the sweep, and the least and the
    /// greatest x.
    pub fn bounds(&self) -> [i64; 4] {
        let [a, b] = self.ends;
        let (x, y) = (8 * self.setting.dx(), 8 * self.setting.dy());
        [
            a.1.min(b.1) - y,
            a.1.max(b.1) + y,
            a.0.min(b.0) - x,
            a.0.max(b.0) + x,
        ]
    }

    /// Whether it runs along an edge of the pen that is neither level nor upright.
    pub fn along_an_edge(&self) -> bool {
        let (u, v) = self.way();
        let quarter = pen::quarter(&self.setting).expect("a good setting");
        let corners = pen::whole(&quarter);
        let next = corners.iter().cycle().skip(1);
        u != 0 && v != 0 && {
            let mut edges = corners.iter().zip(next);
            edges.any(|(from, to)| (to.0 - from.0) * v == (to.1 - from.1) * u)
        }
    }
}

#[cfg(test)]
mod tests {
    use super::*;

    #[test]
    fn what_is_asked_of_it() {
        let segment = |path: &[i32]| Segment::new(Setting::new(64, 1, 1), path);
        assert!(segment(&[5, 7]).is_dot() && segment(&[5, 7, 5, 7]).is_dot());
        assert!(segment(&[0, 7, 9, 7]).level() && segment(&[5, 0, 5, 9]).upright());
        assert!(segment(&[0, 0, 16, -1]).nearly_level());
        assert!(segment(&[0, 0, -1, 16]).nearly_upright());
        let slanted = segment(&[0, 0, 15, 1]);
        assert!(!slanted.nearly_level() && !slanted.level() && !slanted.is_dot());
        assert_eq!(segment(&[0, 262_144, 5, 5]).ends_at_a_limit(), 1);
        assert_eq!(segment(&[-262_144, 0]).ends_at_a_limit(), 2);
        assert_eq!(segment(&[-16, 32, 48, 0]).bounds(), [-32, 64, -48, 80]);
        // Of its corners (1,-4) (3,-3) (4,-1) the edges run in (2,1) and (1,2).
        for path in [[0, 0, 20, 10], [0, 0, -7, -14], [9, 9, 19, -11]] {
            assert!(segment(&path).along_an_edge());
        }
        for path in [[0, 0, 20, 11], [0, 0, 20, 0], [0, 0, 0, 20]] {
            assert!(!segment(&path).along_an_edge());
        }
    }
}
