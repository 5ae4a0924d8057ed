//! "Building the pen" of document 01, step by step in its order and words.
//! All numbers count half pixels; y grows upwards.

use crate::setting::Setting;

/// A corner of a pen, in half pixels.
pub type Corner = (i64, i64);

/// "An edge has a direction (u, v), an offset c (it lies on v*x - u*y = c),
/// and counts l1, l2: its retained point is l1 directions after its start and
/// l2 before its end."
#[derive(Clone, Copy, Debug, PartialEq, Eq)]
struct Edge {
    u: i64,
    v: i64,
    c: i64,
    l1: i64,
    l2: i64,
}

/// "Near root of (u, v) is the whole m with
/// 64q²(2m-1)² <= w²(p²v²+q²u²) < 64q²(2m+1)²", found by trying 0, 1, 2, ...
/// For m < 1 the two bounds leave nothing between them, so no whole number
/// below 0 is passed over.
pub fn near_root(setting: &Setting, u: i64, v: i64) -> i64 {
    let (w, p, q) = setting.signed();
    let (w, p, q) = (w as i128, p as i128, q as i128);
    let (u, v) = (u as i128, v as i128);
    let middle = w * w * (p * p * v * v + q * q * u * u);
    let mut m: i128 = 0;
    loop {
        let low = 64 * q * q * (2 * m - 1) * (2 * m - 1);
        let high = 64 * q * q * (2 * m + 1) * (2 * m + 1);
        if low <= middle && middle < high {
            return m as i64;
        }
        assert!(low <= middle, "the search went past every near root");
        m += 1;
    }
}

/// The nearest whole number to a/b, b > 0; "half goes up".
fn nearest_half_up(a: i128, b: i128) -> i128 {
    assert!(b > 0);
    (2 * a + b).div_euclid(2 * b)
}

/// Step 2 asks for the near root of (u, v), the summed direction, with
/// `whole` = L.c + R.c and s = min(L.l2, R.l1).
#[derive(Clone, Copy, Debug, PartialEq, Eq)]
pub struct Question {
    pub u: i64,
    pub v: i64,
    pub whole: i64,
    pub s: i64,
}

/// The part of the quarter under construction, from the bottom on: corner i
/// lies between edge i and edge i + 1, and the first `out` corners have been
/// put out. `asked` has the near roots that were asked for so far.
struct Construction {
    corners: Vec<Corner>,
    edges: Vec<Edge>,
    out: usize,
    asked: Vec<Question>,
}

impl Construction {
    fn start(setting: &Setting) -> Construction {
        let (dx, dy) = (setting.dx(), setting.dy());
        Construction {
            corners: vec![(dx, -dy)],
            edges: vec![
                Edge {
                    u: 1,
                    v: 0,
                    c: dy,
                    l1: dx,
                    l2: dx,
                },
                Edge {
                    u: 0,
                    v: 1,
                    c: dx,
                    l1: dy,
                    l2: dy,
                },
            ],
            out: 0,
            asked: Vec::new(),
        }
    }

    /// Step 5: "When a corner is put out, the edge after it drops its
    /// retained point: l2 becomes l1 + l2, and l1 becomes 0."
    fn put_out(&mut self) {
        let after = &mut self.edges[self.out + 1];
        after.l2 += after.l1;
        after.l1 = 0;
        self.out += 1;
    }

    /// Steps 1 to 4 at the corner nearest the bottom not yet put out.
    fn treat_corner(&mut self, setting: &Setting) {
        let i = self.out;
        let corner = self.corners[i];
        let left = self.edges[i];
        let right = self.edges[i + 1];

        // Step 1.
        if left.u * right.v - left.v * right.u > 1 {
            self.put_out();
            return;
        }

        // Step 2.
        let (u, v) = (left.u + right.u, left.v + right.v);
        let mut s = left.l2.min(right.l1);
        if s > 0 {
            let whole = left.c + right.c;
            self.asked.push(Question { u, v, whole, s });
            let reduced = whole - near_root(setting, u, v);
            if reduced < s {
                s = reduced;
            }
        }
        if s <= 0 {
            self.put_out();
            return;
        }

        // Step 3.
        let c = left.c + right.c - s;
        let start = (corner.0 - s * left.u, corner.1 - s * left.v);
        let end = (corner.0 + s * right.u, corner.1 + s * right.v);
        self.edges[i].l2 -= s;
        self.edges[i + 1].l1 -= s;

        // Step 4. `left` and `right` still hold the counts from before.
        let all_of_left = s == left.l1 + left.l2;
        let all_of_right = s == right.l1 + right.l2;
        if all_of_left && all_of_right {
            self.edges[i] = Edge {
                u,
                v,
                c,
                l1: left.l1,
                l2: left.l2,
            };
            self.edges.remove(i + 1);
            self.corners.remove(i);
        } else if all_of_left {
            self.edges[i] = Edge {
                u,
                v,
                c,
                l1: left.l1,
                l2: left.l2,
            };
            self.corners[i] = end;
        } else if all_of_right {
            self.edges[i + 1] = Edge {
                u,
                v,
                c,
                l1: right.l1,
                l2: right.l2,
            };
            self.corners[i] = start;
        } else {
            let l1 = retained(setting, u, v, c, start.0, s);
            self.edges.insert(
                i + 1,
                Edge {
                    u,
                    v,
                    c,
                    l1,
                    l2: s - l1,
                },
            );
            self.corners[i] = start;
            self.corners.insert(i + 1, end);
        }
    }

    /// What the words about edges promise at every moment: each edge between
    /// two corners lies on its line and is l1 + l2 directions long. Here only
    /// as a check of this program on itself.
    fn check(&self) {
        assert_eq!(self.edges.len(), self.corners.len() + 1);
        for (i, e) in self.edges.iter().enumerate() {
            assert!(e.l1 >= 0 && e.l2 >= 0);
            for corner in [i.checked_sub(1), Some(i)].into_iter().flatten() {
                if let Some(&(x, y)) = self.corners.get(corner) {
                    assert_eq!(e.v * x - e.u * y, e.c);
                }
            }
            if i > 0 && i < self.corners.len() {
                let (a, b) = (self.corners[i - 1], self.corners[i]);
                let length = e.l1 + e.l2;
                assert_eq!((b.0 - a.0, b.1 - a.1), (length * e.u, length * e.v));
            }
        }
    }
}

/// "l1 is the nearest whole number (half goes up) to
/// (p²vc - x(p²v²+q²u²)) / (u(p²v²+q²u²)), x being its start's, brought into
/// 0..s".
fn retained(setting: &Setting, u: i64, v: i64, c: i64, x: i64, s: i64) -> i64 {
    let (_, p, q) = setting.signed();
    let (p, q) = (p as i128, q as i128);
    let (u, v, c, x) = (u as i128, v as i128, c as i128, x as i128);
    let form = p * p * v * v + q * q * u * u;
    let l1 = nearest_half_up(p * p * v * c - x * form, u * form);
    l1.clamp(0, s as i128) as i64
}

/// The whole construction of the lower right quarter; None for what is no
/// setting.
fn constructed(setting: &Setting) -> Option<Construction> {
    if !setting.within_limits() {
        return None;
    }
    let mut work = Construction::start(setting);
    work.check();
    // "The quarter ends when no corner is left."
    while work.out < work.corners.len() {
        work.treat_corner(setting);
        work.check();
    }
    Some(work)
}

/// The corners of the lower right quarter, from the bottom; None for what is
/// no setting.
pub fn quarter(setting: &Setting) -> Option<Vec<Corner>> {
    constructed(setting).map(|work| work.corners)
}

/// The near roots that building the quarter asks for, in that order.
pub fn questions(setting: &Setting) -> Option<Vec<Question>> {
    constructed(setting).map(|work| work.asked)
}

/// "the pen is that quarter and its mirror images in both axes, equal corners
/// listed once": counterclockwise from the quarter's first corner, up the
/// right side, over the top, down the left side.
pub fn whole(quarter: &[Corner]) -> Vec<Corner> {
    let lower_right = quarter.iter().map(|&(x, y)| (x, y));
    let upper_right = quarter.iter().rev().map(|&(x, y)| (x, -y));
    let upper_left = quarter.iter().map(|&(x, y)| (-x, -y));
    let lower_left = quarter.iter().rev().map(|&(x, y)| (-x, y));
    let mut corners: Vec<Corner> = Vec::new();
    for corner in lower_right
        .chain(upper_right)
        .chain(upper_left)
        .chain(lower_left)
    {
        if corners.last() != Some(&corner) {
            corners.push(corner);
        }
    }
    while corners.len() > 1 && corners.first() == corners.last() {
        corners.pop();
    }
    corners
}

#[cfg(test)]
mod tests {
    use super::*;
    use crate::stream::good_settings;
    use std::collections::HashSet;

    fn pen(setting: &Setting) -> Option<Vec<Corner>> {
        quarter(setting).map(|q| whole(&q))
    }

    fn quarter_of(w: u64, p: u64, q: u64) -> Vec<Corner> {
        quarter(&Setting::new(w, p, q)).unwrap()
    }

    /// The pens of document 01's "Cases".
    #[test]
    fn pens_of_the_cases() {
        assert_eq!(quarter_of(16, 1, 1), [(0, -1), (1, 0)]);
        assert_eq!(quarter_of(32, 1, 1), [(0, -2), (2, -1)]);
        assert_eq!(quarter_of(48, 1, 1), [(1, -3), (3, -1)]);
        assert_eq!(quarter_of(64, 1, 1), [(1, -4), (3, -3), (4, -1)]);
        assert_eq!(quarter_of(112, 1, 1), [(1, -7), (4, -6), (6, -4), (7, -1)]);
        assert_eq!(
            quarter_of(176, 1, 1),
            [(1, -11), (5, -10), (8, -8), (10, -5), (11, -1)]
        );
        assert_eq!(quarter_of(32, 2, 1), [(2, -2), (4, 0)]);
    }

    /// "Limits: w 15 and 513 refused, 16 and 512 taken with p=q=1".
    #[test]
    fn limits_of_the_cases() {
        assert_eq!(pen(&Setting::new(15, 1, 1)), None);
        assert_eq!(pen(&Setting::new(513, 1, 1)), None);
        assert!(pen(&Setting::new(16, 1, 1)).is_some());
        assert!(pen(&Setting::new(512, 1, 1)).is_some());
    }

    #[test]
    fn whole_polygons_by_hand() {
        let w16 = pen(&Setting::new(16, 1, 1)).unwrap();
        assert_eq!(w16, [(0, -1), (1, 0), (0, 1), (-1, 0)]);
        let w48 = pen(&Setting::new(48, 1, 1)).unwrap();
        assert_eq!(
            w48,
            [
                (1, -3),
                (3, -1),
                (3, 1),
                (1, 3),
                (-1, 3),
                (-3, 1),
                (-3, -1),
                (-1, -3)
            ]
        );
        let w32 = pen(&Setting::new(32, 1, 1)).unwrap();
        assert_eq!(w32, [(0, -2), (2, -1), (2, 1), (0, 2), (-2, 1), (-2, -1)]);
    }

    #[test]
    fn halves_go_up() {
        assert_eq!(nearest_half_up(1, 2), 1);
        assert_eq!(nearest_half_up(3, 2), 2);
        assert_eq!(nearest_half_up(-1, 2), 0);
        assert_eq!(nearest_half_up(-3, 2), -1);
        assert_eq!(nearest_half_up(-4, 3), -1);
        assert_eq!(nearest_half_up(4, 3), 1);
        assert_eq!(nearest_half_up(5, 3), 2);
    }

    /// All settings: the known counts, and "A pen is convex, equal to itself
    /// turned by half a turn, exactly Dx pixels wide and Dy pixels high", with
    /// "at most 33 corners, the whole at most 132".
    #[test]
    fn all_pens() {
        let settings = good_settings();
        assert_eq!(settings.len(), 92_217);
        let mut pens = HashSet::new();
        let mut most = 0;
        for setting in &settings {
            let quarter = quarter(setting).unwrap();
            most = most.max(quarter.len());
            assert!(quarter.iter().all(|&(x, y)| x >= 0 && y <= 0));
            let pen = whole(&quarter);
            let n = pen.len();
            assert!(n <= 132 && n % 2 == 0);
            for i in 0..n {
                let (a, b, c) = (pen[i], pen[(i + 1) % n], pen[(i + 2) % n]);
                let turn = (b.0 - a.0) * (c.1 - b.1) - (b.1 - a.1) * (c.0 - b.0);
                assert!(turn > 0, "{setting:?}");
                let opposite = pen[(i + n / 2) % n];
                assert_eq!(opposite, (-a.0, -a.1));
            }
            assert_eq!(pen.iter().map(|c| c.0).max(), Some(setting.dx()));
            assert_eq!(pen.iter().map(|c| c.1).max(), Some(setting.dy()));
            pens.insert(pen);
        }
        assert_eq!(pens.len(), 30_543);
        assert_eq!(most, 12);
    }
}
