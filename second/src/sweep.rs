//! "Which pixels are black" of document 01, with W7 of document 02, for one
//! segment. All numbers count sixteenths of a pixel. The sweep is decided by
//! existence, the sides only say which of its boundary points count.

use crate::pen::Corner;

pub type Point = (i128, i128);

/// "a pen corner is 8 units per half pixel".
const UNITS_PER_HALF_PIXEL: i128 = 8;

fn dot(a: Point, b: Point) -> i128 {
    a.0 * b.0 + a.1 * b.1
}

fn minus(a: Point, b: Point) -> Point {
    (a.0 - b.0, a.1 - b.1)
}

/// A line normal·X = offset, its normal pointing outwards.
#[derive(Clone, Copy, Debug, PartialEq, Eq)]
pub struct Line {
    normal: Point,
    offset: i128,
}

/// The edge lines of a pen, its corners given counterclockwise.
fn edge_lines(corners: &[Point]) -> Vec<Line> {
    (0..corners.len())
        .map(|i| {
            let from = corners[i];
            let along = minus(corners[(i + 1) % corners.len()], from);
            // Counterclockwise, so the outside is on the right hand.
            let normal = (along.1, -along.0);
            Line {
                normal,
                offset: dot(normal, from),
            }
        })
        .collect()
}

/// Document 01: "a side is kept if its outward normal has a rightward part, level
/// or slanting"; document 02, W7: "the normal straight down is dropped, straight up
/// is kept; left and right stay".
pub fn kept(normal: Point) -> bool {
    normal.0 > 0 || (normal.0 == 0 && normal.1 > 0)
}

/// One segment from a to b with a pen.
pub struct Sweep {
    a: Point,
    b: Point,
    edges: Vec<Line>,
    sides: Vec<Line>,
}

impl Sweep {
    pub fn new(pen: &[Corner], a: Point, b: Point) -> Sweep {
        let corners: Vec<Point> = pen
            .iter()
            .map(|&(x, y)| {
                (
                    UNITS_PER_HALF_PIXEL * x as i128,
                    UNITS_PER_HALF_PIXEL * y as i128,
                )
            })
            .collect();
        let edges = edge_lines(&corners);
        // "Its sides are the pen's edge lines, each moved to whichever end
        // carries it further out,
        let mut sides: Vec<Line> = edges
            .iter()
            .map(|edge| {
                let at_a = edge.offset + dot(edge.normal, a);
                let at_b = edge.offset + dot(edge.normal, b);
                Line {
                    normal: edge.normal,
                    offset: at_a.max(at_b),
                }
            })
            .collect();
        // and, where the ends differ, the two lines along the path that touch
        // the pen."
        if a != b {
            let along = minus(b, a);
            for normal in [(along.1, -along.0), (-along.1, along.0)] {
                let furthest = corners.iter().map(|&corner| dot(normal, corner)).max();
                let offset = dot(normal, a) + furthest.expect("a pen has corners");
                sides.push(Line { normal, offset });
            }
        }
        Sweep { a, b, edges, sides }
    }

    /// Whether z lies in the pen enlarged k times.
    fn in_pen_enlarged(&self, k: i128, z: Point) -> bool {
        self.edges
            .iter()
            .all(|edge| dot(edge.normal, z) <= k * edge.offset)
    }

    /// "some whole s and k with k >= 1 and 0 <= s <= k, such that
    /// k(X - A) - s(B - A) lies in the pen enlarged k times", if there are
    /// such. With t = s/k each edge says n·(X - A) - t(n·(B - A)) <= offset,
    /// which leaves an interval of t; the least t in all of them is the
    /// witness. It is a fraction of whole numbers, so nothing is lost by
    /// asking for whole s and k.
    fn witness(&self, x: Point) -> Option<(i128, i128)> {
        let to_x = minus(x, self.a);
        let along = minus(self.b, self.a);
        // low and high as fractions with denominators above 0.
        let (mut low, mut high) = ((0, 1), (1, 1));
        let less = |a: (i128, i128), b: (i128, i128)| a.0 * b.1 < b.0 * a.1;
        for edge in &self.edges {
            // t * slope >= need
            let slope = dot(edge.normal, along);
            let need = dot(edge.normal, to_x) - edge.offset;
            if slope > 0 && less(low, (need, slope)) {
                low = (need, slope);
            } else if slope < 0 && less((-need, -slope), high) {
                high = (-need, -slope);
            } else if slope == 0 && need > 0 {
                return None;
            }
        }
        if less(high, low) {
            None
        } else {
            Some(low)
        }
    }

    /// Whether x lies in the sweep. A witness is tried on the definition.
    pub fn contains(&self, x: Point) -> bool {
        let Some((s, k)) = self.witness(x) else {
            return false;
        };
        let (to_x, along) = (minus(x, self.a), minus(self.b, self.a));
        let z = (k * to_x.0 - s * along.0, k * to_x.1 - s * along.1);
        assert!(k >= 1 && 0 <= s && s <= k && self.in_pen_enlarged(k, z));
        true
    }

    /// Whether the segment makes the centre x black.
    pub fn black(&self, x: Point) -> bool {
        self.black_if_kept(x, kept)
    }

    /// The same under a rule of one's own for the sides that are kept.
    pub fn black_if_kept(&self, x: Point, kept: impl Fn(Point) -> bool) -> bool {
        self.contains(x)
            && self
                .sides
                .iter()
                .filter(|side| dot(side.normal, x) == side.offset)
                .all(|side| kept(side.normal))
    }

    /// How many sides of the sweep go through x, which lies in it; two or more meet in
    /// a corner.
    pub fn sides_through(&self, x: Point) -> usize {
        if !self.contains(x) {
            return 0;
        }
        let on = |side: &&Line| dot(side.normal, x) == side.offset;
        self.sides.iter().filter(on).count()
    }
}

/// "Pixel (i, j) has its centre at column i, row j ... at (16i, 16j)".
pub fn centre(column: i128, row: i128) -> Point {
    (16 * column, 16 * row)
}

#[cfg(test)]
mod tests {
    use super::*;
    use crate::pen;
    use crate::setting::Setting;
    use crate::stream::Sequence;

    fn pen_of(w: u64, p: u64, q: u64) -> Vec<Corner> {
        pen::whole(&pen::quarter(&Setting::new(w, p, q)).unwrap())
    }

    #[test]
    fn kept_sides() {
        for normal in [(1, 0), (1, 5), (1, -5), (0, 1), (300, 1)] {
            assert!(kept(normal));
        }
        for normal in [(-1, 0), (-1, 5), (-1, -5), (0, -1)] {
            assert!(!kept(normal));
        }
    }

    /// The interval of t against a plain search over small s and k: every
    /// pair that the search finds must be allowed, and where the witness is
    /// small the search must find one.
    #[test]
    fn existence_by_search() {
        let mut sequence = Sequence::new(3);
        let mut inside = 0;
        for (w, p, q) in [(16, 1, 1), (32, 1, 1), (48, 1, 1), (32, 2, 1), (64, 3, 5)] {
            let pen = pen_of(w, p, q);
            for _ in 0..60 {
                let mut near = |n: u64| sequence.below(2 * n + 1) as i128 - n as i128;
                let a = (near(24), near(24));
                let b = (a.0 + near(20), a.1 + near(20));
                let x = centre(near(2), near(2));
                let sweep = Sweep::new(&pen, a, b);
                let (to_x, along) = (minus(x, a), minus(b, a));
                let found = (1..=60i128).any(|k| {
                    (0..=k).any(|s| {
                        let z = (k * to_x.0 - s * along.0, k * to_x.1 - s * along.1);
                        sweep.in_pen_enlarged(k, z)
                    })
                });
                if found {
                    assert!(sweep.contains(x));
                    inside += 1;
                } else if let Some((_, k)) = sweep.witness(x) {
                    // Only a fraction with a large denominator may be missed.
                    assert!(k > 60);
                }
            }
        }
        assert!(inside > 50 && inside < 250, "{inside}");
    }

    /// A centre in the sweep never lies beyond one of its sides, and one
    /// strictly within all sides lies in the sweep.
    #[test]
    fn sides_bound_the_sweep() {
        let mut sequence = Sequence::new(4);
        for (w, p, q) in [(16, 1, 1), (56, 1, 1), (32, 2, 1), (100, 3, 5)] {
            let pen = pen_of(w, p, q);
            for _ in 0..400 {
                let mut near = |n: u64| sequence.below(2 * n + 1) as i128 - n as i128;
                let a = (8 * near(8), 8 * near(8));
                let b = (a.0 + 8 * near(6), a.1 + 8 * near(6));
                let x = centre(near(10), near(10));
                let sweep = Sweep::new(&pen, a, b);
                let beyond = sweep.sides.iter().any(|s| dot(s.normal, x) > s.offset);
                assert_eq!(sweep.contains(x), !beyond);
            }
        }
    }
}
