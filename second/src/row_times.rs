//! How long the row answer takes by the two ways of this program, for the benchmark.

use crate::fast::Drawer;
use crate::row::{self, Answer, Request};
use std::time::Instant;

/// Rows one after another, all of them so many times.
pub struct Rows<'a> {
    pub request: Request<'a>,
    pub count: u64,
    pub times: u64,
}

/// The black pixels of all rows, and the nanoseconds that it took.
fn timed(rows: &Rows, mut answer: impl FnMut(&Request, &mut [u8]) -> Answer) -> (u64, u128) {
    let start = Instant::now();
    let mut pixels = 0;
    let mut list = [0; 4];
    for _ in 0..rows.times {
        for up in 0..rows.count {
            let mut request = rows.request;
            request.row += up;
            if answer(&request, &mut list).count == 1 {
                let [left, right] = [0, 2].map(|at| u16::from_le_bytes([list[at], list[at + 1]]));
                pixels += u64::from(right - left) + 1;
            }
        }
    }
    (pixels, start.elapsed().as_nanos())
}

/// The way is `literal` or `fast`, which keeps its pen. The line to print: pixels,
/// nanoseconds.
pub fn line(way: &str, rows: &Rows) -> Option<String> {
    let (pixels, nanoseconds) = match way {
        "literal" => timed(rows, row::row_answer),
        "fast" => {
            let mut drawer = Drawer::default();
            timed(rows, |request, list| drawer.row_answer(request, list))
        }
        _ => return None,
    };
    Some(format!("{pixels} {nanoseconds}\n"))
}

#[cfg(test)]
mod tests {
    use super::*;
    use crate::setting::Setting;

    /// Document 01's level stroke: 9, 10 and 9 pixels.
    #[test]
    fn both_ways_count_the_same_pixels() {
        let path = row::path_bytes(&[48, 32, 160, 32]);
        let rows = Rows {
            request: Request {
                setting: Setting::new(48, 1, 1),
                path: &path,
                columns: 20,
                rows: 12,
                row: 0,
            },
            count: 12,
            times: 3,
        };
        for way in ["literal", "fast"] {
            assert!(line(way, &rows).unwrap().starts_with("84 "), "{way}");
        }
        assert_eq!(line("other", &rows), None);
    }
}
