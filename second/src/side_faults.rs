//! Wrong rules for the sides that are kept, for the tests that each is seen.

use crate::pen;
use crate::row::check_path_and_raster;
use crate::setting::Setting;
use crate::sweep::{Point, Sweep};

/// 0 is no fault, and the tests number their others from 5 on.
pub const KEEPS_LEFT_SIDES: u8 = 1;
pub const KEEPS_FLAT_BOTTOMS: u8 = 2;
pub const KEEPS_ALL_SIDES: u8 = 3;
pub const DROPS_FLAT_SIDES: u8 = 4;

/// Which sides are kept under a fault; nothing where it is another.
pub fn rule(fault: u8) -> Option<fn(Point) -> bool> {
    match fault {
        KEEPS_LEFT_SIDES => Some(|n| n.0 < 0 || (n.0 == 0 && n.1 > 0)),
        KEEPS_FLAT_BOTTOMS => Some(|n| n.0 > 0 || (n.0 == 0 && n.1 < 0)),
        KEEPS_ALL_SIDES => Some(|_| true),
        DROPS_FLAT_SIDES => Some(|n| n.0 > 0),
        _ => None,
    }
}

/// The sweeps of a good path, with a good setting.
pub fn sweeps(setting: &Setting, path: &[u8]) -> Vec<Sweep> {
    let pen = pen::whole(&pen::quarter(setting).unwrap());
    let path = check_path_and_raster(path, 1, 1, true).unwrap();
    let points: Vec<Point> = path
        .chunks(2)
        .map(|pair| (pair[0] as i128, pair[1] as i128))
        .collect();
    let last = points[points.len() - 1];
    let ends = points.iter().zip(points.iter().skip(1).chain([&last]));
    ends.map(|(&a, &b)| Sweep::new(&pen, a, b)).collect()
}
