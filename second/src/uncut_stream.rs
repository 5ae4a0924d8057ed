//! Segments to ask for uncut, with ties forced: corners of the pen through centres,
//! paths along its edges, rows at its lowest and highest height; left of the raster,
//! right of it and up to the limits. Each pen there is has its turn. And requests with
//! one fault or several.

use crate::calls::{bad_coordinate, bad_setting, far_number};
use crate::engine_stream::{some_path, touched, Turns};
use crate::pen;
use crate::segments::{between, some_setting, some_step, LIMIT};
use crate::setting::Setting;
use crate::stream::Sequence;
use crate::table_stream::strange_number;
use crate::uncut::Request;

type Point = (i64, i64);

/// The last row there is.
const TOP: i64 = 16_383;

pub struct Source {
    sequence: Sequence,
    pens: Turns,
    /// Those that are 32 pixels wide, and reach furthest.
    widest: Vec<Setting>,
    /// Those of up to two pixels, which pass between centres.
    thin: Vec<Setting>,
}

fn one_of(sequence: &mut Sequence, settings: &[Setting]) -> Setting {
    settings[sequence.below(settings.len() as u64) as usize]
}

/// Mostly about column 0, and often at the limits.
fn some_column(sequence: &mut Sequence) -> i64 {
    match sequence.below(10) {
        0 => between(sequence, -16_390, -16_340),
        1 => between(sequence, 16_340, 16_390),
        2 => between(sequence, -16_384, 16_384),
        3..=5 => between(sequence, -60, -1),
        _ => between(sequence, -12, 40),
    }
}

fn some_row(sequence: &mut Sequence) -> i64 {
    match sequence.below(8) {
        0 => 0,
        1 => TOP,
        2 => between(sequence, 0, TOP),
        3 => between(sequence, TOP - 40, TOP),
        _ => between(sequence, 0, 60),
    }
}

/// A point about a centre: on a multiple of the step, or where a corner of the pen lies
/// on that centre.
fn some_point(sequence: &mut Sequence, setting: &Setting, (x, y): Point, step: i64) -> Point {
    let (x, y) = match sequence.below(2) {
        0 => {
            let corners = pen::whole(&pen::quarter(setting).expect("a good setting"));
            let corner = corners[sequence.below(corners.len() as u64) as usize];
            (x - 8 * corner.0, y - 8 * corner.1)
        }
        _ => {
            let reach = 8 * setting.dy() + 24;
            let mut off = |most: i64| between(sequence, -most, most).div_euclid(step) * step;
            (x + off(16), y + off(reach))
        }
    };
    (x.clamp(-LIMIT, LIMIT), y.clamp(-LIMIT, LIMIT))
}

/// A path from one of the ends of the range, which the pen reaches out of, or from one
/// to the other; the row is near its first point.
fn extreme_path(sequence: &mut Sequence, row: i64) -> Vec<Point> {
    let step = some_step(sequence);
    let mut near = || 16 * row + between(sequence, -40, 40).div_euclid(step) * step;
    let (y, other) = (near(), near());
    let from = match sequence.below(2) {
        0 => (LIMIT, y),
        _ => (-LIMIT, y),
    };
    match sequence.below(6) {
        0 => vec![from],
        1 => vec![from, from],
        2 => vec![from, (-from.0, y)],
        3 => vec![(-from.0, other), from],
        4 => vec![from, (from.0, y + between(sequence, -400, 400))],
        _ => vec![from, (between(sequence, -LIMIT, LIMIT), other)],
    }
}

/// One point at any place within a pixel.
fn small_dot(sequence: &mut Sequence, row: i64) -> Vec<Point> {
    let column = some_column(sequence);
    let mut near = |pixel: i64| 16 * pixel + between(sequence, -8, 8);
    vec![(near(column), near(row))]
}

/// A path through a point near the row.
fn near_path(sequence: &mut Sequence, setting: &Setting, row: i64) -> Vec<Point> {
    let step = some_step(sequence);
    let centre = (16 * some_column(sequence), 16 * row);
    let from = some_point(sequence, setting, centre, step);
    some_path(sequence, setting, from, step)
}

/// The row that is asked for: that about which the path was made, the ones at its
/// lowest and its highest height, others in it, beside it and far from it.
fn asked_row(sequence: &mut Sequence, (low, high): (i64, i64), about: i64) -> u64 {
    let row = match sequence.below(16) {
        0..=4 => about,
        5 => low - between(sequence, 17, 80),
        6 | 7 => low + between(sequence, -1, 1),
        8 | 9 => high + between(sequence, -2, 1),
        10 => high + between(sequence, 17, 80),
        11 => between(sequence, 0, TOP),
        12 => TOP,
        _ => between(sequence, low, high),
    };
    row.clamp(0, TOP) as u64
}

/// Any number but 2 and 4, and such as are 2 or 4 in one byte.
fn bad_entries(sequence: &mut Sequence) -> usize {
    let few = 2 + 2 * sequence.below(2) as usize;
    match sequence.below(12) {
        0 => 256 + few,
        1 => 512 + few,
        2 => 9 + sequence.below(1_016) as usize,
        _ => [0, 1, 3, 5, 6, 7, 8][sequence.below(7) as usize],
    }
}

fn bad_row(sequence: &mut Sequence) -> u64 {
    match sequence.below(5) {
        0 => 16_384,
        1 => 16_384 + sequence.below(20),
        2 => (1 << 16) + sequence.below(60),
        3 => (1 << 32) + sequence.below(60),
        _ => far_number(sequence).max(16_384),
    }
}

/// Puts a fault into a request, by the refusal that it is due.
fn spoil(sequence: &mut Sequence, request: &mut Request, fault: u8) {
    match fault {
        6 => match sequence.below(6) {
            0 => request.setting = bad_setting(sequence),
            1 => request.defined = strange_number(sequence),
            2 => request.number = strange_number(sequence),
            3 => {
                request.number = strange_number(sequence);
                request.defined = request.number;
            }
            4 => request.number = sequence.below(10),
            _ => request.number = 10 + (request.defined + sequence.below(31)) % 32,
        },
        2 => {
            let entries = bad_entries(sequence);
            request.path.resize(entries, 16);
        }
        5 => request.row = bad_row(sequence),
        _ if request.path.is_empty() => {}
        _ => {
            let index = sequence.below(request.path.len() as u64) as usize;
            request.path[index] = bad_coordinate(sequence);
        }
    }
}

impl Source {
    pub fn new(seed: u64) -> Source {
        let mut sequence = Sequence::new(seed);
        let pens = Turns::new(&mut sequence);
        Source {
            sequence,
            widest: pens.such(|s| s.dx() == 32),
            thin: pens.such(|s| s.dx() <= 2 && s.dy() <= 2),
            pens,
        }
    }

    /// Mostly the next pen, sometimes a small one with many ties or one that is thin.
    /// No pen has its turn where the request will be refused.
    fn some_setting(&mut self, faulty: bool) -> Setting {
        let sequence = &mut self.sequence;
        match sequence.below(12) {
            0 => one_of(sequence, &self.thin),
            n if n < 3 || faulty => some_setting(sequence),
            _ => self.pens.take(),
        }
    }

    /// What reaches furthest, or just out of the range.
    fn extreme_setting(&mut self) -> Setting {
        match self.sequence.below(3) {
            0 => one_of(&mut self.sequence, &self.thin),
            _ => one_of(&mut self.sequence, &self.widest),
        }
    }

    /// A request that is not refused.
    fn some_good(&mut self, faulty: bool) -> Request {
        let about = some_row(&mut self.sequence);
        let (setting, points) = match self.sequence.below(12) {
            0 if !faulty => {
                let setting = self.extreme_setting();
                (setting, extreme_path(&mut self.sequence, about))
            }
            1 => {
                let setting = one_of(&mut self.sequence, &self.thin);
                (setting, small_dot(&mut self.sequence, about))
            }
            _ => {
                let setting = self.some_setting(faulty);
                (setting, near_path(&mut self.sequence, &setting, about))
            }
        };
        let sequence = &mut self.sequence;
        let path: Vec<i32> = points
            .iter()
            .flat_map(|&(x, y)| [x, y])
            .map(|c| c.clamp(-LIMIT, LIMIT) as i32)
            .collect();
        let number = 10 + sequence.below(32);
        Request {
            row: asked_row(sequence, touched(&setting, &path), about),
            setting,
            defined: number,
            number,
            path,
        }
    }
}

impl Iterator for Source {
    type Item = Request;

    fn next(&mut self) -> Option<Request> {
        let faulty = self.sequence.below(3) == 0;
        let mut request = self.some_good(faulty);
        if faulty {
            for _ in 0..=self.sequence.below(3) {
                let fault = [6, 2, 5, 3, 3][self.sequence.below(5) as usize];
                spoil(&mut self.sequence, &mut request, fault);
            }
        }
        Some(request)
    }
}
