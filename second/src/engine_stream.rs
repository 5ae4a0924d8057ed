//! Segments to drive row by row, with ties forced: coordinates on pixel centres and
//! halfway between, corners of the pen through centres, paths along its edges; near
//! the raster, beside it and up to the limits. Each pen there is has its turn.

use crate::calls::{bad_coordinate, bad_setting, far_number, far_segment};
use crate::engine::{Request, ROOM_MAX};
use crate::pen;
use crate::segments::{between, far_end, some_setting, some_step, some_way, LIMIT};
use crate::setting::Setting;
use crate::stream::{good_settings, Sequence};
use crate::table_stream::strange_number;
use std::collections::HashSet;

type Point = (i64, i64);

pub struct Source {
    sequence: Sequence,
    pens: Turns,
    last: Option<Request>,
}

/// A setting of each pen, in a mixture, and how many had their turn.
pub(crate) struct Turns {
    pens: Vec<Setting>,
    turns: usize,
}

impl Turns {
    pub(crate) fn new(sequence: &mut Sequence) -> Turns {
        Turns {
            pens: mixed(sequence, all_pens()),
            turns: 0,
        }
    }

    /// The next pen's.
    pub(crate) fn take(&mut self) -> Setting {
        self.turns += 1;
        self.pens[(self.turns - 1) % self.pens.len()]
    }

    /// Those that are such.
    pub(crate) fn such(&self, is: impl Fn(&Setting) -> bool) -> Vec<Setting> {
        self.pens.iter().copied().filter(is).collect()
    }
}

/// A setting of each pen there is.
pub fn all_pens() -> Vec<Setting> {
    let mut seen = HashSet::new();
    let mut settings = good_settings();
    settings.retain(|setting| seen.insert(pen::quarter(setting)));
    settings
}

fn mixed(sequence: &mut Sequence, mut settings: Vec<Setting>) -> Vec<Setting> {
    for i in (1..settings.len()).rev() {
        settings.swap(i, sequence.below(i as u64 + 1) as usize);
    }
    settings
}

fn sign(sequence: &mut Sequence) -> i64 {
    [1, -1][sequence.below(2) as usize]
}

/// A point near the raster, about the row: on a multiple of the step, or where a
/// corner of the pen lies on a pixel's centre; now and then beside the raster.
fn some_point(
    sequence: &mut Sequence,
    setting: &Setting,
    columns: u64,
    row: u64,
    step: i64,
) -> Point {
    let column = between(sequence, -2, columns.min(64) as i64 + 1);
    let (x, y) = (16 * column, 16 * row as i64);
    let beside = 16 * (setting.dx() + between(sequence, 0, 40));
    match sequence.below(16) {
        0 => (-beside, y),
        1 => (16 * columns.min(16_384) as i64 + beside, y),
        n if n < 9 => {
            let corners = pen::whole(&pen::quarter(setting).expect("a good setting"));
            let corner = corners[sequence.below(corners.len() as u64) as usize];
            (x - 8 * corner.0, y - 8 * corner.1)
        }
        _ => {
            let reach = 8 * setting.dy() + 24;
            let up = between(sequence, -reach, reach).div_euclid(step) * step;
            let right = between(sequence, -16, 16).div_euclid(step) * step;
            (x + right, y + up)
        }
    }
}

/// The path of one segment, through a point.
pub(crate) fn some_path(
    sequence: &mut Sequence,
    setting: &Setting,
    from: Point,
    step: i64,
) -> Vec<Point> {
    let little = between(sequence, 1, 16) * sign(sequence);
    let much = between(sequence, 200, 2_000) * sign(sequence);
    let way = match sequence.below(16) {
        0 => return vec![from],
        1 => (0, 0),
        2 => (much, little),
        3 => (little, much),
        4 => return far_segment(sequence, from).to_vec(),
        5 => return vec![from, far_end(sequence, from.0, from.1, step)],
        6 => (much, between(sequence, 1, 600)),
        _ => some_way(sequence, setting, step),
    };
    let to = (from.0 + way.0, from.1 + way.1);
    match sequence.below(2) {
        0 => vec![from, to],
        _ => vec![to, from],
    }
}

/// The lowest and the highest row that a segment can touch, or one beside it.
pub(crate) fn touched(setting: &Setting, path: &[i32]) -> (i64, i64) {
    let reach = 8 * setting.dy();
    let heights = || path.iter().skip(1).step_by(2).map(|&y| i64::from(y));
    let (low, high) = (heights().min(), heights().max());
    (
        (low.expect("a point") - reach).div_euclid(16),
        (high.expect("a point") + reach).div_euclid(16) + 1,
    )
}

/// Where the engine starts: far below the segment, just below it, in it, above it,
/// in the last row.
fn some_start(sequence: &mut Sequence, (low, high): (i64, i64), rows: u64) -> u64 {
    let row = match sequence.below(16) {
        0 => low - between(sequence, 16, 64),
        1..=7 => low - between(sequence, -1, 2),
        8..=10 => between(sequence, low, high.max(low)),
        11 => high + between(sequence, -1, 2),
        12 => rows as i64 - 1,
        13 => between(sequence, 0, rows as i64 - 1),
        _ => between(sequence, low, low + 40),
    };
    row.clamp(0, rows as i64 - 1) as u64
}

/// The rooms of so many rows, with too little of it now and then, in which case the
/// row is asked for again.
fn some_rooms(sequence: &mut Sequence, rows: u64) -> Vec<u8> {
    let mut rooms = Vec::new();
    for _ in 0..rows {
        while sequence.below(8) == 0 {
            rooms.push(sequence.below(2) as u8);
        }
        rooms.push(2 + sequence.below(ROOM_MAX - 1) as u8);
    }
    rooms
}

/// As many as 1 or more points in narrower arithmetic, or simply not 2 or 4.
fn bad_entries(sequence: &mut Sequence) -> usize {
    let few = 2 + 2 * sequence.below(2) as usize;
    match sequence.below(12) {
        0 => 256 + few,
        1 => 512 + few,
        2 => 1_024,
        n if n < 6 => 0,
        _ => [1, 3, 5, 6, 8][sequence.below(5) as usize],
    }
}

fn bad_size(sequence: &mut Sequence) -> u64 {
    match sequence.below(4) {
        0 => 0,
        1 => 16_385,
        2 => 65_536 + 1 + sequence.below(20),
        _ => far_number(sequence).max(16_385),
    }
}

/// Puts a fault into a request, by the refusal that it is due.
fn spoil(sequence: &mut Sequence, request: &mut Request, fault: u8) {
    match fault {
        6 => match sequence.below(4) {
            0 => request.setting = bad_setting(sequence),
            1 => request.defined = strange_number(sequence),
            2 => request.number = strange_number(sequence),
            _ => request.number = 10 + (request.number - 10 + 1 + sequence.below(31)) % 32,
        },
        2 => request.path.resize(bad_entries(sequence), 16),
        4 if sequence.below(2) == 0 => request.columns = bad_size(sequence),
        4 => request.rows = bad_size(sequence),
        5 => {
            request.row = match sequence.below(3) {
                0 => request.rows,
                1 => far_number(sequence).max(request.rows),
                _ => request.rows + sequence.below(20),
            }
        }
        _ if request.path.is_empty() => {}
        _ => {
            let index = sequence.below(request.path.len() as u64) as usize;
            request.path[index] = bad_coordinate(sequence);
        }
    }
}

impl Source {
    pub fn new(seed: u64) -> Source {
        let mut sequence = Sequence::new(seed);
        Source {
            pens: Turns::new(&mut sequence),
            sequence,
            last: None,
        }
    }

    /// Mostly the next pen, sometimes a small one with many ties. No pen has its turn
    /// where the start will be refused.
    fn some_setting(&mut self, faulty: bool) -> Setting {
        if faulty || self.sequence.below(5) == 0 {
            return some_setting(&mut self.sequence);
        }
        self.pens.take()
    }

    fn some_rows(&mut self) -> u64 {
        match self.sequence.below(8) {
            0 => 16_384,
            1 => 1 + self.sequence.below(16_384),
            2 => 1 + self.sequence.below(3),
            _ => 1 + self.sequence.below(60),
        }
    }

    fn some_columns(&mut self) -> u64 {
        match self.sequence.below(1_000) {
            0 => 16_384,
            1 => 1 + self.sequence.below(16_384),
            n if n < 20 => 1 + self.sequence.below(300),
            n if n % 8 == 0 => 1 + self.sequence.below(2),
            _ => 1 + self.sequence.below(40),
        }
    }

    /// A request that is not refused at its start.
    fn some_good(&mut self, faulty: bool) -> Request {
        let setting = self.some_setting(faulty);
        let (columns, rows) = (self.some_columns(), self.some_rows());
        let sequence = &mut self.sequence;
        let number = 10 + sequence.below(32);
        let about = match sequence.below(6) {
            0 => rows - 1,
            1 => 0,
            _ => sequence.below(rows),
        };
        let step = some_step(sequence);
        let from = some_point(sequence, &setting, columns, about, step);
        let from = (from.0.clamp(-LIMIT, LIMIT), from.1.clamp(-LIMIT, LIMIT));
        let path: Vec<i32> = some_path(sequence, &setting, from, step)
            .iter()
            .flat_map(|&(x, y)| [x, y])
            .map(|c| c.clamp(-LIMIT, LIMIT) as i32)
            .collect();
        let mut request = Request {
            setting,
            defined: number,
            number,
            columns,
            rows,
            row: 0,
            path,
            rooms: Vec::new(),
        };
        self.restart(&mut request);
        request
    }

    /// Another row to start in, and steps to the segment's end or beyond, if that is
    /// not too far.
    fn restart(&mut self, request: &mut Request) {
        let sequence = &mut self.sequence;
        let (low, high) = touched(&request.setting, &request.path);
        request.row = some_start(sequence, (low, high), request.rows);
        let first = request.row as i64;
        let far = low > first + 4;
        let most = match far {
            true => low - first + 4,
            false => 1 + sequence.below(36) as i64,
        };
        let to_the_end = (high + 2).min(request.rows as i64 + 2) - first;
        let rows = to_the_end.clamp(1, most.min(200)) as u64;
        request.rooms = some_rooms(sequence, rows);
    }
}

impl Iterator for Source {
    type Item = Request;

    fn next(&mut self) -> Option<Request> {
        // The same segment again: what two processors do at a seam.
        if let (Some(mut again), 0) = (self.last.take(), self.sequence.below(6)) {
            self.restart(&mut again);
            return Some(again);
        }
        let faulty = self.sequence.below(8) == 0;
        let mut request = self.some_good(faulty);
        self.last = Some(request.clone());
        if faulty {
            for _ in 0..=self.sequence.below(3) {
                let fault = [6, 2, 4, 5, 3][self.sequence.below(5) as usize];
                spoil(&mut self.sequence, &mut request, fault);
            }
            request.rooms.truncate(3);
        }
        Some(request)
    }
}

/// Requests with so many steps at least, as one stream.
pub fn stream(steps: u64, seed: u64) -> Vec<u8> {
    let mut source = Source::new(seed);
    let (mut bytes, mut made) = (Vec::new(), 0);
    while made < steps {
        let request = source.next().expect("there is always another");
        made += request.rooms.len() as u64;
        bytes.extend(request.to_bytes());
    }
    bytes
}
