//! Document 02's W2: one segment driven row by row. Streams of requests, their
//! answers, and the comparison. Nothing is carried here: each step is answered by
//! the literal row answer for its row.
//!
//! A request is ten numbers of eight bytes each, lowest byte first: w, p, q; the
//! number that this setting is defined under in an empty table; the number that is
//! started with; columns, rows, row; the number of path entries; the number of
//! steps. The path follows, four bytes to an entry, and then the room of each step
//! in one byte: how many numbers of two bytes it is lent.
//!
//! An answer is that of the start: refusal, place and count, of eight bytes each.
//! The same follows for each step, and all that was lent to it as it is then.

use crate::calls::MOST_QUESTIONS;
use crate::engine_kinds::{self, Driven};
use crate::fast::Drawer;
use crate::pen;
use crate::requests;
use crate::row::{self, done, refused, Answer, Drawn};
use crate::segment::Segment;
use crate::setting::Setting;
use crate::table::Table;
use crate::tally::Tally;
use std::fmt;

/// The most numbers that the program under test can lend.
pub const ROOM_MAX: u64 = 8;

#[derive(Clone, Debug, PartialEq, Eq)]
pub struct Request {
    pub setting: Setting,
    pub defined: u64,
    pub number: u64,
    pub columns: u64,
    pub rows: u64,
    pub row: u64,
    pub path: Vec<i32>,
    pub rooms: Vec<u8>,
}

const HEAD: usize = 10 * 8;

impl Request {
    pub fn to_bytes(&self) -> Vec<u8> {
        let head = [
            self.setting.w,
            self.setting.p,
            self.setting.q,
            self.defined,
            self.number,
            self.columns,
            self.rows,
            self.row,
            self.path.len() as u64,
            self.rooms.len() as u64,
        ];
        let mut bytes = requests::number_bytes(&head);
        bytes.extend(row::path_bytes(&self.path));
        bytes.extend(&self.rooms);
        bytes
    }

    /// The first request of a stream, and what follows it.
    fn from_bytes(bytes: &[u8]) -> Result<(Request, &[u8]), String> {
        let (head, rest) = requests::cut(bytes, HEAD)?;
        let numbers = requests::numbers(head);
        let (path, rest) = requests::path(rest, numbers[8])?;
        let (rooms, rest) = requests::cut(rest, numbers[9] as usize)?;
        let request = Request {
            setting: Setting::new(numbers[0], numbers[1], numbers[2]),
            defined: numbers[3],
            number: numbers[4],
            columns: numbers[5],
            rows: numbers[6],
            row: numbers[7],
            path,
            rooms: rooms.to_vec(),
        };
        Ok((request, rest))
    }

    /// Its segment, where the path has one or two points.
    pub fn segment(&self) -> Segment {
        Segment::new(self.setting, &self.path)
    }
}

impl fmt::Display for Request {
    fn fmt(&self, f: &mut fmt::Formatter) -> fmt::Result {
        let Setting { w, p, q } = self.setting;
        write!(
            f,
            "w {w}, p {p}, q {q} as {}, start with {}: columns {}, rows {}, row {}, {} entries {:?}, {} steps",
            self.defined,
            self.number,
            self.columns,
            self.rows,
            self.row,
            self.path.len(),
            &self.path[..self.path.len().min(8)],
            self.rooms.len()
        )
    }
}

/// What is lent to a step, before it: no column, and something else from place to
/// place.
pub fn lent_before(room: u8) -> Vec<u8> {
    (0..u16::from(room))
        .flat_map(|i| (60_000 + i).to_le_bytes())
        .collect()
}

/// A started engine, which stands in a row.
pub struct Engine<'a> {
    pub request: &'a Request,
    pub drawn: Drawn,
    pub row: u64,
    /// For a film so wide that the literal way would take too long.
    fast: Option<Drawer>,
}

impl Engine<'_> {
    /// "Starting checks as a row call does but for 7", so 6, 2, 4, 5, 3; "a path of
    /// one or two points, else refusal 2".
    pub fn start(request: &Request) -> Result<Engine<'_>, Answer> {
        let mut table = Table::default();
        table.define(request.defined, request.setting);
        let Some(setting) = table.setting(request.number) else {
            return Err(refused(6, 0));
        };
        if request.path.len() != 2 && request.path.len() != 4 {
            return Err(refused(2, 0));
        }
        let bytes = row::path_bytes(&request.path);
        let path = row::check_all_but_setting(&row::Request {
            setting,
            path: &bytes,
            columns: request.columns,
            rows: request.rows,
            row: request.row,
        })?;
        let quarter = pen::quarter(&setting).expect("what a table holds has a pen");
        let dear = request.columns > MOST_QUESTIONS / 4;
        Ok(Engine {
            request,
            drawn: Drawn::new(&quarter, &path),
            row: request.row,
            fast: dear.then(Drawer::default),
        })
    }

    /// The row answer for the row in which the engine stands: 5, then 7. "a refused
    /// step leaves its state".
    pub fn step(&mut self, list: &mut [u8]) -> Answer {
        let answer = self.answer(list);
        self.row += u64::from(answer.refusal == 0);
        answer
    }

    fn answer(&mut self, list: &mut [u8]) -> Answer {
        let request = self.request;
        if self.row >= request.rows {
            return refused(5, 0);
        }
        let Some(fast) = &mut self.fast else {
            return row::put_runs(&self.drawn.columns(request.columns, self.row), list);
        };
        fast.row_answer(
            &row::Request {
                setting: request.setting,
                path: &row::path_bytes(&request.path),
                columns: request.columns,
                rows: request.rows,
                row: self.row,
            },
            list,
        )
    }
}

/// One part of an answer: the start's, or a step's with all that was lent to it.
pub struct Part {
    pub answer: Answer,
    pub lent: Vec<u8>,
}

impl Part {
    fn to_bytes(&self) -> Vec<u8> {
        let Answer {
            refusal,
            place,
            count,
        } = self.answer;
        let mut bytes = requests::number_bytes(&[u64::from(refusal), place, count as u64]);
        bytes.extend(&self.lent);
        bytes
    }
}

/// Answers a request part by part, the start first. After a refused start there is
/// no row to stand in, so that each step is refused with 5.
fn parts<'a>(request: &'a Request, mut seen: impl FnMut(&Driven<'_, 'a>, Part)) {
    let mut engine = Engine::start(request);
    let start = match &engine {
        Ok(_) => done(0),
        Err(answer) => *answer,
    };
    let mut driven = Driven {
        request,
        engine: engine.as_ref().ok(),
        row: request.row,
        step: None,
        before: start,
        answer: start,
    };
    seen(
        &driven,
        Part {
            answer: start,
            lent: Vec::new(),
        },
    );
    for (i, &room) in request.rooms.iter().enumerate() {
        let mut lent = lent_before(room);
        let (before, row) = (driven.answer, engine.as_ref().map_or(0, |e| e.row));
        let answer = match &mut engine {
            Ok(engine) => engine.step(&mut lent),
            Err(_) => refused(5, 0),
        };
        driven = Driven {
            request,
            engine: engine.as_ref().ok(),
            row,
            step: Some(i),
            before,
            answer,
        };
        seen(&driven, Part { answer, lent });
    }
}

/// The answers to a whole stream of requests.
pub fn answers(requests: &[u8]) -> Result<Vec<u8>, String> {
    let mut bytes = Vec::new();
    let mut requests = requests;
    while !requests.is_empty() {
        let (request, later) = Request::from_bytes(requests)?;
        parts(&request, |_, part| bytes.extend(part.to_bytes()));
        requests = later;
    }
    Ok(bytes)
}

fn show(part: &[u8]) -> String {
    let numbers: Vec<String> = ["refusal", "place", "count"]
        .iter()
        .zip(requests::numbers(part))
        .map(|(name, number)| format!("{name} {number}"))
        .collect();
    let lent: Vec<u16> = part
        .get(24..)
        .unwrap_or(&[])
        .chunks_exact(2)
        .map(|two| u16::from_le_bytes([two[0], two[1]]))
        .collect();
    format!("{}; lent {lent:?}", numbers.join(", "))
}

/// What of an answer's bytes differs, if something does: the first part that does.
fn difference(driven: &Driven, own: &[u8], foreign: &[u8]) -> Option<String> {
    let one = &foreign[..foreign.len().min(own.len())];
    if one == own {
        return None;
    }
    let what = match one.len() < own.len() {
        true => "the answers end too early",
        false => "the answers differ",
    };
    let part = match driven.step {
        None => "the start".to_string(),
        Some(i) => format!(
            "step {i} in row {} with room {}",
            driven.row, driven.request.rooms[i]
        ),
    };
    Some(format!(
        "{part}: {what}\n own answer     {}\n foreign answer {}",
        show(own),
        show(one)
    ))
}

/// Compares foreign answers with this program's own: what the stream had in it,
/// or what the first difference is.
pub fn compared(requests: &[u8], foreign: &[u8]) -> Result<Tally, String> {
    let mut tally = engine_kinds::none_yet();
    let (mut requests, mut foreign) = (requests, foreign);
    let mut i = 0;
    while !requests.is_empty() {
        let (request, later) = Request::from_bytes(requests)?;
        let mut complaint = None;
        parts(&request, |driven, part| {
            if complaint.is_some() {
                return;
            }
            let own = part.to_bytes();
            complaint = difference(driven, &own, foreign);
            if complaint.is_none() {
                foreign = &foreign[own.len()..];
                engine_kinds::count(&mut tally, driven);
            }
        });
        if let Some(complaint) = complaint {
            return Err(format!("request {i}: {request}\n{complaint}"));
        }
        requests = later;
        i += 1;
    }
    requests::none_left(foreign)?;
    Ok(tally)
}

pub fn compare(requests: &[u8], foreign: &[u8]) -> Result<String, String> {
    requests::compare(requests, foreign, compared)
}

#[cfg(test)]
mod tests {
    use super::*;
    use crate::engine_stream::{stream, Source};

    const STEPS: u64 = 20_000;

    /// Ways to be wrong.
    #[derive(Clone, Copy, Debug, PartialEq, Eq)]
    enum Fault {
        None,
        LeftColumnOff,
        RightColumnOff,
        KeepsTheLeftFlank,
        DropsTheRightFlank,
        FlatBottomKept,
        FlatTopDropped,
        TailMoved,
        WritesOnRefusal,
        WritesNothing,
        CountsOnRefusal,
        CountsNothing,
        LosesThePlace,
        MovesOnAtARefusal,
        StaysInTheRow,
        StartsARowAbove,
        FollowsTheList,
        OneRowMore,
        OneRowLess,
        RoomOfOne,
        NoRoomNeedsSome,
        RefusesForEver,
        RoomBeforeRow,
        ManyPoints,
        OnePointIsNone,
        EntriesOfOneByte,
        RasterBeforePath,
        CoordinatesBeforeRow,
        ApertureLast,
        PenOfAnotherNumber,
        RefusedStartRuns,
        FirstEndAlone,
        Uncut,
    }

    const FAULTS: [Fault; 32] = [
        Fault::LeftColumnOff,
        Fault::RightColumnOff,
        Fault::KeepsTheLeftFlank,
        Fault::DropsTheRightFlank,
        Fault::FlatBottomKept,
        Fault::FlatTopDropped,
        Fault::TailMoved,
        Fault::WritesOnRefusal,
        Fault::WritesNothing,
        Fault::CountsOnRefusal,
        Fault::CountsNothing,
        Fault::LosesThePlace,
        Fault::MovesOnAtARefusal,
        Fault::StaysInTheRow,
        Fault::StartsARowAbove,
        Fault::FollowsTheList,
        Fault::OneRowMore,
        Fault::OneRowLess,
        Fault::RoomOfOne,
        Fault::NoRoomNeedsSome,
        Fault::RefusesForEver,
        Fault::RoomBeforeRow,
        Fault::ManyPoints,
        Fault::OnePointIsNone,
        Fault::EntriesOfOneByte,
        Fault::RasterBeforePath,
        Fault::CoordinatesBeforeRow,
        Fault::ApertureLast,
        Fault::PenOfAnotherNumber,
        Fault::RefusedStartRuns,
        Fault::FirstEndAlone,
        Fault::Uncut,
    ];

    /// The request that a faulty program takes this one for.
    fn taken_for(request: &Request, fault: Fault) -> Request {
        let mut taken = request.clone();
        let segment = |entries: usize| entries == 2 || entries == 4;
        match fault {
            Fault::ManyPoints if request.path.len() > 4 => taken.path.truncate(4),
            Fault::EntriesOfOneByte if segment(request.path.len() % 256) => {
                taken.path.truncate(request.path.len() % 256);
            }
            Fault::OnePointIsNone if request.path.len() == 2 => taken.path.clear(),
            Fault::StartsARowAbove if request.row + 1 < request.rows => taken.row += 1,
            Fault::PenOfAnotherNumber if (10..=41).contains(&request.number) => {
                taken.defined = request.number;
            }
            Fault::FirstEndAlone if request.path.len() == 4 => taken.path.truncate(2),
            Fault::RasterBeforePath if !segment(request.path.len()) => {
                let sizes = [request.columns, request.rows];
                if sizes.iter().any(|size| !(1..=16_384).contains(size)) {
                    taken.path = vec![16, 16];
                }
            }
            Fault::CoordinatesBeforeRow => {
                let bad = |c: &i32| !(-262_144..=262_144).contains(c);
                if request.path.iter().any(bad) && (1..=16_384).contains(&request.rows) {
                    taken.row = 0;
                }
            }
            Fault::ApertureLast if !segment(request.path.len()) => {
                (taken.setting, taken.defined, taken.number) = (Setting::new(16, 1, 1), 10, 10);
            }
            _ => {}
        }
        taken
    }

    /// The columns that a faulty program has black in the engine's row.
    fn black(engine: &Engine, fault: Fault) -> Vec<u64> {
        let (columns, row) = (engine.request.columns, engine.row);
        let kept = |normal: (i128, i128)| match fault {
            Fault::KeepsTheLeftFlank if normal.0 < 0 => true,
            Fault::DropsTheRightFlank if normal.0 > 0 => false,
            Fault::FlatBottomKept if normal.0 == 0 && normal.1 < 0 => true,
            Fault::FlatTopDropped if normal.0 == 0 && normal.1 > 0 => false,
            _ => crate::sweep::kept(normal),
        };
        let centre = |column: u64| crate::sweep::centre(column as i128, row as i128);
        let sweep = &engine.drawn.0[0];
        let all = match fault {
            Fault::Uncut => columns + 1,
            _ => columns,
        };
        (0..all)
            .filter(|&column| sweep.black_if_kept(centre(column), kept))
            .collect()
    }

    /// A step of a faulty program.
    fn step(engine: &mut Engine, fault: Fault, before: Answer, lent: &mut [u8]) -> Answer {
        let room = lent.len() / 2;
        let rows = match fault {
            Fault::OneRowMore => engine.request.rows + 1,
            Fault::OneRowLess => engine.request.rows - 1,
            _ => engine.request.rows,
        };
        let unchanged = lent.to_vec();
        let mut answer = match engine.row >= rows {
            true if fault == Fault::RoomBeforeRow && room == 0 => refused(7, 0),
            true => refused(5, 0),
            false => row::put_runs(&black(engine, fault), lent),
        };
        match fault {
            Fault::LeftColumnOff if answer.count > 0 => lent[0] = lent[0].wrapping_add(1),
            Fault::RightColumnOff if answer.count > 0 => lent[2] = lent[2].wrapping_sub(1),
            Fault::TailMoved if lent.len() > 6 => lent.copy_within(6.., 4),
            Fault::WritesOnRefusal if answer.refusal != 0 && room > 0 => lent[0] = 0,
            Fault::WritesNothing => lent.copy_from_slice(&unchanged),
            Fault::CountsOnRefusal if answer.refusal == 7 => answer.count = 1,
            Fault::CountsNothing => answer.count = 0,
            Fault::RoomOfOne if answer.refusal == 7 && room == 1 => answer = done(1),
            Fault::NoRoomNeedsSome if room == 0 && answer == done(0) => answer = refused(7, 0),
            Fault::RefusesForEver if before.refusal == 7 => {
                lent.copy_from_slice(&unchanged);
                answer = before;
            }
            _ => {}
        }
        engine.row += match fault {
            Fault::MovesOnAtARefusal => 1,
            Fault::StaysInTheRow => 0,
            Fault::FollowsTheList if room > 3 && answer.refusal == 0 => 2,
            _ => u64::from(answer.refusal == 0),
        };
        answer
    }

    /// What a faulty program answers to a request.
    fn faulty(request: &Request, fault: Fault) -> Vec<u8> {
        let taken = taken_for(request, fault);
        let mut engine = Engine::start(&taken);
        let mut start = match &engine {
            Ok(_) => done(0),
            Err(answer) => *answer,
        };
        if fault == Fault::LosesThePlace {
            start.place = 0;
        }
        let part = |answer: Answer, lent: Vec<u8>| Part { answer, lent }.to_bytes();
        let mut bytes = part(start, Vec::new());
        let mut before = start;
        for &room in &request.rooms {
            let mut lent = lent_before(room);
            before = match &mut engine {
                Ok(engine) => step(engine, fault, before, &mut lent),
                Err(_) if fault == Fault::RefusedStartRuns => done(0),
                Err(_) => refused(5, 0),
            };
            bytes.extend(part(before, lent));
        }
        bytes
    }

    /// As many requests as have so many steps, but for those on films that are wide.
    fn some_requests() -> Vec<Request> {
        let mut steps = 0;
        Source::new(1)
            .filter(|request| request.columns <= 300 || request.columns > 16_384)
            .take_while(|request| {
                steps += request.rooms.len() as u64;
                steps < STEPS
            })
            .collect()
    }

    fn bytes_of(requests: &[Request]) -> Vec<u8> {
        requests.iter().flat_map(Request::to_bytes).collect()
    }

    #[test]
    fn what_is_right_passes() {
        let requests = some_requests();
        let bytes = bytes_of(&requests);
        let right: Vec<u8> = requests
            .iter()
            .flat_map(|r| faulty(r, Fault::None))
            .collect();
        assert!(right == answers(&bytes).unwrap());
        let line = compare(&bytes, &right).unwrap();
        assert!(line.ends_with("all equal"), "{line}");
    }

    #[test]
    fn what_is_wrong_is_caught() {
        let requests = some_requests();
        let bytes = bytes_of(&requests);
        for fault in FAULTS {
            let wrong: Vec<u8> = requests.iter().flat_map(|r| faulty(r, fault)).collect();
            match compare(&bytes, &wrong) {
                Ok(line) => panic!("{fault:?} is not seen: {line}"),
                Err(complaint) => assert!(complaint.contains("differ"), "{fault:?}: {complaint}"),
            }
        }
    }

    #[test]
    fn too_few_and_too_many_bytes() {
        let requests: Vec<Request> = Source::new(3).take(20).collect();
        let bytes = bytes_of(&requests);
        let mut answers = answers(&bytes).unwrap();
        answers.push(0);
        let more = compare(&bytes, &answers).unwrap_err();
        assert!(more.contains("1 bytes too many"), "{more}");
        answers.truncate(answers.len() - 2);
        let fewer = compare(&bytes, &answers).unwrap_err();
        assert!(fewer.contains("end too early"), "{fewer}");
        assert!(compare(&bytes[..bytes.len() - 1], &answers).is_err());
        assert!(compare(&[], &[]).is_err());
    }

    #[test]
    fn requests_come_back_from_bytes() {
        let requests: Vec<Request> = Source::new(4).take(500).collect();
        let bytes = bytes_of(&requests);
        let mut rest = &bytes[..];
        for request in &requests {
            let (one, later) = Request::from_bytes(rest).unwrap();
            assert_eq!(one, *request);
            rest = later;
        }
        assert!(rest.is_empty());
        assert!(Request::from_bytes(&[255; HEAD]).is_err());
    }

    /// Document 01's level stroke at height 32, and W7's at 40, from row 0 on, with
    /// too little room once; past the last row 5, again and again.
    #[test]
    fn the_cases() {
        let request = |y: i32, rooms: &[u8]| Request {
            setting: Setting::new(48, 1, 1),
            defined: 10,
            number: 10,
            columns: 20,
            rows: 5,
            row: 0,
            path: vec![48, y, 160, y],
            rooms: rooms.to_vec(),
        };
        let told = |request: Request| {
            let mut told = Vec::new();
            parts(&request, |_, part| {
                let numbers: Vec<u16> = part
                    .lent
                    .chunks_exact(2)
                    .map(|two| u16::from_le_bytes([two[0], two[1]]))
                    .collect();
                told.push((part.answer.refusal, numbers));
            });
            told
        };
        let level = told(request(32, &[0, 2, 1, 3, 2, 0, 2, 2]));
        let right = [
            (0, vec![]),
            (0, vec![]),
            (0, vec![3, 11]),
            (7, vec![60_000]),
            (0, vec![2, 11, 60_002]),
            (0, vec![3, 11]),
            (0, vec![]),
            (5, vec![60_000, 60_001]),
            (5, vec![60_000, 60_001]),
        ];
        assert_eq!(level, right);
        let raised = told(request(40, &[2, 2, 2, 2, 2]));
        let right = [
            (0, vec![]),
            (0, vec![60_000, 60_001]),
            (0, vec![60_000, 60_001]),
            (0, vec![2, 11]),
            (0, vec![2, 11]),
            (0, vec![3, 10]),
        ];
        assert_eq!(raised, right);
    }

    /// "order 6, 2, 4, 5, 3".
    #[test]
    fn the_order_of_refusals() {
        let bad = |faults: &[u8]| {
            let has = |n| faults.contains(&n);
            let mut path = vec![8, 8, 24, 24];
            if has(3) {
                path[1] = 300_000;
            }
            if has(2) {
                path.extend([8, 8]);
            }
            let request = Request {
                setting: Setting::new(16, 1, 1),
                defined: 10,
                number: if has(6) { 11 } else { 10 },
                columns: if has(4) { 0 } else { 20 },
                rows: 12,
                row: if has(5) { 12 } else { 1 },
                path,
                rooms: Vec::new(),
            };
            let start = Engine::start(&request);
            start.map_or_else(|answer| answer, |_| done(0))
        };
        let order = [6, 2, 4, 5, 3];
        for (i, &first) in order.iter().enumerate() {
            let place = u64::from(first == 3);
            assert_eq!(bad(&order[i..]), refused(first, place));
            assert_eq!(bad(&[first]), refused(first, place));
        }
        assert_eq!(bad(&[]), done(0));
    }

    /// Every kind comes often, and a long stream without one is told.
    #[test]
    fn kinds() {
        let bytes = stream(40_000, 2);
        let counts = compared(&bytes, &answers(&bytes).unwrap()).unwrap();
        let (kind, count) = counts.rarest();
        assert!(count >= 5, "{kind}: {counts}");
        assert!(counts.pens() > 1_500, "{counts}");
        assert_eq!(counts.missing(), None);
        let dots: Vec<Request> = Source::new(5)
            .filter(|request| request.path.len() == 2 && request.columns < 300)
            .take(3_000)
            .collect();
        let bytes = bytes_of(&dots);
        let complaint = compare(&bytes, &answers(&bytes).unwrap()).unwrap_err();
        assert!(complaint.contains("none of the kind"), "{complaint}");
    }

    #[test]
    fn a_seed_gives_one_stream() {
        assert!(stream(2_000, 9) == stream(2_000, 9));
        assert!(stream(2_000, 9) != stream(2_000, 10));
    }
}
