//! Document 02's W8: the extent of one segment in one row, uncut. Streams of requests,
//! their answers, and the comparison.
//!
//! A request is seven numbers of eight bytes each, lowest byte first: w, p, q; the
//! number that this setting is defined under in an empty table; the number that is
//! asked with; the row; the number of path entries. The path follows, four bytes to an
//! entry.
//!
//! An answer is six numbers of eight bytes each: refusal, place and count; then 1, the
//! first and the last black column in two's complement, or three zeros for none.

use crate::extent::{self, Record};
use crate::fast::Pen;
use crate::requests;
use crate::row::{self, done, refused, Answer};
use crate::segment::Segment;
use crate::setting::Setting;
use crate::sweep::{centre, Sweep};
use crate::table::Table;
use crate::tally::Tally;
use crate::uncut_kinds::{self, Called};
use std::fmt;

#[derive(Clone, Debug, PartialEq, Eq)]
pub struct Request {
    pub setting: Setting,
    pub defined: u64,
    pub number: u64,
    pub row: u64,
    pub path: Vec<i32>,
}

const HEAD: usize = 7 * 8;

impl Request {
    pub fn to_bytes(&self) -> Vec<u8> {
        let Setting { w, p, q } = self.setting;
        let entries = self.path.len() as u64;
        let head = [w, p, q, self.defined, self.number, self.row, entries];
        let mut bytes = requests::number_bytes(&head);
        bytes.extend(row::path_bytes(&self.path));
        bytes
    }

    /// The first request of a stream, and what follows it.
    fn from_bytes(bytes: &[u8]) -> Result<(Request, &[u8]), String> {
        let (head, rest) = requests::cut(bytes, HEAD)?;
        let numbers = requests::numbers(head);
        let (path, rest) = requests::path(rest, numbers[6])?;
        let request = Request {
            setting: Setting::new(numbers[0], numbers[1], numbers[2]),
            defined: numbers[3],
            number: numbers[4],
            row: numbers[5],
            path,
        };
        Ok((request, rest))
    }

    /// Its segment, where the path has one or two points.
    pub fn segment(&self) -> Segment {
        Segment::new(self.setting, &self.path)
    }

    /// The setting that its number has, if it has one.
    pub fn held(&self) -> Option<Setting> {
        let mut table = Table::default();
        table.define(self.defined, self.setting);
        table.setting(self.number)
    }
}

impl fmt::Display for Request {
    fn fmt(&self, f: &mut fmt::Formatter) -> fmt::Result {
        let Setting { w, p, q } = self.setting;
        write!(
            f,
            "w {w}, p {p}, q {q} as {}, asked with {}: row {}, {} entries {:?}",
            self.defined,
            self.number,
            self.row,
            self.path.len(),
            &self.path[..self.path.len().min(8)]
        )
    }
}

/// What is answered, and the first and last black column, or none.
#[derive(Clone, Copy, Debug, PartialEq, Eq)]
pub struct Reached {
    pub answer: Answer,
    pub extent: Option<(i64, i64)>,
}

const ANSWER: usize = 6 * 8;

impl Reached {
    fn to_bytes(self) -> Vec<u8> {
        let Answer {
            refusal,
            place,
            count,
        } = self.answer;
        let [some, first, last] = match self.extent {
            None => [0; 3],
            Some((first, last)) => [1, first as u64, last as u64],
        };
        let head = [u64::from(refusal), place, count as u64];
        requests::number_bytes(&[head, [some, first, last]].concat())
    }
}

/// "It is asked as W2's start is, without a raster (so a row above 16,383 is 5)": 6, 2,
/// 5, 3, in the order of a row call, and no 4. Its one segment, and the row.
fn checked(request: &Request) -> Result<Record, Answer> {
    let Some(setting) = request.held() else {
        return Err(refused(6, 0));
    };
    if request.path.len() != 2 && request.path.len() != 4 {
        return Err(refused(2, 0));
    }
    // A raster that is never refused.
    let bytes = row::path_bytes(&request.path);
    let path = row::check_path_and_raster(&bytes, 1, 1, request.row <= 16_383)?;
    Ok(Record {
        setting,
        a: (path[0], path[1]),
        b: (path[path.len() - 2], path[path.len() - 1]),
        row: request.row as i64,
    })
}

/// A segment that reaches over more columns is not asked about each of them.
const WIDE: i64 = 2_000;

fn is_wide(record: &Record) -> bool {
    let columns = extent::within_reach(record);
    columns.end() - columns.start() > WIDE
}

/// The fast way, for a segment so long that the literal one would take too long. At
/// both ends the literal way is asked: the columns that are given and those beside them.
fn fast_extent(record: &Record, sweep: &Sweep) -> Result<Option<(i64, i64)>, String> {
    let pen = Pen::new(record.setting).ok_or("a setting without a pen")?;
    let point = |p: (i32, i32)| (i64::from(p.0), i64::from(p.1));
    let extent = pen.extent(point(record.a), point(record.b), record.row);
    if let Some((first, last)) = extent {
        let black = |i: i64| sweep.black(centre(i as i128, record.row as i128));
        if black(first - 1) || !black(first) || !black(last) || black(last + 1) {
            return Err(format!("{record:?}: {first}..{last} is not the extent"));
        }
    }
    Ok(extent)
}

/// "The extent of one segment in one row, its first and last black column, is to be
/// given uncut, as signed columns, or as none."
fn extent_of(record: &Record, sweep: &Sweep) -> Result<Option<(i64, i64)>, String> {
    match is_wide(record) {
        true => fast_extent(record, sweep),
        false => extent::extent_among(record, sweep, extent::within_reach(record)),
    }
}

/// Answers a request; shows its sweep too, where it is not refused.
fn reach(request: &Request) -> Result<(Reached, Option<Sweep>), String> {
    let record = match checked(request) {
        Ok(record) => record,
        Err(answer) => {
            let extent = None;
            return Ok((Reached { answer, extent }, None));
        }
    };
    let sweep = extent::sweep(&record)?;
    let extent = extent_of(&record, &sweep)?;
    let answer = done(0);
    Ok((Reached { answer, extent }, Some(sweep)))
}

/// The answers to a whole stream of requests.
pub fn answers(requests: &[u8]) -> Result<Vec<u8>, String> {
    let mut bytes = Vec::new();
    let mut requests = requests;
    while !requests.is_empty() {
        let (request, later) = Request::from_bytes(requests)?;
        bytes.extend(reach(&request)?.0.to_bytes());
        requests = later;
    }
    Ok(bytes)
}

fn show(answer: &[u8]) -> String {
    let numbers = requests::numbers(answer);
    let head: Vec<String> = ["refusal", "place", "count"]
        .iter()
        .zip(&numbers)
        .map(|(name, number)| format!("{name} {number}"))
        .collect();
    let columns = match numbers.get(3..).unwrap_or(&[]) {
        [0, 0, 0] => "none".to_string(),
        [1, first, last] => format!("{}..{}", *first as i64, *last as i64),
        others => format!("the numbers {others:?}"),
    };
    format!("{}; {columns}", head.join(", "))
}

/// Compares foreign answers with this program's own: what the stream had in it, or
/// what the first difference is.
pub fn compared(requests: &[u8], foreign: &[u8]) -> Result<Tally, String> {
    let mut tally = uncut_kinds::none_yet();
    let (mut requests, mut foreign) = (requests, foreign);
    let mut i = 0;
    while !requests.is_empty() {
        let (request, later) = Request::from_bytes(requests)?;
        let (reached, sweep) = reach(&request)?;
        let own = reached.to_bytes();
        let (one, after) = foreign.split_at(foreign.len().min(ANSWER));
        if one != own {
            let what = match one.len() < own.len() {
                true => "the answers end too early",
                false => "the answers differ",
            };
            return Err(format!(
                "request {i}: {request}\n{what}\n own answer     {}\n foreign answer {}",
                show(&own),
                show(one)
            ));
        }
        let called = Called {
            request: &request,
            reached,
            sweep: sweep.as_ref(),
        };
        uncut_kinds::count(&mut tally, &called);
        (requests, foreign) = (later, after);
        i += 1;
    }
    requests::none_left(foreign)?;
    Ok(tally)
}

pub fn compare(requests: &[u8], foreign: &[u8]) -> Result<String, String> {
    requests::compare(requests, foreign, compared)
}

#[cfg(test)]
mod tests {
    use super::*;
    use crate::uncut_stream::Source;

    const REQUESTS: usize = 20_000;

    /// Ways to be wrong.
    #[derive(Clone, Copy, Debug, PartialEq, Eq)]
    enum Fault {
        None,
        CutAtZero,
        CutAtTheLastColumn,
        FirstOneLess,
        FirstOneMore,
        LastOneLess,
        LastOneMore,
        FirstAndLastExchanged,
        SizesForColumns,
        ColumnsOfTwoBytes,
        ColumnsOfOneByte,
        SixteenthsForColumns,
        NoneAsColumns,
        ColumnsAsNone,
        OneColumnAsNone,
        NoneWithoutZeros,
        KeepsTheLeftFlank,
        DropsTheRightFlank,
        FlatBottomKept,
        FlatTopDropped,
        CountsTheColumns,
        CountsARun,
        ColumnsOnRefusal,
        LosesThePlace,
        PlaceOfTheLast,
        PlaceOfThePoint,
        ManyPoints,
        OnePointIsNone,
        EntriesOfOneByte,
        RowOfTwoBytes,
        RowOfFourBytes,
        OneRowMore,
        OneRowLess,
        NoLastRow,
        RowAbove,
        RangeOneMore,
        RangeOneLess,
        CoordinatesBeforeRow,
        RowBeforePath,
        CoordinatesBeforePath,
        PathBeforeAperture,
        RowBeforeAperture,
        ApertureLast,
        PenOfAnotherNumber,
        FirstEndAlone,
        LastEndAlone,
    }

    const FAULTS: [Fault; 45] = [
        Fault::CutAtZero,
        Fault::CutAtTheLastColumn,
        Fault::FirstOneLess,
        Fault::FirstOneMore,
        Fault::LastOneLess,
        Fault::LastOneMore,
        Fault::FirstAndLastExchanged,
        Fault::SizesForColumns,
        Fault::ColumnsOfTwoBytes,
        Fault::ColumnsOfOneByte,
        Fault::SixteenthsForColumns,
        Fault::NoneAsColumns,
        Fault::ColumnsAsNone,
        Fault::OneColumnAsNone,
        Fault::NoneWithoutZeros,
        Fault::KeepsTheLeftFlank,
        Fault::DropsTheRightFlank,
        Fault::FlatBottomKept,
        Fault::FlatTopDropped,
        Fault::CountsTheColumns,
        Fault::CountsARun,
        Fault::ColumnsOnRefusal,
        Fault::LosesThePlace,
        Fault::PlaceOfTheLast,
        Fault::PlaceOfThePoint,
        Fault::ManyPoints,
        Fault::OnePointIsNone,
        Fault::EntriesOfOneByte,
        Fault::RowOfTwoBytes,
        Fault::RowOfFourBytes,
        Fault::OneRowMore,
        Fault::OneRowLess,
        Fault::NoLastRow,
        Fault::RowAbove,
        Fault::RangeOneMore,
        Fault::RangeOneLess,
        Fault::CoordinatesBeforeRow,
        Fault::RowBeforePath,
        Fault::CoordinatesBeforePath,
        Fault::PathBeforeAperture,
        Fault::RowBeforeAperture,
        Fault::ApertureLast,
        Fault::PenOfAnotherNumber,
        Fault::FirstEndAlone,
        Fault::LastEndAlone,
    ];

    fn is_segment(entries: usize) -> bool {
        entries == 2 || entries == 4
    }

    fn is_bad(coordinate: &i32) -> bool {
        !(-262_144..=262_144).contains(coordinate)
    }

    /// The request that a faulty program takes this one for.
    fn taken_for(request: &Request, fault: Fault) -> Request {
        let mut taken = request.clone();
        let good_aperture = |taken: &mut Request| {
            (taken.setting, taken.defined, taken.number) = (Setting::new(16, 1, 1), 10, 10);
        };
        let (entries, row) = (request.path.len(), request.row);
        match fault {
            Fault::ManyPoints if entries > 4 => taken.path.truncate(4),
            Fault::OnePointIsNone if entries == 2 => taken.path.clear(),
            Fault::EntriesOfOneByte if is_segment(entries % 256) => {
                taken.path.truncate(entries % 256);
            }
            Fault::RowOfTwoBytes => taken.row = row % (1 << 16),
            Fault::RowOfFourBytes => taken.row = row % (1 << 32),
            Fault::OneRowMore if row == 16_384 => taken.row = 16_383,
            Fault::OneRowLess if row == 16_383 => taken.row = 16_384,
            Fault::NoLastRow if row > 16_383 => taken.row = 16_383,
            Fault::RowAbove if row < 16_383 => taken.row += 1,
            Fault::RangeOneMore => {
                for c in taken.path.iter_mut().filter(|c| c.abs_diff(0) == 262_145) {
                    *c -= c.signum();
                }
            }
            Fault::RangeOneLess => {
                for c in taken.path.iter_mut().filter(|c| c.abs_diff(0) == 262_144) {
                    *c += c.signum();
                }
            }
            Fault::CoordinatesBeforeRow if request.path.iter().any(is_bad) => taken.row = 0,
            Fault::RowBeforePath if row > 16_383 => taken.path = vec![0, 0],
            Fault::CoordinatesBeforePath
                if !is_segment(entries) && request.path.iter().take(4).any(is_bad) =>
            {
                taken.path.resize(4, 0);
                taken.row = 0;
            }
            Fault::PathBeforeAperture if !is_segment(entries) => good_aperture(&mut taken),
            Fault::RowBeforeAperture if row > 16_383 && is_segment(entries) => {
                good_aperture(&mut taken);
            }
            Fault::ApertureLast if !is_good_but_for_its_aperture(request) => {
                good_aperture(&mut taken)
            }
            Fault::PenOfAnotherNumber if (10..=41).contains(&request.number) => {
                taken.defined = request.number;
            }
            Fault::FirstEndAlone if entries == 4 => taken.path.truncate(2),
            Fault::LastEndAlone if entries == 4 => {
                taken.path.drain(..2);
            }
            _ => {}
        }
        taken
    }

    fn is_good_but_for_its_aperture(request: &Request) -> bool {
        let path = &request.path;
        is_segment(path.len()) && request.row <= 16_383 && !path.iter().any(is_bad)
    }

    /// Which sides a faulty program keeps, where that is its fault.
    fn rule(fault: Fault) -> Option<fn((i128, i128)) -> bool> {
        match fault {
            Fault::KeepsTheLeftFlank => Some(|n| n.0 != 0 || n.1 > 0),
            Fault::DropsTheRightFlank => Some(|n| n.0 == 0 && n.1 > 0),
            Fault::FlatBottomKept => Some(|n| n.0 >= 0),
            Fault::FlatTopDropped => Some(|n| n.0 > 0),
            _ => None,
        }
    }

    /// The extent under a rule of its own; the right one where the segment is wide.
    fn extent_under(request: &Request, kept: fn((i128, i128)) -> bool) -> Option<(i64, i64)> {
        let record = checked(request).unwrap();
        if is_wide(&record) {
            return reach(request).unwrap().0.extent;
        }
        let sweep = extent::sweep(&record).unwrap();
        let black = |i: &i64| sweep.black_if_kept(centre(*i as i128, request.row as i128), kept);
        let columns: Vec<i64> = extent::within_reach(&record).filter(black).collect();
        Some((*columns.first()?, *columns.last()?))
    }

    fn cut(extent: Option<(i64, i64)>, from: i64, to: i64) -> Option<(i64, i64)> {
        let (first, last) = extent?;
        (first <= to && last >= from).then(|| (first.max(from), last.min(to)))
    }

    /// What a faulty program answers to a request.
    fn faulty(request: &Request, fault: Fault) -> Vec<u8> {
        let mut reached = reach(&taken_for(request, fault)).unwrap().0;
        let done = reached.answer.refusal == 0;
        if let (Some(kept), true) = (rule(fault), done) {
            reached.extent = extent_under(request, kept);
        }
        let mapped = |f: fn(i64, i64) -> (i64, i64)| reached.extent.map(|(l, r)| f(l, r));
        let extent = match fault {
            Fault::CutAtZero => cut(reached.extent, 0, i64::MAX),
            Fault::CutAtTheLastColumn => cut(reached.extent, i64::MIN, 16_383),
            Fault::FirstOneLess => mapped(|l, r| (l - 1, r)),
            Fault::FirstOneMore => mapped(|l, r| (l + 1, r)),
            Fault::LastOneLess => mapped(|l, r| (l, r - 1)),
            Fault::LastOneMore => mapped(|l, r| (l, r + 1)),
            Fault::FirstAndLastExchanged => mapped(|l, r| (r, l)),
            Fault::SizesForColumns => mapped(|l, r| (l.abs(), r.abs())),
            Fault::ColumnsOfTwoBytes => mapped(|l, r| (l & 65_535, r & 65_535)),
            Fault::ColumnsOfOneByte => mapped(|l, r| (i64::from(l as i8), i64::from(r as i8))),
            Fault::SixteenthsForColumns => mapped(|l, r| (16 * l, 16 * r)),
            Fault::NoneAsColumns if done => reached.extent.or(Some((0, 0))),
            Fault::ColumnsAsNone => None,
            Fault::OneColumnAsNone => reached.extent.filter(|(l, r)| l < r),
            Fault::ColumnsOnRefusal if !done => Some((0, 0)),
            _ => reached.extent,
        };
        reached.extent = extent;
        let bad: Vec<usize> = (0..request.path.len())
            .filter(|&i| is_bad(&request.path[i]))
            .collect();
        let answer = &mut reached.answer;
        match (fault, extent) {
            (Fault::CountsTheColumns, Some((l, r))) => answer.count = (r - l + 1) as usize,
            (Fault::CountsARun, Some(_)) => answer.count = 1,
            (Fault::LosesThePlace, _) => answer.place = 0,
            (Fault::PlaceOfTheLast, _) if answer.refusal == 3 => {
                answer.place = *bad.last().unwrap() as u64;
            }
            (Fault::PlaceOfThePoint, _) => answer.place /= 2,
            _ => {}
        }
        let mut bytes = reached.to_bytes();
        if fault == Fault::NoneWithoutZeros && extent.is_none() {
            bytes[40] = 1;
        }
        bytes
    }

    fn some_requests() -> Vec<Request> {
        Source::new(1).take(REQUESTS).collect()
    }

    fn bytes_of(requests: &[Request]) -> Vec<u8> {
        requests.iter().flat_map(Request::to_bytes).collect()
    }

    #[test]
    fn what_is_right_passes() {
        let requests = some_requests();
        let bytes = bytes_of(&requests);
        let right: Vec<u8> = requests
            .iter()
            .flat_map(|r| faulty(r, Fault::None))
            .collect();
        assert!(right == answers(&bytes).unwrap());
        let line = compare(&bytes, &right).unwrap();
        assert!(line.ends_with("all equal"), "{line}");
    }

    #[test]
    fn what_is_wrong_is_caught() {
        let requests: Vec<Request> = some_requests().into_iter().take(6_000).collect();
        let bytes = bytes_of(&requests);
        for fault in FAULTS {
            let wrong: Vec<u8> = requests.iter().flat_map(|r| faulty(r, fault)).collect();
            match compare(&bytes, &wrong) {
                Ok(line) => panic!("{fault:?} is not seen: {line}"),
                Err(complaint) => assert!(complaint.contains("differ"), "{fault:?}: {complaint}"),
            }
        }
    }

    /// The columns that are asked are enough: each one that a black centre can lie in,
    /// and more, of narrow and wide segments.
    #[test]
    fn the_whole_band_asked_literally() {
        let (mut wide, mut narrow) = (0, 0);
        for request in Source::new(7).take(6_000) {
            let Ok(record) = checked(&request) else {
                continue;
            };
            let many = match is_wide(&record) {
                true => &mut wide,
                false => &mut narrow,
            };
            if *many == 200 {
                continue;
            }
            *many += 1;
            let sweep = extent::sweep(&record).unwrap();
            let literal = extent::extent_among(&record, &sweep, -16_450..=16_450);
            assert_eq!(extent_of(&record, &sweep), literal, "{request}");
        }
        assert_eq!((wide, narrow), (200, 200));
    }

    #[test]
    fn too_few_and_too_many_bytes() {
        let requests: Vec<Request> = Source::new(3).take(20).collect();
        let bytes = bytes_of(&requests);
        let mut answers = answers(&bytes).unwrap();
        assert_eq!(answers.len(), 20 * ANSWER);
        answers.push(0);
        let more = compare(&bytes, &answers).unwrap_err();
        assert!(more.contains("1 bytes too many"), "{more}");
        answers.truncate(answers.len() - 2);
        let fewer = compare(&bytes, &answers).unwrap_err();
        assert!(fewer.contains("end too early"), "{fewer}");
        assert!(compare(&bytes[..bytes.len() - 1], &answers).is_err());
        assert!(compare(&[], &[]).is_err());
    }

    #[test]
    fn requests_come_back_from_bytes() {
        let requests: Vec<Request> = Source::new(4).take(500).collect();
        let bytes = bytes_of(&requests);
        let mut rest = &bytes[..];
        for request in &requests {
            let (one, later) = Request::from_bytes(rest).unwrap();
            assert_eq!(one, *request);
            rest = later;
        }
        assert!(rest.is_empty());
        assert!(Request::from_bytes(&[255; HEAD]).is_err());
    }

    fn request(w: u64, path: &[i32], row: u64) -> Request {
        Request {
            setting: Setting::new(w, 1, 1),
            defined: 10,
            number: 10,
            row,
            path: path.to_vec(),
        }
    }

    fn extent_in(w: u64, path: &[i32], row: u64) -> Option<(i64, i64)> {
        let reached = reach(&request(w, path, row)).unwrap().0;
        assert_eq!(reached.answer, done(0));
        reached.extent
    }

    /// Document 01's dots and level strokes and W7's, where they stand and left of 0;
    /// and the columns furthest out.
    #[test]
    fn the_cases() {
        assert_eq!(extent_in(16, &[32, 32], 2), Some((2, 2)));
        assert_eq!(extent_in(16, &[40, 32, 40, 32], 2), Some((3, 3)));
        assert_eq!(extent_in(16, &[-40, 32], 2), Some((-2, -2)));
        assert_eq!(extent_in(16, &[32, 40], 2), None);
        for (row, level, raised) in [
            (1, Some((3, 11)), None),
            (2, Some((2, 11)), Some((2, 11))),
            (3, Some((3, 11)), Some((2, 11))),
            (4, None, Some((3, 10))),
            (5, None, None),
        ] {
            for left in [0, 7, 16_000] {
                let moved = |x: i64| x - left;
                let extent = |y: i32| {
                    let x = |x: i32| x - 16 * left as i32;
                    extent_in(48, &[x(48), y, x(160), y], row)
                };
                let by = |e: Option<(i64, i64)>| e.map(|(l, r)| (moved(l), moved(r)));
                assert_eq!(extent(32), by(level));
                assert_eq!(extent(40), by(raised));
            }
        }
        let most = 262_144;
        let across = [-most, 1_600, most, 1_600];
        assert_eq!(extent_in(512, &across, 100), Some((-16_399, 16_400)));
        assert_eq!(extent_in(512, &across, 117), None);
        assert_eq!(extent_in(16, &[0, most], 16_383), None);
        assert_eq!(extent_in(48, &[0, most], 16_383), Some((0, 1)));
    }

    /// "6, 2, 5, 3", each alone and with all that come after it.
    #[test]
    fn the_order_of_refusals() {
        let bad = |faults: &[u8]| {
            let has = |n| faults.contains(&n);
            let mut request = request(16, &[8, 8, 24, 24], 1);
            if has(3) {
                request.path[1] = 300_000;
                request.path[2] = -300_000;
            }
            if has(2) {
                request.path.extend([8, 8]);
            }
            if has(6) {
                request.number = 11;
            }
            if has(5) {
                request.row = 16_384;
            }
            let reached = reach(&request).unwrap().0;
            assert!(reached.extent.is_none() || faults.is_empty());
            reached.answer
        };
        let order = [6, 2, 5, 3];
        for (i, &first) in order.iter().enumerate() {
            let place = u64::from(first == 3);
            assert_eq!(bad(&order[i..]), refused(first, place));
            assert_eq!(bad(&[first]), refused(first, place));
        }
        assert_eq!(bad(&[]), done(0));
    }

    /// Every kind comes often, and a long stream without one is told.
    #[test]
    fn kinds() {
        let bytes = bytes_of(&Source::new(2).take(REQUESTS).collect::<Vec<_>>());
        let counts = compared(&bytes, &answers(&bytes).unwrap()).unwrap();
        let (kind, count) = counts.rarest();
        assert!(count >= 20, "{kind}: {counts}");
        assert!(counts.pens() > 8_000, "{counts}");
        assert_eq!(counts.missing(), None);
        let dots: Vec<Request> = Source::new(5)
            .filter(|request| request.path.len() == 2)
            .take(REQUESTS)
            .collect();
        let bytes = bytes_of(&dots);
        let complaint = compare(&bytes, &answers(&bytes).unwrap()).unwrap_err();
        assert!(complaint.contains("none of the kind"), "{complaint}");
    }

    #[test]
    fn a_seed_gives_one_stream() {
        let stream = |seed| Source::new(seed).take(300).collect::<Vec<_>>();
        assert!(stream(9) == stream(9));
        assert!(stream(9) != stream(10));
    }
}
