//! The first and last black column of a row for one segment, the row not cut
//! to any raster: streams of records, their answers, and the comparison.
//!
//! A record is 48 bytes, lowest byte first: w, p, q of eight bytes each, then
//! x0, y0, x1, y1 of four bytes each (signed), then the row of eight bytes
//! (signed). An answer is one byte 0 where no column is black, or one byte 1
//! and the first and the last black column of eight bytes each (signed).

use crate::pen;
use crate::setting::Setting;
use crate::sweep::{centre, Sweep};
use std::ops::RangeInclusive;

#[derive(Clone, Copy, Debug, PartialEq, Eq)]
pub struct Record {
    pub setting: Setting,
    pub a: (i32, i32),
    pub b: (i32, i32),
    pub row: i64,
}

const RECORD_BYTES: usize = 48;

pub fn to_bytes(records: &[Record]) -> Vec<u8> {
    let mut bytes = Vec::new();
    for r in records {
        for number in [r.setting.w, r.setting.p, r.setting.q] {
            bytes.extend_from_slice(&number.to_le_bytes());
        }
        for number in [r.a.0, r.a.1, r.b.0, r.b.1] {
            bytes.extend_from_slice(&number.to_le_bytes());
        }
        bytes.extend_from_slice(&r.row.to_le_bytes());
    }
    bytes
}

fn take<const N: usize>(bytes: &[u8], at: usize) -> [u8; N] {
    let mut array = [0; N];
    array.copy_from_slice(&bytes[at..at + N]);
    array
}

pub fn from_bytes(bytes: &[u8]) -> Result<Vec<Record>, String> {
    if bytes.len() % RECORD_BYTES != 0 {
        return Err(format!(
            "{} bytes are no whole number of records",
            bytes.len()
        ));
    }
    let records = bytes.chunks_exact(RECORD_BYTES).map(|r| {
        let number = |at| u64::from_le_bytes(take(r, at));
        let coordinate = |at| i32::from_le_bytes(take(r, at));
        Record {
            setting: Setting::new(number(0), number(8), number(16)),
            a: (coordinate(24), coordinate(28)),
            b: (coordinate(32), coordinate(36)),
            row: i64::from_le_bytes(take(r, 40)),
        }
    });
    Ok(records.collect())
}

/// The sweep of the record's segment.
pub fn sweep(record: &Record) -> Result<Sweep, String> {
    let Some(quarter) = pen::quarter(&record.setting) else {
        return Err(format!("{record:?} has no pen"));
    };
    let point = |p: (i32, i32)| (p.0 as i128, p.1 as i128);
    let pen = pen::whole(&quarter);
    Ok(Sweep::new(&pen, point(record.a), point(record.b)))
}

/// Nothing of the sweep lies further than half the pen's width from both ends; one
/// more column on each side for good measure.
pub fn within_reach(record: &Record) -> RangeInclusive<i64> {
    let reach = 8 * record.setting.dx();
    let (a, b) = (i64::from(record.a.0), i64::from(record.b.0));
    let from = (a.min(b) - reach).div_euclid(16) - 1;
    from..=(a.max(b) + reach).div_euclid(16) + 2
}

/// The first and the last black one of these columns, each of them decided by itself.
/// The black ones must stand together; this is asked, not used.
pub fn extent_among(
    record: &Record,
    sweep: &Sweep,
    columns: RangeInclusive<i64>,
) -> Result<Option<(i64, i64)>, String> {
    let black: Vec<i64> = columns
        .filter(|&i| sweep.black(centre(i as i128, record.row as i128)))
        .collect();
    let (Some(&first), Some(&last)) = (black.first(), black.last()) else {
        return Ok(None);
    };
    if last - first + 1 != black.len() as i64 {
        return Err(format!(
            "{record:?}: the black columns {black:?} do not stand together"
        ));
    }
    Ok(Some((first, last)))
}

/// The same of every column within reach of the segment.
pub fn extent(record: &Record) -> Result<Option<(i64, i64)>, String> {
    let sweep = sweep(record)?;
    extent_among(record, &sweep, within_reach(record))
}

fn answer(extent: Option<(i64, i64)>) -> Vec<u8> {
    let mut bytes = vec![u8::from(extent.is_some())];
    if let Some((first, last)) = extent {
        bytes.extend_from_slice(&first.to_le_bytes());
        bytes.extend_from_slice(&last.to_le_bytes());
    }
    bytes
}

/// The answers to a whole stream of records.
pub fn answers(records: &[u8]) -> Result<Vec<u8>, String> {
    let mut bytes = Vec::new();
    for record in from_bytes(records)? {
        bytes.extend(answer(extent(&record)?));
    }
    Ok(bytes)
}

/// Compares foreign answers with this program's own. The line for a full
/// agreement, or what the first difference is.
pub fn compare(records: &[u8], foreign: &[u8]) -> Result<String, String> {
    let records = from_bytes(records)?;
    if records.is_empty() {
        return Err("no records to compare".to_string());
    }
    let mut rest = foreign;
    let (mut with_black, mut longest) = (0, 0);
    for (i, record) in records.iter().enumerate() {
        let own_extent = extent(record)?;
        let own = answer(own_extent);
        let complaint = |foreign: &[u8], what: &str| {
            format!(
                "record {i} (w={} p={} q={}, {:?} to {:?}, row {}): {what}\n own answer     {}\n foreign answer {}",
                record.setting.w,
                record.setting.p,
                record.setting.q,
                record.a,
                record.b,
                record.row,
                show(&own),
                show(foreign)
            )
        };
        let length = match rest.first() {
            Some(1) => 17,
            _ => 1,
        };
        if rest.len() < length {
            return Err(complaint(rest, "the answers end too early"));
        }
        let (one, after) = rest.split_at(length);
        if one != own {
            return Err(complaint(one, "the answers differ"));
        }
        rest = after;
        if let Some((first, last)) = own_extent {
            with_black += 1;
            longest = longest.max(last - first + 1);
        }
    }
    if !rest.is_empty() {
        return Err(format!(
            "{} bytes too many after the last answer",
            rest.len()
        ));
    }
    Ok(format!(
        "extents: {} records, {with_black} with black pixels, at most {longest} in a row: all equal",
        records.len()
    ))
}

fn show(answer: &[u8]) -> String {
    match answer {
        [] => "nothing".to_string(),
        [1, numbers @ ..] if numbers.len() == 16 => format!(
            "{}..{}",
            i64::from_le_bytes(take(numbers, 0)),
            i64::from_le_bytes(take(numbers, 8))
        ),
        [0] => "no black column".to_string(),
        bytes => format!("the bytes {:?}", &bytes[..bytes.len().min(17)]),
    }
}

#[cfg(test)]
mod tests {
    use super::*;
    use crate::segments::random_segments;

    fn record(w: u64, a: (i32, i32), b: (i32, i32), row: i64) -> Record {
        Record {
            setting: Setting::new(w, 1, 1),
            a,
            b,
            row,
        }
    }

    #[test]
    fn extents_of_the_cases() {
        let extent = |w, a, b, row| super::extent(&record(w, a, b, row)).unwrap();
        assert_eq!(extent(16, (32, 32), (32, 32), 2), Some((2, 2)));
        assert_eq!(extent(16, (40, 32), (40, 32), 2), Some((3, 3)));
        assert_eq!(extent(16, (32, 40), (32, 40), 2), None);
        assert_eq!(extent(48, (48, 40), (160, 40), 1), None);
        assert_eq!(extent(48, (48, 40), (160, 40), 4), Some((3, 10)));
        // The same 100 pixels to the left and below.
        assert_eq!(
            extent(48, (48 - 1600, 40 - 1600), (160 - 1600, 40 - 1600), -96),
            Some((-97, -90))
        );
        assert_eq!(extent(48, (48, 40), (160, 40), i64::MIN), None);
    }

    #[test]
    fn bytes_and_back() {
        let records = random_segments(200, 7);
        assert_eq!(from_bytes(&to_bytes(&records)), Ok(records));
    }

    #[test]
    fn the_comparison_can_fail() {
        let records = [
            record(48, (48, 40), (160, 40), 4),
            record(48, (48, 40), (160, 40), 1),
            record(16, (-40, 32), (-40, 32), 2),
        ];
        let bytes = to_bytes(&records);
        let own = answers(&bytes).unwrap();
        assert_eq!(own.len(), 17 + 1 + 17);
        assert_eq!(
            compare(&bytes, &own).unwrap(),
            "extents: 3 records, 2 with black pixels, at most 8 in a row: all equal"
        );
        for i in 0..own.len() {
            for change in [1, 2, 255] {
                let mut other = own.clone();
                other[i] = other[i].wrapping_add(change);
                assert!(compare(&bytes, &other).is_err());
            }
            assert!(compare(&bytes, &own[..i]).is_err());
        }
        let mut longer = own.clone();
        longer.push(0);
        assert!(compare(&bytes, &longer).is_err());
        assert!(compare(&bytes[..bytes.len() - 1], &own).is_err());
        assert!(compare(&[], &[]).is_err());
    }
}
