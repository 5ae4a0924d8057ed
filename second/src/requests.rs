//! Requests as streams of bytes: numbers of eight bytes each and coordinates of four,
//! lowest byte first.

use crate::tally::Tally;

/// So many bytes, and what follows them.
pub fn cut(bytes: &[u8], length: usize) -> Result<(&[u8], &[u8]), String> {
    match length <= bytes.len() {
        true => Ok(bytes.split_at(length)),
        false => Err("the requests break off".to_string()),
    }
}

pub fn number_bytes(numbers: &[u64]) -> Vec<u8> {
    numbers.iter().flat_map(|n| n.to_le_bytes()).collect()
}

/// The numbers of so many bytes; what is left over is none.
pub fn numbers(bytes: &[u8]) -> Vec<u64> {
    let eights = bytes.chunks_exact(8);
    eights
        .map(|eight| u64::from_le_bytes(eight.try_into().expect("eight bytes")))
        .collect()
}

/// A path of so many entries, and what follows it.
pub fn path(bytes: &[u8], entries: u64) -> Result<(Vec<i32>, &[u8]), String> {
    let (path, rest) = cut(bytes, (entries as usize).saturating_mul(4))?;
    let fours = path.chunks_exact(4);
    let path = fours.map(|four| i32::from_le_bytes(four.try_into().expect("four bytes")));
    Ok((path.collect(), rest))
}

/// That no answer follows the last one.
pub fn none_left(answers: &[u8]) -> Result<(), String> {
    match answers.len() {
        0 => Ok(()),
        more => Err(format!("{more} bytes too many after the last answer")),
    }
}

/// The line for a full agreement, or what the first difference is, or which kind
/// never occurs though the stream is long. Requests and answers are compared by
/// `compared`.
pub fn compare(
    requests: &[u8],
    foreign: &[u8],
    compared: fn(&[u8], &[u8]) -> Result<Tally, String>,
) -> Result<String, String> {
    if requests.is_empty() {
        return Err("no requests to compare".to_string());
    }
    compared(requests, foreign)?.verdict()
}
