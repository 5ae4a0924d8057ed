//! What is lent to a call over the C boundary: between guard bytes, or exact. Makes
//! the call and compares its answer, and each byte, with this program's own. Many
//! such calls, and the programs that make them.

use crate::row::Answer;
use crate::stream::Sequence;
use std::fmt::Display;
use std::process::ExitCode;

/// "bits 0-7 the refusal, bits 8-31 the place, bits 32-63 the number of runs
/// (of bytes filled, for the packed row)"; for a band, of rows.
pub fn in_one_number(answer: Answer) -> u64 {
    answer.refusal as u64 | answer.place << 8 | (answer.count as u64) << 32
}

fn show(answer: u64) -> String {
    format!(
        "refusal {}, place {}, count {}",
        answer & 0xFF,
        answer >> 8 & 0xFF_FFFF,
        answer >> 32
    )
}

/// What stands on both sides of what is lent.
#[derive(Clone, Copy)]
pub enum Guards {
    /// Bytes that must stay as they are.
    Bytes,
    /// Nothing: it is a piece of memory of its own, whose ends a checker of
    /// memory knows, so that reading beyond them is seen too.
    None,
}

/// What is lent to be written, before the call.
#[derive(Clone, Copy, Debug, PartialEq, Eq)]
pub enum Before {
    /// Bits of both kinds.
    Mixed,
    All(u8),
}

/// Bytes of which a part is lent; the others guard it.
struct Guarded {
    bytes: Vec<u8>,
    before: usize,
    length: usize,
}

impl Guarded {
    /// Guards of different lengths, so that what is lent starts at any address.
    fn new(sequence: &mut Sequence, length: usize, guards: Guards) -> Guarded {
        let mut guard = || match guards {
            Guards::Bytes => 16 + sequence.below(16) as usize,
            Guards::None => 0,
        };
        let (before, after) = (guard(), guard());
        let pattern = sequence.next().to_le_bytes();
        let bytes = (0..before + length + after).map(|i| pattern[i % 8] ^ (i / 8) as u8);
        Guarded {
            bytes: bytes.collect(),
            before,
            length,
        }
    }

    fn lent(&mut self) -> &mut [u8] {
        &mut self.bytes[self.before..self.before + self.length]
    }

    fn pointer(&mut self, null: bool) -> *mut u8 {
        if null && self.length == 0 {
            std::ptr::null_mut()
        } else {
            self.lent().as_mut_ptr()
        }
    }
}

/// What one call is lent.
pub struct Lending<'a> {
    pub path: &'a [u8],
    /// Of what is lent to be written, in bytes.
    pub length: usize,
    pub before: Before,
    /// Whether slices of length 0 are lent as null pointers.
    pub null: bool,
}

/// The answer of both, and what was lent to be written, before and after.
pub struct Compared {
    pub answer: Answer,
    pub before: Vec<u8>,
    pub after: Vec<u8>,
}

impl Lending<'_> {
    /// Makes the call and compares all of it. Gives back what differs, if anything
    /// does. The foreign function is given both slices as pointers and lengths: they
    /// are live and apart from each other.
    pub fn compare(
        &self,
        own: impl FnOnce(&mut [u8]) -> Answer,
        foreign: impl FnOnce(*const u8, usize, *mut u8, usize) -> u64,
        sequence: &mut Sequence,
        guards: Guards,
    ) -> Result<Compared, String> {
        let mut path = Guarded::new(sequence, self.path.len(), guards);
        path.lent().copy_from_slice(self.path);
        let mut room = Guarded::new(sequence, self.length, guards);
        if let Before::All(byte) = self.before {
            room.lent().fill(byte);
        }
        let path_before = path.bytes.clone();
        let before = room.lent().to_vec();
        let mut expected = room.bytes.clone();

        let lent = room.before..room.before + room.length;
        let own = own(&mut expected[lent.clone()]);
        let foreign = foreign(
            path.pointer(self.null),
            path.length,
            room.pointer(self.null),
            room.length,
        );

        if foreign != in_one_number(own) {
            return Err(format!(
                "the answers differ\n own answer     {}\n foreign answer {}",
                show(in_one_number(own)),
                show(foreign)
            ));
        }
        if path.bytes != path_before {
            return Err("the path was changed, or what is next to it".to_string());
        }
        if room.bytes != expected {
            return Err(first_difference(&expected, &room.bytes, lent));
        }
        Ok(Compared {
            answer: own,
            before,
            after: room.lent().to_vec(),
        })
    }
}

/// A call to try over the C boundary, and by this program's own ways.
pub trait Tried: Display {
    fn lending(&self) -> Lending<'_>;

    /// The answer in the literal way.
    fn literal(&self, lent: &mut [u8]) -> Answer;

    /// The answer in the fast way.
    fn fast(&self, lent: &mut [u8]) -> Answer;

    /// Whether the literal way is to decide.
    fn literally(&self, sequence: &mut Sequence) -> bool;
}

/// Makes many calls. The first difference with the whole call, if there is one; each
/// call before it is told with whether the literal way decided.
pub fn compare_calls<Call: Tried>(
    count: u64,
    seed: u64,
    guards: Guards,
    some_call: fn(&mut Sequence) -> Call,
    foreign: impl Fn(&Call, *const u8, usize, *mut u8, usize) -> u64,
    mut equal: impl FnMut(&Call, bool, Compared),
) -> Result<(), String> {
    let mut sequence = Sequence::new(seed);
    for i in 0..count {
        let call = some_call(&mut sequence);
        let literally = call.literally(&mut sequence);
        let own = |lent: &mut [u8]| match literally {
            true => call.literal(lent),
            false => call.fast(lent),
        };
        let foreign =
            |path, path_len, room, room_len| foreign(&call, path, path_len, room, room_len);
        let compared = call
            .lending()
            .compare(own, foreign, &mut sequence, guards)
            .map_err(|difference| format!("call {i} of seed {seed}: {call}\n{difference}"))?;
        equal(&call, literally, compared);
    }
    Ok(())
}

/// The program `NAME N SEED [exact]`: N random calls, and the test's line on them.
pub fn program(
    name: &str,
    test: impl FnOnce(u64, u64, Guards) -> Result<String, String>,
) -> ExitCode {
    let usage = || {
        eprintln!("usage: {name} N SEED [exact]");
        ExitCode::from(2)
    };
    let arguments: Vec<String> = std::env::args().skip(1).collect();
    let words: Vec<&str> = arguments.iter().map(String::as_str).collect();
    let (count, seed, guards) = match words[..] {
        [count, seed] => (count.parse(), seed.parse(), Guards::Bytes),
        [count, seed, "exact"] => (count.parse(), seed.parse(), Guards::None),
        _ => return usage(),
    };
    let (Ok(count), Ok(seed)) = (count, seed) else {
        return usage();
    };
    match test(count, seed, guards) {
        Ok(line) => {
            println!("{line}");
            ExitCode::SUCCESS
        }
        Err(difference) => {
            println!("{difference}");
            ExitCode::FAILURE
        }
    }
}

/// Where the bytes differ first, and those around.
fn first_difference(own: &[u8], foreign: &[u8], lent: std::ops::Range<usize>) -> String {
    let at = (0..own.len()).find(|&i| own[i] != foreign[i]);
    let at = at.expect("there is a difference");
    let what = match lent.contains(&at) {
        true => "differs",
        false => "does not belong to it and is changed",
    };
    let around = at.saturating_sub(16)..own.len().min(at + 17);
    let number = |at: usize| at as i64 - lent.start as i64;
    format!(
        "{} bytes were lent; byte {} {what}\n from byte {} on\n own bytes     {:?}\n foreign bytes {:?}",
        lent.len(),
        number(at),
        number(around.start),
        &own[around.clone()],
        &foreign[around]
    )
}
