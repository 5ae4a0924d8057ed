//! The comparison of a program that reads Gerber files with the reading of `gerber.rs`:
//! one process to a file.

use crate::gerber::{self, Answer, REASONS};
use crate::gerber_cases::{cases, counts, Case};
use std::io::{ErrorKind, Write};
use std::path::Path;
use std::process::{Command, Stdio};
use std::sync::atomic::{AtomicUsize, Ordering};
use std::sync::Mutex;

const THREADS: usize = 2;

/// What the program writes; it has nothing else to say.
fn run(program: &str, case: &Case) -> Result<Vec<u8>, String> {
    let mut child = Command::new(program)
        .args(case.words())
        .stdin(Stdio::piped())
        .stdout(Stdio::piped())
        .stderr(Stdio::piped())
        .spawn()
        .map_err(|e| format!("{program}: {e}"))?;
    let mut input = child.stdin.take().expect("it is piped");
    let (written, output) = std::thread::scope(|scope| {
        let writer = scope.spawn(move || match input.write_all(&case.file) {
            // A program that has its answer need not read on.
            Err(e) if e.kind() != ErrorKind::BrokenPipe => Err(e),
            _ => Ok(()),
        });
        let output = child.wait_with_output();
        (writer.join().expect("a writer does not panic"), output)
    });
    written.map_err(|e| format!("writing to it: {e}"))?;
    let output = output.map_err(|e| format!("reading from it: {e}"))?;
    if !output.stderr.is_empty() {
        return Err(format!("it says: {}", shown(&output.stderr)));
    }
    if !output.status.success() {
        return Err(format!("it ends with {}", output.status));
    }
    Ok(output.stdout)
}

/// Bytes as text, the middle of many left out.
fn shown(bytes: &[u8]) -> String {
    const START: usize = 1_500;
    const END: usize = 500;
    let escaped = |bytes: &[u8]| bytes.escape_ascii().to_string();
    if bytes.len() <= START + END {
        return escaped(bytes);
    }
    format!(
        "{} ... {} bytes ... {}",
        escaped(&bytes[..START]),
        bytes.len() - START - END,
        escaped(&bytes[bytes.len() - END..])
    )
}

/// The case, and both answers.
fn difference(
    number: usize,
    case: &Case,
    right: &Answer,
    given: &Result<Vec<u8>, String>,
) -> String {
    let words = case.words();
    let given = match given {
        Ok(bytes) => shown(bytes),
        Err(trouble) => format!("none, {trouble}"),
    };
    let reason = right.refusal.as_ref().map_or("sound", |r| r.reason);
    format!(
        "case {number} ({}), {} bytes\n  N {}, room {}, apertures {}\n  chunks {}\n  \
        file   {}\n  answer {given}\n  right  {} ({reason})",
        case.kind,
        case.file.len(),
        words[0],
        words[1],
        words[2],
        shown(words[3].as_bytes()),
        shown(&case.file),
        shown(right.to_string().as_bytes()),
    )
}

/// Runs the program on the first cases of a seed, or on those of one kind among them.
/// All of them before the first difference are compared.
pub fn compare(
    program: &str,
    count: usize,
    seed: u64,
    kind: Option<&str>,
) -> Result<String, String> {
    let cases: Vec<(usize, Case)> = (1..)
        .zip(cases(count, seed))
        .filter(|(_, case)| kind.is_none_or(|kind| case.kind == kind))
        .collect();
    if let (Some(kind), []) = (kind, cases.as_slice()) {
        return Err(format!("no file of this kind: {kind}"));
    }
    let next = AtomicUsize::new(0);
    let found: Mutex<Option<(usize, String)>> = Mutex::new(None);
    let answers: Mutex<Vec<(usize, Option<&'static str>)>> = Mutex::new(Vec::new());
    std::thread::scope(|scope| {
        for _ in 0..THREADS {
            scope.spawn(|| loop {
                let at = next.fetch_add(1, Ordering::SeqCst);
                if at >= cases.len() || found.lock().expect("none panics").is_some() {
                    break;
                }
                let (number, case) = &cases[at];
                let right = gerber::answer(case.request());
                let given = run(program, case);
                if given.as_deref() == Ok(right.to_string().as_bytes()) {
                    let reason = right.refusal.map(|refusal| refusal.reason);
                    let mut answers = answers.lock().expect("none panics");
                    answers.push((right.strokes.len(), reason));
                    continue;
                }
                let told = difference(*number, case, &right, &given);
                let mut found = found.lock().expect("none panics");
                if found.as_ref().is_none_or(|(first, _)| at < *first) {
                    *found = Some((at, told));
                }
            });
        }
    });
    if let Some((_, told)) = found.into_inner().expect("none panics") {
        return Err(told);
    }
    let cases: Vec<Case> = cases.into_iter().map(|(_, case)| case).collect();
    summary(&cases, &answers.into_inner().expect("none panics"))
}

/// One line; where the cases are many, each reason must occur.
fn summary(cases: &[Case], answers: &[(usize, Option<&'static str>)]) -> Result<String, String> {
    let with = |wanted: Option<&str>| answers.iter().filter(|(_, r)| *r == wanted).count();
    let mut numbers: Vec<u8> = REASONS.iter().map(|(number, _)| *number).collect();
    numbers.sort();
    numbers.dedup();
    let refused: Vec<String> = numbers
        .iter()
        .map(|number| {
            let reasons = REASONS.iter().filter(|(known, _)| known == number);
            let count: usize = reasons.map(|(_, reason)| with(Some(*reason))).sum();
            format!(", {count} refused {number}")
        })
        .collect();
    let strokes: usize = answers.iter().map(|(strokes, _)| strokes).sum();
    let line = format!(
        "{} files of {} kinds, {strokes} strokes, {} done{}",
        cases.len(),
        counts(cases).len(),
        with(None),
        refused.concat()
    );
    let missing = REASONS.iter().find(|(_, reason)| with(Some(*reason)) == 0);
    match missing {
        Some((_, reason)) if cases.len() >= 20_000 => Err(format!("{line}\nnever: {reason}")),
        _ => Ok(format!("{line}; all equal")),
    }
}

/// Writes a case into a folder: the file, the words, its kind and the right answer.
pub fn write(number: usize, seed: u64, folder: &str) -> Result<(), String> {
    let cases = cases(number, seed);
    let case = cases.last().ok_or("cases count from 1")?;
    let put = |name: &str, bytes: &[u8]| {
        let path = Path::new(folder).join(name);
        std::fs::write(&path, bytes).map_err(|e| format!("{}: {e}", path.display()))
    };
    put("file", &case.file)?;
    put("words", format!("{}\n", case.words().join(" ")).as_bytes())?;
    put("kind", format!("{}\n", case.kind).as_bytes())?;
    put(
        "answer",
        gerber::answer(case.request()).to_string().as_bytes(),
    )
}

#[cfg(test)]
mod tests {
    use super::*;

    #[test]
    fn bytes_are_shown() {
        assert_eq!(shown(b"G01*\r\n\0\xff"), r"G01*\r\n\x00\xff");
        let long = shown(&[b'a'; 2_007]);
        assert!(long.contains("a ... 7 bytes ... a"));
    }

    /// Programs that are none of this kind.
    #[test]
    fn other_programs_differ() {
        let told = compare("true", 10, 1, None).unwrap_err();
        assert!(told.starts_with("case 1 ("), "{told}");
        assert!(compare("false", 10, 1, None)
            .unwrap_err()
            .contains("it ends with"));
        assert!(compare("/none", 10, 1, None)
            .unwrap_err()
            .contains("/none: "));
        assert_eq!(
            compare("true", 10, 1, Some("none")).unwrap_err(),
            "no file of this kind: none"
        );
        assert_eq!(
            compare("true", 0, 1, None).unwrap(),
            "0 files of 0 kinds, 0 strokes, 0 done, 0 refused 1, 0 refused 2, 0 refused 3, \
            0 refused 6, 0 refused 7, 0 refused 14; all equal"
        );
    }
}
