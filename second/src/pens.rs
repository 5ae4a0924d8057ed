//! The answers to a stream of settings as bytes, and their comparison.
//! An answer is one byte for the refusal (0 or 1), one byte for the number of
//! corners of the whole polygon (0 on refusal), then two signed bytes x, y to
//! a corner, in half pixels.

use crate::pen::{quarter, whole};
use crate::setting::Setting;
use crate::stream;
use std::collections::HashSet;

/// The answer of this program to one setting, and the number of corners in
/// its quarter.
fn answer(setting: &Setting) -> (Vec<u8>, usize) {
    let Some(quarter) = quarter(setting) else {
        return (vec![1, 0], 0);
    };
    let pen = whole(&quarter);
    let mut bytes = vec![0, u8::try_from(pen.len()).expect("at most 132 corners")];
    for &(x, y) in &pen {
        for number in [x, y] {
            let byte = i8::try_from(number).expect("at most 32 half pixels");
            bytes.extend_from_slice(&byte.to_le_bytes());
        }
    }
    (bytes, quarter.len())
}

/// The answers to a whole stream.
pub fn answers(settings: &[u8]) -> Result<Vec<u8>, String> {
    Ok(stream::from_bytes(settings)?
        .iter()
        .flat_map(|s| answer(s).0)
        .collect())
}

/// Compares foreign answers with this program's own. The line for a full
/// agreement, or what the first difference is.
pub fn compare(settings: &[u8], foreign: &[u8]) -> Result<String, String> {
    let settings = stream::from_bytes(settings)?;
    if settings.is_empty() {
        return Err("no settings to compare".to_string());
    }
    let mut rest = foreign;
    let mut pens = HashSet::new();
    let (mut taken, mut most) = (0, 0);
    for (i, setting) in settings.iter().enumerate() {
        let (own, corners) = answer(setting);
        let complaint = |foreign: &[u8], what: &str| {
            format!(
                "setting {i} (w={} p={} q={}): {what}\n own answer     {}\n foreign answer {}",
                setting.w,
                setting.p,
                setting.q,
                show(&own),
                show(foreign)
            )
        };
        if rest.len() < 2 || rest.len() < 2 + 2 * rest[1] as usize {
            return Err(complaint(rest, "the answers end too early"));
        }
        let (one, after) = rest.split_at(2 + 2 * rest[1] as usize);
        if one != own {
            return Err(complaint(one, "the answers differ"));
        }
        rest = after;
        if own[0] == 0 {
            taken += 1;
            pens.insert(own);
            most = most.max(corners);
        }
    }
    if !rest.is_empty() {
        return Err(format!(
            "{} bytes too many after the last answer",
            rest.len()
        ));
    }
    Ok(format!(
        "pens: {} settings, {taken} taken, {} different pens, at most {most} corners in a quarter: all equal",
        settings.len(),
        pens.len()
    ))
}

fn show(answer: &[u8]) -> String {
    let mut text = String::new();
    if let Some(refusal) = answer.first() {
        text += &format!("refusal {refusal}");
    } else {
        text += "nothing";
    }
    if let Some(count) = answer.get(1) {
        text += &format!(", {count} corners:");
    }
    for pair in answer.get(2..).unwrap_or(&[]).chunks(2) {
        let numbers: Vec<String> = pair.iter().map(|&b| (b as i8).to_string()).collect();
        text += &format!(" ({})", numbers.join(","));
    }
    text
}

#[cfg(test)]
mod tests {
    use super::*;

    fn some_settings() -> Vec<u8> {
        let list = [(16, 1, 1), (15, 1, 1), (176, 1, 1), (32, 2, 1), (64, 0, 1)];
        stream::to_bytes(&list.map(|(w, p, q)| Setting::new(w, p, q)))
    }

    #[test]
    fn own_answers_compare_equal() {
        let settings = some_settings();
        let own = answers(&settings).unwrap();
        assert_eq!(
            compare(&settings, &own).unwrap(),
            "pens: 5 settings, 3 taken, 3 different pens, at most 5 corners in a quarter: all equal"
        );
    }

    /// Every changed byte, every missing one and every one too many is seen.
    #[test]
    fn the_comparison_can_fail() {
        let settings = some_settings();
        let own = answers(&settings).unwrap();
        for i in 0..own.len() {
            for change in [1, 2, 255] {
                let mut other = own.clone();
                other[i] = other[i].wrapping_add(change);
                assert!(compare(&settings, &other).is_err());
            }
            assert!(compare(&settings, &own[..i]).is_err());
        }
        let mut longer = own.clone();
        longer.push(0);
        assert!(compare(&settings, &longer).is_err());
        assert!(compare(&settings[..settings.len() - 1], &own).is_err());
        assert!(compare(&settings[..settings.len() - 24], &own).is_err());
        assert!(compare(&[], &[]).is_err());
    }

    /// The full stream, with the numbers known for it.
    #[test]
    fn the_full_stream() {
        let all = stream::all_settings();
        let good = all.iter().take(92_217).all(Setting::within_limits);
        assert!(
            good && all[92_217..92_217 + 30_000]
                .iter()
                .all(|s| !s.within_limits())
        );
        let first = stream::to_bytes(&all[..92_217]);
        assert_eq!(
            compare(&first, &answers(&first).unwrap()).unwrap(),
            "pens: 92217 settings, 92217 taken, 30543 different pens, at most 12 corners in a quarter: all equal"
        );
    }
}
