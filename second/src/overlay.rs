//! One film laid over another: document 02's W1, pixel by pixel over the whole
//! files, and the comparison with the answers of the program under test.

use std::fmt;
use std::path::Path;
use std::sync::OnceLock;

/// "columns and rows each 1 to 16,384"
const LIMIT: usize = 16_384;

/// What is answered in the place of a report; the number is the film's.
#[derive(Clone, Copy, PartialEq, Eq, Debug)]
pub enum Refusal {
    BadHeader(u8),
    UnequalSizes,
    ShortData(u8),
    BytesAfter(u8),
}

impl fmt::Display for Refusal {
    fn fmt(&self, f: &mut fmt::Formatter) -> fmt::Result {
        match self {
            Refusal::BadHeader(film) => write!(f, "refused: bad header, film {film}"),
            Refusal::UnequalSizes => write!(f, "refused: unequal sizes"),
            Refusal::ShortData(film) => write!(f, "refused: short data, film {film}"),
            Refusal::BytesAfter(film) => {
                write!(f, "refused: bytes after the last row, film {film}")
            }
        }
    }
}

/// A file with a good header: its sizes, and all that comes after the header.
struct Film<'a> {
    columns: usize,
    rows: usize,
    data: &'a [u8],
}

impl Film<'_> {
    fn row_length(&self) -> usize {
        self.columns.div_ceil(8)
    }

    fn length(&self) -> usize {
        self.rows * self.row_length()
    }

    /// The bytes of a row, row 0 being the lowest: "The top row comes first".
    fn row(&self, row: usize) -> &[u8] {
        let above = self.rows - 1 - row;
        &self.data[above * self.row_length()..(above + 1) * self.row_length()]
    }

    /// "the leftmost pixel in the highest bit, black is 1"
    fn black(&self, column: usize, row: usize) -> bool {
        self.row(row)[column / 8] & (128 >> (column % 8)) != 0
    }
}

/// The size whose decimal digits and then this byte begin the text, and what
/// follows them. Each size is tried; no two fit.
fn size(text: &[u8], end: u8) -> Option<(usize, &[u8])> {
    static DECIMALS: OnceLock<Vec<String>> = OnceLock::new();
    let decimals = DECIMALS.get_or_init(|| (1..=LIMIT).map(|n| n.to_string()).collect());
    (1..).zip(decimals).find_map(|(n, decimal)| {
        let rest = text.strip_prefix(decimal.as_bytes())?;
        Some((n, rest.strip_prefix(&[end])?))
    })
}

/// The film of a file whose header has "exactly document 01's form, with a size
/// inside its limits".
fn film(file: &[u8]) -> Option<Film<'_>> {
    let (columns, rest) = size(file.strip_prefix(b"P4\n")?, b' ')?;
    let (rows, data) = size(rest, b'\n')?;
    Some(Film {
        columns,
        rows,
        data,
    })
}

/// "the count of ones in the two rows' difference without spare bits"
fn ones(first: &[u8], second: &[u8], columns: usize) -> u32 {
    let spare = 8 * first.len() - columns;
    let mut difference: Vec<u8> = first.iter().zip(second).map(|(a, b)| a ^ b).collect();
    if let Some(last) = difference.last_mut() {
        *last = *last >> spare << spare;
    }
    difference.iter().map(|byte| byte.count_ones()).sum()
}

/// "A bad header, then unequal sizes, then short data, then bytes after the last
/// row, the first film before the second, are refused by name before any row is
/// reported"; else each row's number and its differing pixels, "top row first and
/// left to right".
pub fn answer(first: &[u8], second: &[u8]) -> Result<String, Refusal> {
    let first = film(first).ok_or(Refusal::BadHeader(1))?;
    let second = film(second).ok_or(Refusal::BadHeader(2))?;
    if (first.columns, first.rows) != (second.columns, second.rows) {
        return Err(Refusal::UnequalSizes);
    }
    for (number, film) in [(1, &first), (2, &second)] {
        if film.data.len() < film.length() {
            return Err(Refusal::ShortData(number));
        }
    }
    for (number, film) in [(1, &first), (2, &second)] {
        if film.data.len() > film.length() {
            return Err(Refusal::BytesAfter(number));
        }
    }
    let mut report = String::new();
    for row in (0..first.rows).rev() {
        let number = ones(first.row(row), second.row(row), first.columns);
        report += &format!("row {row} {number}\n");
        let mut told = 0;
        for column in 0..first.columns {
            match (first.black(column, row), second.black(column, row)) {
                (true, false) => report += &format!("{column} {row} 1\n"),
                (false, true) => report += &format!("{column} {row} 2\n"),
                _ => continue,
            }
            told += 1;
        }
        assert_eq!(number, told, "row {row}");
    }
    Ok(report)
}

/// What the program writes: the report, or the refusal's line.
pub fn text(answer: &Result<String, Refusal>) -> String {
    match answer {
        Ok(report) => report.clone(),
        Err(refusal) => format!("{refusal}\n"),
    }
}

/// The kinds of answers; each must occur.
pub fn kinds() -> Vec<(String, usize)> {
    let refusals = [
        Refusal::BadHeader(1),
        Refusal::BadHeader(2),
        Refusal::UnequalSizes,
        Refusal::ShortData(1),
        Refusal::ShortData(2),
        Refusal::BytesAfter(1),
        Refusal::BytesAfter(2),
    ];
    let mut names = vec![
        "report, no pixel differs".to_string(),
        "report, some differ".to_string(),
    ];
    names.extend(refusals.map(|refusal| refusal.to_string()));
    names.into_iter().map(|name| (name, 0)).collect()
}

/// The place of an answer among the kinds.
pub fn kind(answer: &Result<String, Refusal>) -> usize {
    let name = match answer {
        Ok(report) if report.lines().all(|line| line.starts_with("row ")) => {
            "report, no pixel differs".to_string()
        }
        Ok(_) => "report, some differ".to_string(),
        Err(refusal) => refusal.to_string(),
    };
    kinds()
        .iter()
        .position(|(known, _)| *known == name)
        .expect("all kinds are listed")
}

/// Where an answer first leaves the right one, as a line of each.
fn difference(given: &[u8], right: &str) -> Option<String> {
    if given == right.as_bytes() {
        return None;
    }
    let pieces = |bytes: &[u8]| -> Vec<String> {
        bytes
            .split_inclusive(|&byte| byte == b'\n')
            .map(|line| format!("{:?}", String::from_utf8_lossy(line)))
            .collect()
    };
    let (given, right) = (pieces(given), pieces(right.as_bytes()));
    let same = given.iter().zip(&right).take_while(|(a, b)| a == b).count();
    let at = |lines: &[String]| lines.get(same).cloned().unwrap_or("nothing".to_string());
    Some(format!(
        "line {}: {} instead of {}",
        same + 1,
        at(&given),
        at(&right)
    ))
}

/// Compares the answers N.out in a folder with the own ones to the pairs N.1 and
/// N.2 there, N counted from 1.
pub fn compare(folder: &str) -> Result<String, String> {
    let path = |number: usize, end: &str| Path::new(folder).join(format!("{number}.{end}"));
    let file = |number: usize, end: &str| {
        let path = path(number, end);
        std::fs::read(&path).map_err(|e| format!("{}: {e}", path.display()))
    };
    let names = std::fs::read_to_string(Path::new(folder).join("kinds")).unwrap_or_default();
    let mut counts = kinds();
    let mut number = 0;
    while path(number + 1, "1").exists() {
        number += 1;
        let (first, second) = (file(number, "1")?, file(number, "2")?);
        let right = answer(&first, &second);
        if let Some(difference) = difference(&file(number, "out")?, &text(&right)) {
            let name = names.lines().nth(number - 1).unwrap_or("no kind is told");
            return Err(format!("pair {number} ({name}): {difference}"));
        }
        counts[kind(&right)].1 += 1;
    }
    let told: Vec<String> = counts
        .iter()
        .map(|(name, count)| format!("\n  {count} {name}"))
        .collect();
    let told = format!("{number} pairs of films{}", told.concat());
    if let Some((name, _)) = counts.iter().find(|(_, count)| *count == 0) {
        return Err(format!("{told}\nnever answered: {name}"));
    }
    Ok(format!("{told}\nall equal"))
}

#[cfg(test)]
mod tests {
    use super::*;

    /// A file of these rows, the top one first.
    fn file(header: &str, data: &[u8]) -> Vec<u8> {
        [header.as_bytes(), data].concat()
    }

    fn told(first: &[u8], second: &[u8]) -> String {
        text(&answer(first, second))
    }

    /// Top row  X..X.  against  X...X; middle equal; lowest  .....  against  .X...
    #[test]
    fn a_film_by_hand() {
        let first = file("P4\n5 3\n", &[0b1001_0000, 0b1110_0000, 0]);
        let second = file("P4\n5 3\n", &[0b1000_1000, 0b1110_0000, 0b0100_0000]);
        assert_eq!(
            told(&first, &second),
            "row 2 2\n3 2 1\n4 2 2\nrow 1 0\nrow 0 1\n1 0 2\n"
        );
        assert_eq!(
            told(&second, &first),
            "row 2 2\n3 2 2\n4 2 1\nrow 1 0\nrow 0 1\n1 0 1\n"
        );
        assert_eq!(told(&first, &first), "row 2 0\nrow 1 0\nrow 0 0\n");
    }

    #[test]
    fn columns_run_on_over_bytes() {
        let first = file("P4\n10 1\n", &[0b0000_0001, 0b1100_0000]);
        let second = file("P4\n10 1\n", &[0b1000_0000, 0b1000_0000]);
        assert_eq!(told(&first, &second), "row 0 3\n0 0 2\n7 0 1\n9 0 1\n");
    }

    #[test]
    fn spare_bits_are_no_pixels() {
        let first = file("P4\n9 2\n", &[0, 0b0111_1111, 255, 255]);
        let second = file("P4\n9 2\n", &[0, 0, 255, 0b1010_1010]);
        assert_eq!(told(&first, &second), "row 1 0\nrow 0 0\n");
        assert_eq!(ones(&[0, 127], &[0, 0], 9), 0);
        assert_eq!(ones(&[0, 127], &[0, 0], 10), 1);
        assert_eq!(ones(&[0, 127], &[0, 0], 16), 7);
    }

    /// Document 01's whole file, its dot at column 2 of row 1.
    #[test]
    fn the_file_of_the_cases() {
        let dot = file("P4\n5 3\n", &[0, 32, 0]);
        let none = file("P4\n5 3\n", &[0, 0, 0]);
        assert_eq!(told(&dot, &none), "row 2 0\nrow 1 1\n2 1 1\nrow 0 0\n");
    }

    #[test]
    fn headers() {
        let good = |text: &[u8]| film(text).map(|film| (film.columns, film.rows, film.data.len()));
        assert_eq!(good(b"P4\n5 3\n"), Some((5, 3, 0)));
        assert_eq!(good(b"P4\n1 16384\n\n "), Some((1, 16_384, 2)));
        assert_eq!(good(b"P4\n16384 10\n10"), Some((16_384, 10, 2)));
        for text in [
            "",
            "P",
            "P4",
            "P4\n",
            "P4\n5",
            "P4\n5 ",
            "P4\n5 3",
            "P4\n5 3 ",
            "P4\n5 3\r\n",
        ] {
            assert_eq!(good(text.as_bytes()), None, "{text:?}");
        }
        for text in [
            "P4\n05 3\n",
            "P4\n5 03\n",
            "P4\n0 3\n",
            "P4\n5 0\n",
            "P4\n16385 3\n",
            "P4\n5 16385\n",
            "P4\n163840 3\n",
            "P4\n+5 3\n",
            "P4\n5  3\n",
            "P4 5 3\n",
            "P4\n5\n3\n",
            "P4\n#\n5 3\n",
            "p4\n5 3\n",
            "P1\n5 3\n",
            " P4\n5 3\n",
        ] {
            assert_eq!(good(text.as_bytes()), None, "{text:?}");
        }
    }

    /// Both films have each of the faults, from the last in order to the first.
    #[test]
    fn the_order_of_refusals() {
        let whole = file("P4\n5 3\n", &[0; 3]);
        let long = file("P4\n5 3\n", &[0; 4]);
        let short = file("P4\n5 3\n", &[0; 2]);
        let other = file("P4\n6 3\n", &[0; 2]);
        let bad = file("P4\n5 03\n", &[0; 3]);
        let refused = |first: &[u8], second: &[u8]| answer(first, second).unwrap_err();
        assert_eq!(refused(&whole, &long), Refusal::BytesAfter(2));
        assert_eq!(refused(&long, &long), Refusal::BytesAfter(1));
        assert_eq!(refused(&long, &short), Refusal::ShortData(2));
        assert_eq!(refused(&short, &long), Refusal::ShortData(1));
        assert_eq!(refused(&short, &short), Refusal::ShortData(1));
        assert_eq!(refused(&short, &other), Refusal::UnequalSizes);
        assert_eq!(refused(&other, &long), Refusal::UnequalSizes);
        assert_eq!(refused(&other, &bad), Refusal::BadHeader(2));
        assert_eq!(refused(&bad, &short), Refusal::BadHeader(1));
        assert_eq!(refused(&bad, &bad), Refusal::BadHeader(1));
    }

    #[test]
    fn lines_of_refusals() {
        let lines: Vec<String> = kinds().into_iter().map(|(name, _)| name).collect();
        assert_eq!(
            lines[2..],
            [
                "refused: bad header, film 1",
                "refused: bad header, film 2",
                "refused: unequal sizes",
                "refused: short data, film 1",
                "refused: short data, film 2",
                "refused: bytes after the last row, film 1",
                "refused: bytes after the last row, film 2",
            ]
        );
        assert_eq!(
            text(&Err(Refusal::UnequalSizes)),
            "refused: unequal sizes\n"
        );
    }

    #[test]
    fn differences_are_told() {
        assert_eq!(difference(b"row 0 0\n", "row 0 0\n"), None);
        let lost = difference(b"row 1 0\n", "row 1 0\nrow 0 0\n").unwrap();
        assert_eq!(lost, r#"line 2: nothing instead of "row 0 0\n""#);
        let end = difference(b"row 0 0", "row 0 0\n").unwrap();
        assert_eq!(end, r#"line 1: "row 0 0" instead of "row 0 0\n""#);
        let more = difference(b"row 0 0\n\n", "row 0 0\n").unwrap();
        assert_eq!(more, r#"line 2: "\n" instead of nothing"#);
    }
}
