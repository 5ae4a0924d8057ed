//! Gerber files to read: sound ones of all forms, ones with every kind of fault, and
//! ones at each limit, with what is lent to the reader and how the file is cut up.

use crate::gerber::{answer, Request};
use crate::stream::Sequence;

#[derive(Clone)]
pub struct Case {
    pub kind: &'static str,
    pub n: u64,
    pub room: usize,
    /// The apertures in use.
    pub apertures: Vec<u64>,
    /// The lengths of the chunks; what is left of the file is one more.
    pub chunks: Vec<usize>,
    pub file: Vec<u8>,
}

impl Case {
    pub fn request(&self) -> Request<'_> {
        Request {
            n: self.n,
            room: self.room,
            apertures: &self.apertures,
            file: &self.file,
        }
    }

    /// What the program under test gets on its command line.
    pub fn words(&self) -> [String; 4] {
        let apertures = match self.apertures.as_slice() {
            [] => "-".to_string(),
            apertures => listed(apertures),
        };
        [
            self.n.to_string(),
            self.room.to_string(),
            apertures,
            listed(&self.chunks),
        ]
    }
}

/// Numbers with commas between.
fn listed<T: ToString>(numbers: &[T]) -> String {
    let words: Vec<String> = numbers.iter().map(T::to_string).collect();
    words.join(",")
}

const FIRST: &str = "%FSLAX36Y36*%";
const SECOND: &str = "%MOMM*%";
const LINES: &str = "%FSLAX36Y36*%\n%MOMM*%\n";
/// All forms of commands, two strokes ended and one open before the end.
const COMMANDS: &str = "G04 a*\nG01*\nD10*\nX1Y2D02*\nX+30Y-4D01*\r\nY005D01*\nX7D01*\nD01*\n\
    D02*\nD01*\nD11*\nX-9D01*\nM02*\n";
/// Where the commands of MIDDLE stand, a stroke is given and another open.
const BEFORE: &str = "D10*\nX1Y2D02*\nX3Y4D01*\nX5D02*\nY6D01*\n";
const AFTER: &str = "X7D01*\nM02*\n";

const LARGEST_ROOM: usize = 65_536;
const LARGEST_NUMBER: i64 = 999_999_999;
const FARTHEST: i64 = 262_144;

fn pick<T: Copy>(sequence: &mut Sequence, list: &[T]) -> T {
    list[sequence.below(list.len() as u64) as usize]
}

fn up_to(sequence: &mut Sequence, most: usize) -> usize {
    sequence.below(most as u64 + 1) as usize
}

fn all_apertures() -> Vec<u64> {
    (10..=41).collect()
}

/// A file of this length in chunks: whole, in bytes, with empty chunks among, and
/// anyhow. What is told of them fits into one word of a command line.
fn chunks(sequence: &mut Sequence, length: usize) -> Vec<usize> {
    let mut chunks = Vec::new();
    let mut left = length;
    match sequence.below(8) {
        0 => chunks.push(0),
        1 => chunks.push(length),
        2 => {
            let place = up_to(sequence, length);
            chunks.extend([place, 0, length - place]);
        }
        style => {
            let most = match style {
                3 | 4 => 1,
                5 => 4,
                6 => 20,
                _ => 1 + length / 2,
            };
            let mut text = 0;
            while left > 0 && text < 99_000 {
                let chunk = match style {
                    3 => 1,
                    _ => up_to(sequence, most.min(left)),
                };
                left -= chunk;
                text += 1 + chunk.to_string().len();
                chunks.push(chunk);
            }
            // So that an empty file has some too.
            chunks.push(0);
        }
    }
    chunks
}

/// A whole number of nanometres that is in range.
fn coordinate(sequence: &mut Sequence, n: u64) -> i64 {
    let n = n as i64;
    let limit = LARGEST_NUMBER.min(FARTHEST * n);
    let any = |sequence: &mut Sequence, most: i64| {
        let most = most.min(limit);
        sequence.below(2 * most as u64 + 1) as i64 - most
    };
    let number = match sequence.below(8) {
        0 => any(sequence, 9),
        1 => any(sequence, limit),
        // Halves, and their neighbours.
        2 => {
            let unit = any(sequence, FARTHEST) / 2;
            unit * n + n / 2 + any(sequence, 1)
        }
        3 => any(sequence, 3) * n + n / 2 + any(sequence, 1),
        4 => (limit - sequence.below(3) as i64) * pick(sequence, &[-1, 1]),
        5 => any(sequence, 9) * 10i64.pow(sequence.below(9) as u32),
        _ => any(sequence, 50 * n),
    };
    number.clamp(-limit, limit)
}

/// A number's digits and sign, in one of the ways that are allowed.
fn spelled(sequence: &mut Sequence, number: i64) -> String {
    let digits = number.unsigned_abs().to_string();
    let width = match sequence.below(4) {
        0 => 9,
        1 => 1 + sequence.below(9) as usize,
        _ => 1,
    };
    let sign = match number {
        1.. => pick(sequence, &["", "", "+"]),
        0 => pick(sequence, &["", "", "+", "-"]),
        _ => "-",
    };
    format!("{sign}{digits:0>width$}")
}

fn plot(sequence: &mut Sequence, n: u64, end: &str) -> String {
    let mut text = String::new();
    for axis in ["X", "Y"] {
        if sequence.below(4) > 0 {
            let number = coordinate(sequence, n);
            text += axis;
            text += &spelled(sequence, number);
        }
    }
    text + end
}

fn comment(sequence: &mut Sequence) -> Vec<u8> {
    let mut text = b"G04".to_vec();
    match sequence.below(4) {
        0 => {}
        1 => text.extend(b" X1Y2D01 "),
        2 => text.extend(pick(sequence, &["\r\n", "%LPD%", "M02\n", "G04", "\0", "9"]).as_bytes()),
        _ => {
            let length = sequence.below(30);
            let noise = (0..length).map(|_| sequence.next() as u8);
            text.extend(noise.filter(|&byte| byte != b'*'));
        }
    }
    text.push(b'*');
    text
}

/// A sound file in pieces: line ends, the lines and the commands.
fn sound(sequence: &mut Sequence, n: u64, apertures: &[u64]) -> Vec<Vec<u8>> {
    let style = sequence.below(4);
    let ends = |sequence: &mut Sequence| -> Vec<u8> {
        match style {
            0 => Vec::new(),
            1 => b"\n".to_vec(),
            2 => b"\r\n".to_vec(),
            _ => pick(
                sequence,
                &["", "", "\n", "\r", "\n\n", "\r\n\r", "\n\r\r\n"],
            )
            .as_bytes()
            .to_vec(),
        }
    };
    let mut pieces = Vec::new();
    if sequence.below(3) == 0 {
        pieces.push(ends(sequence));
    }
    for line in [FIRST, SECOND] {
        pieces.push(line.as_bytes().to_vec());
        pieces.push(ends(sequence));
    }
    let (mut point, mut chosen) = (false, false);
    let count = pick(sequence, &[0, 3, 8, 8, 20, 20, 60]);
    for _ in 0..sequence.below(count + 1) {
        let mut kind = sequence.below(16);
        if kind > 5 && !chosen {
            kind = 2;
        }
        if kind > 5 && !point {
            kind = 4;
        }
        let piece = match kind {
            0 => comment(sequence),
            1 => b"G01*".to_vec(),
            2 | 3 => {
                if apertures.is_empty() {
                    continue;
                }
                chosen = true;
                format!("D{}*", pick(sequence, apertures)).into_bytes()
            }
            4 | 5 => {
                point = true;
                plot(sequence, n, "D02*").into_bytes()
            }
            _ => plot(sequence, n, "D01*").into_bytes(),
        };
        pieces.push(piece);
        pieces.push(ends(sequence));
    }
    pieces.push(b"M02*".to_vec());
    if sequence.below(4) > 0 {
        pieces.push(ends(sequence));
    }
    pieces
}

fn some_apertures(sequence: &mut Sequence) -> Vec<u64> {
    match sequence.below(8) {
        0 => Vec::new(),
        1 | 2 => all_apertures(),
        3 => vec![10 + sequence.below(32)],
        _ => {
            // In any order.
            let mut apertures = all_apertures();
            shuffle(sequence, &mut apertures);
            apertures.truncate(1 + sequence.below(8) as usize);
            apertures
        }
    }
}

fn shuffle<T>(sequence: &mut Sequence, list: &mut [T]) {
    for last in (1..list.len()).rev() {
        list.swap(last, up_to(sequence, last));
    }
}

/// A byte in the place of another, or between others: such as stand in commands, and
/// any.
fn some_byte(sequence: &mut Sequence) -> u8 {
    match sequence.below(4) {
        0 => sequence.next() as u8,
        _ => pick(sequence, b"**%%\r\n\n  \0++--00123456789DDGGMMXXYYdgmxy"),
    }
}

/// One fault in a file, with its name.
fn damage(sequence: &mut Sequence, pieces: &mut Vec<Vec<u8>>) -> &'static str {
    if pieces.is_empty() {
        return "random, nothing";
    }
    let place = sequence.below(pieces.len() as u64) as usize;
    match sequence.below(18) {
        0 => {
            let other = sequence.below(pieces.len() as u64) as usize;
            pieces.swap(place, other);
            return "random, two pieces swapped";
        }
        1 => {
            pieces.remove(place);
            return "random, a piece missing";
        }
        2 => {
            pieces.insert(place, pieces[place].clone());
            return "random, a piece doubled";
        }
        3 | 4 => {
            let spelling = pick(sequence, SPELLINGS);
            pieces.insert(place, format!("{spelling}*").into_bytes());
            return "random, a wrong spelling";
        }
        5 => {
            let command = pick(sequence, ALLOWED);
            pieces.insert(place, format!("{command}*").into_bytes());
            return "random, an allowed command more";
        }
        6 => {
            let far = [999_999_999, -999_999_999, 262_145, -262_145];
            let axis = pick(sequence, &["X", "Y"]);
            let end = pick(sequence, &["D01*", "D01*", "D02*"]);
            let number = spelled_far(sequence, &far);
            pieces.insert(place, format!("{axis}{number}{end}").into_bytes());
            return "random, a far point";
        }
        7 => {
            let number = 10 + sequence.below(90);
            pieces.insert(place, format!("D{number}*").into_bytes());
            return "random, a choice more";
        }
        8 => {
            pieces.retain(|piece| !matches!(piece.as_slice(), [b'D', b'1'..=b'9', ..]));
            return "random, no choice";
        }
        9 => {
            pieces.retain(|piece| !piece.ends_with(b"D02*"));
            return "random, no D02";
        }
        _ => {}
    }
    let mut file = pieces.concat();
    let place = sequence.below(file.len().max(1) as u64) as usize;
    let kind = match sequence.below(7) {
        0 if place < file.len() => {
            file[place] = some_byte(sequence);
            "random, a byte changed"
        }
        1 if place < file.len() => {
            file.remove(place);
            "random, a byte missing"
        }
        2 => {
            let byte = some_byte(sequence);
            file.insert(place, byte);
            "random, a byte more"
        }
        3 if place < file.len() => {
            file.insert(place, file[place]);
            "random, a byte doubled"
        }
        4 if place + 1 < file.len() => {
            file.swap(place, place + 1);
            "random, two bytes swapped"
        }
        5 if place < file.len() => {
            let end = file.len().min(place + 1 + sequence.below(12) as usize);
            file.drain(place..end);
            "random, some bytes missing"
        }
        _ => {
            file.truncate(place);
            "random, cut off"
        }
    };
    *pieces = file
        .split_inclusive(|&byte| byte == b'*')
        .map(<[u8]>::to_vec)
        .collect();
    kind
}

fn spelled_far(sequence: &mut Sequence, far: &[i64]) -> String {
    let number = pick(sequence, far);
    spelled(sequence, number)
}

/// Commands that are allowed where commands are; without their `*`.
const ALLOWED: &[&str] = &[
    "G01", "G04", "G04 M02", "D10", "D11", "D02", "X1Y1D02", "D01", "X1D01", "M02",
];

/// No commands, or none that is allowed; without a `*`. Some are beginnings of others.
const SPELLINGS: &[&str] = &[
    "",
    // Other codes.
    "G00",
    "G02",
    "G03",
    "G05",
    "G06",
    "G09",
    "G10",
    "G36",
    "G37",
    "G54D10",
    "G70",
    "G71",
    "G74",
    "G75",
    "G90",
    "G91",
    "M00",
    "M01",
    "M03",
    "M20",
    "D00",
    "D03",
    "D04",
    "D05",
    "D09",
    "X1Y1D03",
    "X1Y1D00",
    "X1Y1D05",
    "X1Y1D10",
    "X1Y1D11",
    "X1Y1D12",
    "N1",
    "I1",
    "J1",
    "T1",
    "TF",
    "%",
    "%%",
    "%LPD",
    "%MOMM",
    "%MOMM*%",
    "%FSLAX36Y36",
    "%FSLAX36Y36*%",
    "%ADD10C,0.1*%",
    "%MOIN*%",
    // Too few digits or too many.
    "G",
    "G0",
    "G1",
    "G4",
    "G001",
    "G010",
    "G0 1",
    "G01.",
    "G014",
    "G011",
    "M",
    "M0",
    "M2",
    "M002",
    "M020",
    "M022",
    "M02.",
    "D",
    "D0",
    "D1",
    "D2",
    "D3",
    "D001",
    "D002",
    "D010",
    "D011",
    "D020",
    "D021",
    "D100",
    "D101",
    "D110",
    "D999",
    "D1000",
    "D266",
    "D65546",
    "D4294967306",
    "D+10",
    "D-10",
    "D 10",
    "D10 ",
    "D1 0",
    "D1A",
    "DA0",
    "D0A",
    "D/0",
    "D:0",
    "D1/",
    "D1:",
    "D10D11",
    "D1\0",
    // Joined commands.
    "G01X1Y1D01",
    "G01X1D02",
    "G01D01",
    "G01D10",
    "G01G01",
    "G01M02",
    "G01G04",
    "G1X1Y1D01",
    "D10X1Y1D01",
    "D10D01",
    "D01D01",
    "D02D01",
    "D01X1",
    "D02Y1",
    "D01M02",
    "X1Y1D01D01",
    "X1Y1D01D02",
    "X1Y1D01X2",
    "X1Y1D01M02",
    "M02M02",
    "M02G04",
    "X1Y1G04",
    "X1G01Y1D01",
    "X1M02",
    // Axes.
    "X",
    "Y",
    "XY",
    "X1",
    "Y1",
    "X1Y1",
    "XD01",
    "YD01",
    "XD02",
    "YD02",
    "XYD01",
    "XYD02",
    "X1YD01",
    "XY1D01",
    "X1YD02",
    "XY1D02",
    "X1X2D01",
    "Y1Y2D01",
    "X1X2D02",
    "Y1Y2D02",
    "X1X2Y3D01",
    "X1Y2Y3D01",
    "X1Y2X3D01",
    "Y1X2D01",
    "Y1X2D02",
    "Y1X2Y3D01",
    "X1I2D01",
    "X1Y1I1J1D01",
    "Z1D01",
    "X1Z1D01",
    "1D01",
    "1Y1D01",
    "+1D01",
    // Numbers.
    "X+D01",
    "X-D01",
    "Y+D01",
    "Y-D02",
    "X+Y1D01",
    "X1Y-D01",
    "X+-1D01",
    "X--1D01",
    "X++1D02",
    "Y-+1D01",
    "X1-D01",
    "X1+1D01",
    "X1-1D01",
    "Y1+D02",
    "X0000000001D01",
    "X1234567890D01",
    "Y0000000000D02",
    "Y-0000000001D02",
    "X+1234567890Y1D01",
    "X1Y-1234567890D01",
    "X12345678901234567890D01",
    "X18446744073709551617D01",
    "X4294967297D02",
    "X1.D01",
    "X1.0D01",
    "X.1D01",
    "X1,0D01",
    "X1e0D01",
    "X0x1D01",
    "X1_0D01",
    "X$1D01",
    "X/D01",
    "X:D01",
    "X1/D01",
    "X1:D01",
    "Y;D01",
    "X１D01",
    // Letters of the other case.
    "g01",
    "g04",
    "g04 comment",
    "m02",
    "d01",
    "d02",
    "d10",
    "x1D01",
    "y1D01",
    "x1y1d01",
    "X1y1D01",
    "X1Y1d01",
    "X1Y1d02",
    // Spaces and line ends inside, and other bytes.
    " ",
    "\t",
    "\0",
    "\x0b",
    "\x0c",
    "\x1a",
    "\x7f",
    " G01",
    "G01 ",
    "G 01",
    "G\x0001",
    "G01\0",
    "G01\n",
    "G01\r",
    "G\n01",
    "G0\r1",
    "G0\n4 comment",
    "G\r\n04",
    "M02\n",
    "M02\r\n",
    "M\n02",
    "M0\r2",
    "D10\n",
    "D1\n0",
    "D\r10",
    "D01\n",
    "D0\r1",
    "D02\r",
    "X1Y1D01 ",
    "X1Y1D01\n",
    "X1Y1\nD01",
    "X1\nY1D01",
    "X\n1Y1D01",
    "X-\r1D01",
    "X1\n2D01",
    "X1Y1D\n02",
    "X1Y1D0\n2",
    "X1 Y1D01",
    "X 1D01",
    "X1 D01",
    "X- 1D01",
    " X1D01",
    "X1Y1 D01",
    "X1\tY1D02",
    "X1\0D01",
    "\u{feff}G01",
    "é",
    "G01é",
    "\u{80}",
    "#",
    "#comment",
    ";",
    "(comment)",
    "/",
    "\"",
    "_",
    "A",
    "C",
    "E",
    "F",
    "H",
    "L",
    "N",
    "W",
    "Z",
    "0",
    "1",
    "9",
    "01",
    "10",
    "+",
    "-",
];

/// Numbers, good and bad; in range for the largest N.
const NUMBERS: &[&str] = &[
    "0",
    "1",
    "9",
    "00",
    "01",
    "10",
    "500000",
    "499999",
    "-500000",
    "-500001",
    "1500000",
    "-1500000",
    "-1500001",
    "12345678",
    "123456789",
    "999999999",
    "-999999999",
    "+999999999",
    "000000000",
    "-000000000",
    "+000000001",
    "-000500001",
    "+0",
    "-0",
    "+7",
    "-7",
    "0000000000",
    "0000000001",
    "-0000000001",
    "+0000000001",
    "1000000000",
    "9999999999",
    "-1000000000",
    "4294967296",
    "00000000000000000000",
    "18446744073709551616",
    "",
    "+",
    "-",
    "++1",
    "+-1",
    "-+1",
    "--1",
    "1+",
    "1-",
    "1+1",
    "1 ",
    " 1",
    "- 1",
    "1.0",
    "1,0",
    "0x1",
    "1e3",
    "a",
];

struct Maker {
    sequence: Sequence,
    cases: Vec<Case>,
}

impl Maker {
    fn add(&mut self, kind: &'static str, lent: (u64, usize, &[u64]), file: &[u8]) {
        let (n, room, apertures) = lent;
        let chunks = chunks(&mut self.sequence, file.len());
        self.cases.push(Case {
            kind,
            n,
            room,
            apertures: apertures.to_vec(),
            chunks,
            file: file.to_vec(),
        });
    }

    /// With enough of all, apertures 10 and 11 among those in use.
    fn usual(&mut self, kind: &'static str, file: &[u8]) {
        let n = pick(&mut self.sequence, &[1, 1, 1, 2, 3, 10, 1_000, 1_000_000]);
        let room = pick(&mut self.sequence, &[40, 100, 1_000, LARGEST_ROOM]);
        let mut apertures = vec![10, 11];
        if self.sequence.below(3) == 0 {
            apertures = all_apertures();
        }
        self.add(kind, (n, room, &apertures), file);
    }

    /// With enough room, and all apertures in use.
    fn with_n(&mut self, kind: &'static str, n: u64, commands: &str) {
        let file = format!("{LINES}{commands}");
        let apertures = all_apertures();
        self.add(kind, (n, LARGEST_ROOM, &apertures), file.as_bytes());
    }

    /// Each byte from one place to another changed, missing, doubled; bytes between.
    fn damaged(&mut self, file: &[u8], from: usize, to: usize, others: &[u8], between: &[u8]) {
        for place in from..to {
            let mut changed = file.to_vec();
            for other in [
                file[place] ^ 32,
                file[place] ^ 128,
                file[place] + 1,
                file[place] - 1,
            ] {
                changed[place] = other;
                self.usual("a byte changed a little", &changed);
            }
            for &other in others.iter().filter(|&&other| other != file[place]) {
                changed[place] = other;
                self.usual("a byte changed", &changed);
            }
            let mut missing = file.to_vec();
            missing.remove(place);
            self.usual("a byte missing", &missing);
            let mut doubled = file.to_vec();
            doubled.insert(place, file[place]);
            self.usual("a byte doubled", &doubled);
            let mut swapped = file.to_vec();
            if place + 1 < file.len() {
                swapped.swap(place, place + 1);
                self.usual("two bytes swapped", &swapped);
            }
            for &byte in between {
                let mut more = file.to_vec();
                more.insert(place, byte);
                self.usual("a byte more", &more);
            }
        }
    }

    fn damaged_files(&mut self) {
        let file = format!("{LINES}{COMMANDS}").into_bytes();
        let lines = LINES.len();
        self.damaged(&file, 0, lines, b"\0\r\n *%03X\xff", b"\0\r\n *%0X\xff");
        let others = b"\0\r\n %*+-019DGMXY";
        self.damaged(&file, lines, file.len(), others, b"\0\r\n *0X");
    }

    /// Cut off at every byte.
    fn cuts(&mut self) {
        let bare = LINES.replace('\n', "") + &COMMANDS.replace(['\r', '\n'], "");
        let more = format!("\r\n{LINES}\r{COMMANDS}");
        for file in [format!("{LINES}{COMMANDS}"), bare, more] {
            for length in 0..file.len() {
                self.usual("cut off", &file.as_bytes()[..length]);
            }
            self.usual("whole", file.as_bytes());
        }
        // Each number of digits, with each sign, ends the file.
        for sign in ["", "+", "-"] {
            for digits in 0..=11 {
                for before in ["X", "Y", "X1Y"] {
                    let number = "1234567890123"[..digits].to_string();
                    let file = format!("{LINES}{before}{sign}{number}");
                    self.usual("cut off after digits", file.as_bytes());
                }
            }
        }
        for tens in 0..=9 {
            self.usual("cut off", format!("{LINES}D{tens}").as_bytes());
            for ones in 0..=9 {
                self.usual("cut off", format!("{LINES}D{tens}{ones}").as_bytes());
                let file = format!("{LINES}D10*D02*D01*D{tens}{ones}*M02*");
                self.usual("D and two digits", file.as_bytes());
                let file = format!("{LINES}D10*X5D02*D01*X2Y3D{tens}{ones}*M02*");
                self.usual("a plot's D and two digits", file.as_bytes());
            }
        }
    }

    fn spellings(&mut self) {
        for text in SPELLINGS.iter().chain(ALLOWED) {
            for (kind, file) in [
                (
                    "another command, a stroke open",
                    format!("{LINES}{BEFORE}{text}*\n{AFTER}"),
                ),
                (
                    "another command first",
                    format!("{LINES}{text}*D10*{AFTER}"),
                ),
                (
                    "another command last",
                    format!("{LINES}{BEFORE}{AFTER}\n{text}*"),
                ),
                (
                    "another command, no * after it",
                    format!("{LINES}{BEFORE}{text}"),
                ),
                (
                    "something before the lines",
                    format!("\n{text}*\n{LINES}{BEFORE}{AFTER}"),
                ),
                (
                    "something between the lines",
                    format!("{FIRST}\r\n{text}*\n{SECOND}{BEFORE}{AFTER}"),
                ),
            ] {
                self.usual(kind, file.as_bytes());
            }
            let text = format!("{LINES}{BEFORE}M02*\r\n{text}");
            self.usual("something after M02", text.as_bytes());
        }
        for byte in 0..=255u8 {
            let after = [format!("{LINES}{BEFORE}M02*\n").as_bytes(), &[byte]].concat();
            self.usual("something after M02", &after);
            let file = [LINES.as_bytes(), &[byte], b"01*M02*"].concat();
            self.usual("another command first", &file);
        }
        for number in NUMBERS {
            for plot in [
                format!("X{number}D01*"),
                format!("Y{number}D01*"),
                format!("X{number}Y{number}D01*"),
                format!("X{number}Y2D02*D01*"),
            ] {
                self.with_n("numbers", 1_000_000, &format!("D10*X5D02*{plot}M02*"));
            }
        }
    }

    fn headers(&mut self) {
        let ends = ["", "\n", "\r", "\r\n", "\n\n\r\r"];
        for before in ends {
            for between in ends {
                for after in ends {
                    let file = format!("{before}{FIRST}{between}{SECOND}{after}{BEFORE}{AFTER}");
                    self.usual("line ends", file.as_bytes());
                }
            }
        }
        let rest = format!("{BEFORE}{AFTER}");
        for lines in [
            "",
            FIRST,
            SECOND,
            "%MOMM*%%FSLAX36Y36*%",
            "%FSLAX36Y36*%%FSLAX36Y36*%%MOMM*%",
            "%FSLAX36Y36*%%MOMM*%%MOMM*%",
            "%FSLAX36Y36*%%MOMM*%%FSLAX36Y36*%",
            "%FSLAX36Y36*%%MOMM*%%FSLAX36Y36*%%MOMM*%",
            "%FSLAX36Y36*MOMM*%",
            "%FSLAX36Y36*%MOMM*%",
            "FSLAX36Y36*MOMM*",
            "%FSLAX36Y36%%MOMM%",
            "%FSLAX36Y36*%%MOIN*%",
            "%FSLAX36Y36*%%MOmm*%",
            "%FSLAX46Y46*%%MOMM*%",
            "%FSLAX35Y35*%%MOMM*%",
            "%FSLAX36Y46*%%MOMM*%",
            "%FSLAX26Y26*%%MOMM*%",
            "%FSLAY36X36*%%MOMM*%",
            "%FSTAX36Y36*%%MOMM*%",
            "%FSLIX36Y36*%%MOMM*%",
            "%FSAX36Y36*%%MOMM*%",
            "%FSDAX36Y36*%%MOMM*%",
            "%FSLAN2G2X36Y36*%%MOMM*%",
            "%FSLAX36Y36*%%MOMM*%%LPD*%",
            "%FSLAX36Y36*%%MOMM*%%ADD10C,0.1*%",
            "%FSLAX36Y36**%%MOMM*%",
            "%FSLAX36Y36*%*%MOMM*%",
            "%FSLAX36Y36*%%MOMM*%*",
            "%FSLAX36Y36*% %MOMM*%",
            "%FSLAX36Y36*%%MOMM*% ",
            "%%FSLAX36Y36*%%MOMM*%",
            "%FSLAX36Y36*%%%MOMM*%",
            "%FSLAX36Y36*%%MOMM*%%",
            "%FSLAX36Y36*\n%%MOMM*%",
            "%FSLAX36Y36\n*%%MOMM*%",
            "%\nFSLAX36Y36*%%MOMM*%",
            "%FSLAX36Y36*%%MOMM*\r%",
            "%FSLAX36Y36*%%MO\nMM*%",
            "G04 a*%FSLAX36Y36*%%MOMM*%",
            "%FSLAX36Y36*%G04 a*%MOMM*%",
            "\u{feff}%FSLAX36Y36*%%MOMM*%",
            "%FSLAX36Y36*%\0%MOMM*%",
            "%fslax36y36*%%momm*%",
        ] {
            self.usual("other lines", format!("{lines}\n{rest}").as_bytes());
            self.usual("other lines", lines.as_bytes());
            self.usual("other lines", format!("\n{lines}M02*").as_bytes());
        }
    }

    /// Up to three plots in all ways, an axis there or omitted.
    fn omitted_axes(&mut self) {
        let forms = |place: usize| -> Vec<String> {
            let (x, y) = (10 + place, 20 + place);
            ["", &format!("X{x}"), &format!("Y{y}"), &format!("X{x}Y{y}")]
                .iter()
                .flat_map(|axes| [format!("{axes}D01*"), format!("{axes}D02*")])
                .collect()
        };
        for one in forms(1) {
            for two in forms(2) {
                for three in forms(3) {
                    for before in ["D10*", "D10*X5Y6D02*"] {
                        // With no point yet, most are refused at once.
                        if before == "D10*" && one.ends_with("D01*") && two.len() > 4 {
                            continue;
                        }
                        let text = format!("{before}{one}{two}{three}D01*M02*");
                        let n = pick(&mut self.sequence, &[1, 3, 7, 8, 100]);
                        self.with_n("omitted axes", n, &text);
                    }
                }
            }
        }
    }

    /// Halves, their neighbours, and what is near the units.
    fn ties(&mut self) {
        for n in [
            1i64, 2, 3, 4, 5, 6, 7, 10, 16, 100, 999, 1_000, 62_500, 65_535, 65_536, 99_999,
            100_000, 524_288, 999_999, 1_000_000,
        ] {
            for sign in [1, -1] {
                let mut text = "D10*D02*".to_string();
                for unit in [0, 1, 2, 3, 7, 100, 499, 999] {
                    for part in [0, n / 2, n - n / 2] {
                        for near in -1..=1 {
                            let x = sign * unit * n + part + near;
                            if x.abs() <= LARGEST_NUMBER {
                                text += &format!("X{x}Y{}D01*", -x);
                            }
                        }
                    }
                }
                self.with_n("halves", n as u64, &format!("{text}M02*"));
            }
        }
    }

    /// At both ends of the range, and past them.
    fn range(&mut self) {
        for n in [1i64, 2, 3, 10, 1_000, 3_813, 3_814, 3_815] {
            for sign in [1, -1] {
                // The half between the last unit and the one past it.
                let half = sign * (2 * FARTHEST + 1) * n / 2;
                for number in half - 2..=half + 2 {
                    if number.abs() > LARGEST_NUMBER {
                        continue;
                    }
                    for text in [
                        format!("D10*D02*X{number}D01*M02*"),
                        format!("D10*D02*Y{number}D01*M02*"),
                        format!("D10*D02*D01*X1Y{number}D01*M02*"),
                        format!("X{number}D02*D10*D01*M02*"),
                        format!("D10*D02*D01*Y{number}D02*M02*"),
                        format!("D10*D02*D01*X{number}Y{number}D02*M02*"),
                    ] {
                        self.with_n("ends of the range", n as u64, &text);
                    }
                }
            }
        }
    }

    /// A stroke of so many points, and what comes after.
    fn points(&mut self, points: usize, before: &str, after: &str) -> String {
        let mut text = format!("{LINES}{before}");
        for place in 1..points {
            let at = self.sequence.below(900);
            text += &match place % 3 {
                0 => format!("X{at}D01*\n"),
                1 => format!("Y{at}D01*"),
                _ => "D01*".to_string(),
            };
        }
        text + after
    }

    fn most_points(&mut self) {
        let apertures = all_apertures();
        let first = "D10*D02*";
        let second = "D12*D02*D01*X3D01*D02*";
        for points in [4_095, 4_096, 4_097, 4_098] {
            for before in [first, second] {
                for after in ["M02*\n", "D02*M02*", "D11*D01*M02*", "D05*", "", "D01"] {
                    let text = self.points(points, before, after);
                    let lent = (1, LARGEST_ROOM, apertures.as_slice());
                    self.add("4,096 points and more", lent, text.as_bytes());
                }
            }
        }
        for room in [8_190, 8_191, 8_192, 8_193, 8_194] {
            for points in [4_096, 4_097] {
                let text = self.points(points, first, "M02*");
                let lent = (1, room, apertures.as_slice());
                self.add("room for 4,096 points", lent, text.as_bytes());
            }
        }
        // The whole room in strokes of 4,096 points, and an entry less.
        let stroke = format!("D02*{}", "D01*".repeat(4_095));
        for more in ["", "D02*", "D02*D01*", "D01*"] {
            for room in [LARGEST_ROOM, LARGEST_ROOM - 1] {
                let text = format!("{LINES}D10*{}{more}M02*", stroke.repeat(8));
                let lent = (1, room, apertures.as_slice());
                self.add("the largest room", lent, text.as_bytes());
            }
        }
        let strokes = "D02*D01*\n".repeat(16_384);
        for more in ["", "D02*D01*"] {
            let text = format!("{LINES}D10*{strokes}{more}M02*");
            let lent = (1, LARGEST_ROOM, apertures.as_slice());
            self.add("the largest room", lent, text.as_bytes());
        }
    }

    /// A D01 with every set of faults, so that their order shows.
    fn faults_together(&mut self) {
        for faults in 0..64 {
            let has = |fault: u32| faults >> fault & 1 == 1;
            // Without a point or an aperture there is no stroke that is too long.
            if has(2) && (has(0) || has(1)) {
                continue;
            }
            let mut text = LINES.to_string();
            text += if has(1) { "" } else { "D11*" };
            text += if has(0) { "" } else { "X1Y1D02*" };
            text += &if has(2) {
                "D01*".repeat(4_095)
            } else {
                String::new()
            };
            let place = text.len();
            text += if has(3) { "X1Y262145D01" } else { "X1Y2D01" };
            text += if has(5) { " *" } else { "*" };
            let room = match (has(2), has(4)) {
                (true, true) => 8_192,
                (true, false) => 8_194,
                (false, true) => 3,
                (false, false) => 4,
            };
            let lent = (1, room, [11].as_slice());
            self.add("faults together", lent, format!("{text}M02*").as_bytes());
            self.add("faults together", lent, text.as_bytes());
            self.add("faults together", lent, &text.as_bytes()[..text.len() - 1]);
            self.add("faults together", lent, &text.as_bytes()[..place + 3]);
        }
        // The like for D02 and a choice.
        for text in ["X262145D02", "D42", "D12", "X262145D02 ", "D42 "] {
            for end in ["", "*", "*M02*"] {
                for before in ["", "D11*X1D02*", "D11*X1D02*X2D01*"] {
                    let file = format!("{LINES}{before}{text}{end}");
                    let lent = (1, 4, [11].as_slice());
                    self.add("faults together", lent, file.as_bytes());
                }
            }
        }
    }

    /// Every room up to what is needed, and more.
    fn rooms(&mut self) {
        for commands in [
            "D10*D02*X1D01*D02*X2D01*X3D01*D02*X4D01*X5D01*X6D01*M02*",
            "D10*D02*X1D01*D11*X2D01*D10*X3D01*Y1D01*M02*",
            "D10*D02*X1D01*X2D01*X3D01*X4D01*X5D01*D10*D01*M02*M02*",
            "D10*X1D02*X2D02*M02*",
            "D10*X1D02*X2D01",
        ] {
            let file = format!("{LINES}{commands}");
            for room in 0..=22 {
                self.add("every room", (1, room, &[10, 11]), file.as_bytes());
            }
        }
    }

    fn choices(&mut self) {
        let all = all_apertures();
        for number in 10..=99 {
            let others: Vec<u64> = all.iter().copied().filter(|&a| a != number).collect();
            let open = format!("{LINES}D10*D02*D01*D{number}*X1D01*M02*");
            let closed = format!("{LINES}D{number}*D02*D01*M02*");
            self.add("a choice, all in use", (1, 50, &all), open.as_bytes());
            self.add("a choice, all in use", (1, 50, &all), closed.as_bytes());
            self.add("a choice, none in use", (1, 50, &[]), closed.as_bytes());
            self.add(
                "a choice, all others in use",
                (1, 50, &others),
                open.as_bytes(),
            );
            self.add(
                "a choice, all others in use",
                (1, 50, &others),
                closed.as_bytes(),
            );
            if (11..=41).contains(&number) {
                self.add(
                    "a choice, one in use",
                    (1, 50, &[number]),
                    closed.as_bytes(),
                );
                self.add(
                    "a choice, two in use",
                    (1, 50, &[number, 10]),
                    open.as_bytes(),
                );
            }
        }
        for text in [
            "D10*D10*D02*D01*M02*",
            "D10*D02*D01*D10*M02*",
            "D10*D02*D01*D10*D01*D10*D01*M02*",
            "D10*D02*D01*D11*D10*D01*M02*",
            "D10*D02*D01*D02*D11*D01*D02*D10*M02*",
            "D02*D10*D01*D11*M02*",
            "X1Y1D02*X2D02*D10*X3D01*D11*X4D01*D02*D01*M02*",
            "D02*D01*M02*",
            "D01*M02*",
            "D10*D01*M02*",
        ] {
            self.usual("choices in a row", format!("{LINES}{text}").as_bytes());
        }
    }

    fn units(&mut self) {
        let sound = format!("{LINES}{COMMANDS}");
        let faulty = format!("{LINES}{BEFORE}D05*");
        let files = [sound.as_str(), "", "\n", "#", "%FSLAX36Y36", LINES, &faulty];
        for n in [
            0,
            1,
            2,
            999_999,
            1_000_000,
            1_000_001,
            1_000_002,
            2_000_000,
            1 << 20,
            (1 << 31) - 1,
            1 << 31,
            (1 << 32) - 1,
            1 << 32,
            (1 << 32) + 1,
            (1 << 32) + 1_000_000,
            (1 << 63) - 1,
            1 << 63,
            (1 << 63) + 1,
            u64::MAX - 1,
            u64::MAX,
        ] {
            for file in files {
                self.add("N", (n, 100, &[10, 11]), file.as_bytes());
            }
        }
    }

    fn comments(&mut self) {
        for byte in 0..=255u8 {
            let file = [
                LINES.as_bytes(),
                b"D10*D02*G04",
                &[byte],
                b"*X1D01*G04 ",
                &[byte, byte],
                b"M02*M02*",
            ]
            .concat();
            self.usual("comments", &file);
        }
        for length in [1, 2, 100, 255, 256, 4_095, 4_096, 4_097, 70_000] {
            for end in ["", "*", "*M02*"] {
                let file = format!("{LINES}{BEFORE}G04{}{end}", "M02\n".repeat(length / 4 + 1));
                self.usual("long comments", file.as_bytes());
            }
        }
    }

    /// Two chunks at every place, with empty ones, and single bytes.
    fn splits(&mut self) {
        let file = format!("{LINES}{COMMANDS}").into_bytes();
        let short = format!("{LINES}{BEFORE}X1Y2D0").into_bytes();
        let after = format!("{LINES}{BEFORE}M02*\r\n\0").into_bytes();
        for file in [&file, &short, &after] {
            for place in 0..=file.len() {
                let rest = file.len() - place;
                for chunks in [vec![place], vec![0, place, 0, 0, rest.min(1), 0]] {
                    self.usual("split at every place", file);
                    self.cases.last_mut().expect("one was added").chunks = chunks;
                }
            }
            self.usual("in single bytes", file);
            self.cases.last_mut().expect("one was added").chunks = vec![1; file.len()];
            self.usual("in single bytes", file);
            let chunks = [1, 0, 0].repeat(file.len());
            self.cases.last_mut().expect("one was added").chunks = chunks;
        }
    }

    /// Up to 1 MiB.
    fn large(&mut self) {
        const MIB: usize = 1 << 20;
        let all = all_apertures();
        let lent = (62_500, LARGEST_ROOM, all.as_slice());
        let mut files = vec![long(700_000), long(MIB - 200)];
        for (before, piece, after) in [
            ("D10*D02*G04", "D01", "*D01*M02*"),
            ("D10*D02*G04", "D01", ""),
            ("X", "0", "D02*M02*"),
            ("", "G01*\r\n", "M02*"),
            ("D10*D02*", "D02*", "D01*M02*"),
            ("M02*", "\r\n", ""),
            ("M02*", "\r\n", " "),
            ("", "\n", ""),
        ] {
            let room = MIB - LINES.len() - before.len() - after.len();
            let middle = piece.repeat(room / piece.len());
            files.push(format!("{LINES}{before}{middle}{after}").into_bytes());
        }
        for file in files {
            self.add("about 1 MiB", lent, &file);
        }
    }

    fn random(&mut self) {
        let sequence = &mut self.sequence;
        let n = match sequence.below(4) {
            0 => 1 + sequence.below(1_000_000),
            1 => 1 + sequence.below(20),
            _ => pick(
                sequence,
                &[
                    1, 1, 2, 3, 4, 10, 100, 1_000, 3_814, 62_500, 999_999, 1_000_000,
                ],
            ),
        };
        let mut apertures = some_apertures(sequence);
        let mut pieces = sound(sequence, n, &apertures);
        let needed = |pieces: &[Vec<u8>], apertures: &[u64]| {
            let answer = answer(Request {
                n,
                room: LARGEST_ROOM,
                apertures,
                file: &pieces.concat(),
            });
            let entries = answer.strokes.iter().map(|s| 2 * s.points.len());
            entries.sum::<usize>()
        };
        let mut room = match sequence.below(3) {
            0 => LARGEST_ROOM,
            1 => needed(&pieces, &apertures) + sequence.below(3) as usize,
            _ => 2_000,
        };
        let kind = match sequence.below(16) {
            0..=5 => "random, sound",
            6 => {
                let needed = needed(&pieces, &apertures);
                room = match sequence.below(2) {
                    0 => needed.saturating_sub(1 + sequence.below(4) as usize),
                    _ => up_to(sequence, needed),
                };
                "random, little room"
            }
            7 => {
                if !apertures.is_empty() {
                    let place = sequence.below(apertures.len() as u64) as usize;
                    apertures.remove(place);
                }
                "random, an aperture removed"
            }
            8 | 9 => {
                for _ in 0..2 + sequence.below(3) {
                    damage(sequence, &mut pieces);
                }
                "random, several faults"
            }
            _ => damage(sequence, &mut pieces),
        };
        self.add(kind, (n, room, &apertures), &pieces.concat());
    }
}

/// The first of a list that a seed fixes: some thousand made ones in a mixture, then
/// the large ones, and then random ones.
pub fn cases(count: usize, seed: u64) -> Vec<Case> {
    let mut maker = Maker {
        sequence: Sequence::new(seed),
        cases: Vec::new(),
    };
    maker.damaged_files();
    maker.cuts();
    maker.spellings();
    maker.headers();
    maker.omitted_axes();
    maker.ties();
    maker.range();
    maker.faults_together();
    maker.rooms();
    maker.choices();
    maker.units();
    maker.comments();
    maker.splits();
    for _ in 0..1_000 {
        maker.random();
    }
    shuffle(&mut maker.sequence, &mut maker.cases);
    if maker.cases.len() < count {
        maker.most_points();
        maker.large();
    }
    while maker.cases.len() < count {
        maker.random();
    }
    maker.cases.truncate(count);
    maker.cases
}

/// How many cases there are of each kind, in the alphabet's order.
pub fn counts(cases: &[Case]) -> Vec<(&'static str, usize)> {
    let mut kinds: Vec<&'static str> = cases.iter().map(|case| case.kind).collect();
    kinds.sort();
    kinds
        .chunk_by(|one, two| one == two)
        .map(|group| (group[0], group.len()))
        .collect()
}

pub fn kinds(count: usize, seed: u64) -> String {
    let told: Vec<String> = counts(&cases(count, seed))
        .iter()
        .map(|(kind, count)| format!("  {count} {kind}\n"))
        .collect();
    format!("{count} files\n{}", told.concat())
}

/// A sound file of about so many bytes with long strokes, for a benchmark: in range
/// where N is 62,500, apertures 10 to 13 in turn.
pub fn long(bytes: usize) -> Vec<u8> {
    const END: &str = "M02*\n";
    let mut sequence = Sequence::new(1);
    let mut plot = |end: &str| {
        let mut number = || {
            let least = 10u64.pow(5 + sequence.below(3) as u32);
            let number = least + sequence.below(9 * least);
            let sign = pick(&mut sequence, &["", "-"]);
            format!("{sign}{number}")
        };
        format!("X{}Y{}{end}*\n", number(), number())
    };
    let mut file = LINES.to_string();
    let mut lines = 0;
    loop {
        let stroke = lines / 4_000;
        let mut line = plot("D01");
        if lines % 4_000 == 0 {
            line = format!("D{}*\n{}{line}", 10 + stroke % 4, plot("D02"));
        }
        if file.len() + line.len() + END.len() > bytes {
            break;
        }
        file += &line;
        lines += 1;
    }
    (file + END).into_bytes()
}

#[cfg(test)]
mod tests {
    use super::*;
    use crate::gerber::REASONS;

    #[test]
    fn a_seed_gives_one_list() {
        let bytes = |count, seed| -> Vec<u8> {
            cases(count, seed)
                .iter()
                .flat_map(|case| [case.words().join(" ").as_bytes(), &case.file].concat())
                .collect()
        };
        let all = bytes(300, 7);
        assert_eq!(all, bytes(300, 7));
        assert_ne!(all, bytes(300, 8));
        assert!(all.starts_with(&bytes(200, 7)));
    }

    #[test]
    fn all_can_be_lent() {
        for case in cases(20_000, 1) {
            let [_, _, _, chunks] = case.words();
            assert!(case.chunks.iter().sum::<usize>() <= case.file.len());
            assert!(!case.chunks.is_empty() && chunks.len() <= 100_000);
            assert!(case.file.len() <= 1 << 20);
            assert!(case.room <= LARGEST_ROOM);
            assert!(case.apertures.iter().all(|a| (10..=41).contains(a)));
            let mut apertures = case.apertures.clone();
            apertures.sort();
            apertures.dedup();
            assert_eq!(apertures.len(), case.apertures.len());
        }
    }

    #[test]
    fn every_reason_occurs() {
        let cases = cases(20_000, 1);
        let answers: Vec<_> = cases.iter().map(|case| answer(case.request())).collect();
        for (number, reason) in REASONS {
            let count = answers
                .iter()
                .filter(|answer| answer.refusal.as_ref().is_some_and(|r| r.reason == reason))
                .count();
            assert!(count >= 30, "{count} of {number}, {reason}");
        }
        let done = answers.iter().filter(|answer| answer.refusal.is_none());
        let strokes = done.filter(|answer| answer.strokes.len() > 1).count();
        assert!(strokes >= 2_000, "{strokes}");
    }

    /// A kind has the answers that its name says, and no other.
    #[test]
    fn kinds_are_what_they_say() {
        for case in cases(20_000, 2) {
            let answer = answer(case.request());
            let number = answer.refusal.as_ref().map_or(0, |refusal| refusal.number);
            let right = match case.kind {
                "whole" | "halves" | "line ends" | "random, sound" => number == 0,
                "cut off after digits" => number == 14,
                "ends of the range" => [0, 3].contains(&number),
                "every room" => [0, 7, 14].contains(&number),
                "N" => (number == 1) == !(1..=1_000_000).contains(&case.n),
                "a choice, none in use" => number == 6,
                _ => true,
            };
            assert!(right, "{}: {number}, {:?}", case.kind, case.words());
        }
    }

    #[test]
    fn long_files() {
        for bytes in [1_000, 100_000, 700_000] {
            let file = long(bytes);
            assert!(file.len() <= bytes && file.len() > bytes - 80);
            let answer = answer(Request {
                n: 62_500,
                room: LARGEST_ROOM,
                apertures: &[10, 11, 12, 13],
                file: &file,
            });
            assert_eq!(answer.refusal, None);
            for (number, stroke) in answer.strokes.iter().enumerate() {
                assert_eq!(stroke.aperture, 10 + number as u64 % 4);
                assert!(stroke.points.len() == 4_001 || number + 1 == answer.strokes.len());
            }
        }
    }
}
