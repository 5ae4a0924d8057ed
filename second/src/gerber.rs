//! A Gerber file read into strokes: document 02's W4, over the whole file at once. At
//! each place the command is found by trying the allowed forms on the text there.

use std::fmt;

/// "the lines %FSLAX36Y36*% and %MOMM*% first, in that order, once each"
const LINES: [&[u8]; 2] = [b"%FSLAX36Y36*%", b"%MOMM*%"];

/// "N lent, from 1 to 1,000,000"
const LARGEST_N: u64 = 1_000_000;
/// "1 to 4,096 points; each coordinate from -262,144 to 262,144"
const MOST_POINTS: usize = 4_096;
const FARTHEST: i64 = 262_144;

/// What is lent, and the file.
#[derive(Clone, Copy)]
pub struct Request<'a> {
    pub n: u64,
    /// How many entries the lent path has.
    pub room: usize,
    /// The numbers of the apertures in use.
    pub apertures: &'a [u64],
    pub file: &'a [u8],
}

#[derive(Clone, PartialEq, Eq, Debug)]
pub struct Stroke {
    pub aperture: u64,
    /// The index of its first entry in the lent path.
    pub first: usize,
    /// "bytes used": those of the file up to the end of the command that ends it.
    pub used: usize,
    pub points: Vec<(i64, i64)>,
}

#[derive(Clone, PartialEq, Eq, Debug)]
pub struct Refusal {
    pub number: u8,
    pub place: usize,
    /// One of REASONS.
    pub reason: &'static str,
}

#[derive(Clone, PartialEq, Eq, Debug)]
pub struct Answer {
    pub strokes: Vec<Stroke>,
    pub refusal: Option<Refusal>,
}

/// Each line is ended.
impl fmt::Display for Answer {
    fn fmt(&self, f: &mut fmt::Formatter) -> fmt::Result {
        for stroke in &self.strokes {
            let length = 2 * stroke.points.len();
            write!(f, "stroke {} {}", stroke.aperture, stroke.first)?;
            write!(f, " {length} {}", stroke.used)?;
            for (x, y) in &stroke.points {
                write!(f, " {x},{y}")?;
            }
            writeln!(f)?;
        }
        match &self.refusal {
            Some(refusal) => writeln!(f, "refused {} {}", refusal.number, refusal.place),
            None => writeln!(f, "done"),
        }
    }
}

/// Why a file is refused, with the number.
pub const REASONS: [(u8, &str); 18] = [
    (1, "N outside its range"),
    (14, "something else for the first line"),
    (14, "something else for the second line"),
    (14, "cut off in or before the first line"),
    (14, "cut off in or before the second line"),
    (14, "another command"),
    (14, "another command, and no * after it"),
    (14, "an allowed command cut off"),
    (14, "M02 is missing"),
    (14, "something after M02"),
    (14, "D01 with no point yet"),
    (6, "D01 with no aperture chosen"),
    (6, "a choice outside 10 to 41"),
    (6, "a choice of an empty aperture"),
    (2, "a point too many"),
    (3, "D01 outside the range"),
    (3, "D02 outside the range"),
    (7, "no room"),
];

fn refused(reason: &'static str, place: usize) -> Refusal {
    let known = REASONS.iter().find(|(_, known)| *known == reason);
    let (number, reason) = *known.expect("all reasons are listed");
    Refusal {
        number,
        place,
        reason,
    }
}

#[derive(Clone, Copy, PartialEq, Eq, Debug)]
enum Command {
    Comment,
    G01,
    Choice(u64),
    D01(Axes),
    D02(Axes),
    M02,
}

/// The numbers of x and y, in nanometres, where they are there.
#[derive(Clone, Copy, PartialEq, Eq, Debug)]
struct Axes {
    x: Option<i64>,
    y: Option<i64>,
}

/// "Numbers have 1 to 9 digits, perhaps a sign"
fn number(text: &[u8]) -> Option<i64> {
    let (sign, digits) = match text {
        [b'+', digits @ ..] => (1, digits),
        [b'-', digits @ ..] => (-1, digits),
        digits => (1, digits),
    };
    if !(1..=9).contains(&digits.len()) || !digits.iter().all(u8::is_ascii_digit) {
        return None;
    }
    let size: i64 = std::str::from_utf8(digits).ok()?.parse().ok()?;
    Some(sign * size)
}

/// Nothing, X and a number, Y and a number, or X and a number and then Y and a number.
fn axes(text: &[u8]) -> Option<Axes> {
    if text.is_empty() {
        return Some(Axes { x: None, y: None });
    }
    if let Some(x) = text.strip_prefix(b"X").and_then(number) {
        return Some(Axes {
            x: Some(x),
            y: None,
        });
    }
    if let Some(y) = text.strip_prefix(b"Y").and_then(number) {
        return Some(Axes {
            x: None,
            y: Some(y),
        });
    }
    let middle = text.iter().position(|&byte| byte == b'Y')?;
    let x = text[..middle].strip_prefix(b"X").and_then(number)?;
    let y = text[middle..].strip_prefix(b"Y").and_then(number)?;
    Some(Axes {
        x: Some(x),
        y: Some(y),
    })
}

/// The allowed command that is this whole text, its `*` included.
fn command(text: &[u8]) -> Option<Command> {
    let text = text.strip_suffix(b"*")?;
    if text.contains(&b'*') {
        return None;
    }
    if text.starts_with(b"G04") {
        return Some(Command::Comment);
    }
    if text == b"G01" {
        return Some(Command::G01);
    }
    if text == b"M02" {
        return Some(Command::M02);
    }
    if let Some(axes) = text.strip_suffix(b"D01").and_then(axes) {
        return Some(Command::D01(axes));
    }
    if let Some(axes) = text.strip_suffix(b"D02").and_then(axes) {
        return Some(Command::D02(axes));
    }
    (10..=99)
        .find(|nn| text == format!("D{nn}").as_bytes())
        .map(Command::Choice)
}

/// This text without a `*` begins an allowed command: some end makes it one. Whatever
/// is missing of a command, the end of one of these has it.
fn begins(text: &[u8]) -> bool {
    let samples: [&[u8]; 5] = [b"G04*", b"G01*", b"M02*", b"D10*", b"X0Y0D01*"];
    samples.iter().any(|sample| {
        (0..sample.len()).any(|from| command(&[text, &sample[from..]].concat()).is_some())
    })
}

/// "CR and LF outside commands are skipped"
fn skip_line_ends(file: &[u8], mut place: usize) -> usize {
    while matches!(file.get(place), Some(b'\r' | b'\n')) {
        place += 1;
    }
    place
}

/// "a coordinate n becomes floor((2n+N)/(2N))"
fn convert(number: i64, n: u64) -> i64 {
    let n = n as i64;
    (2 * number + n).div_euclid(2 * n)
}

fn in_range((x, y): (i64, i64)) -> bool {
    x.abs() <= FARTHEST && y.abs() <= FARTHEST
}

/// What the commands have left so far.
#[derive(Default)]
struct State {
    /// "An omitted axis (or both) keeps its last number, 0 at first."
    x: i64,
    y: i64,
    /// The current point, once a D02 was taken.
    point: Option<(i64, i64)>,
    chosen: Option<u64>,
    open: Option<Vec<(i64, i64)>>,
    /// The strokes that were given.
    strokes: Vec<Stroke>,
}

impl State {
    /// How many entries of the lent path are handed out.
    fn handed_out(&self) -> usize {
        self.strokes.iter().map(|s| 2 * s.points.len()).sum()
    }

    /// Takes the axes' numbers, and gives the point in our units.
    fn go(&mut self, axes: Axes, n: u64) -> (i64, i64) {
        self.x = axes.x.unwrap_or(self.x);
        self.y = axes.y.unwrap_or(self.y);
        (convert(self.x, n), convert(self.y, n))
    }

    fn end_stroke(&mut self, used: usize) {
        let first = self.handed_out();
        if let Some(points) = self.open.take() {
            let aperture = self.chosen.expect("a stroke has an aperture");
            self.strokes.push(Stroke {
                aperture,
                first,
                used,
                points,
            });
        }
    }
}

/// Reads the file, and leaves in the state all strokes that are given.
fn read(request: Request, state: &mut State) -> Result<(), Refusal> {
    let Request {
        n,
        room,
        apertures,
        file,
    } = request;
    if !(1..=LARGEST_N).contains(&n) {
        return Err(refused("N outside its range", 0));
    }

    let mut place = 0;
    for (line, other, cut_off) in [
        (
            LINES[0],
            "something else for the first line",
            "cut off in or before the first line",
        ),
        (
            LINES[1],
            "something else for the second line",
            "cut off in or before the second line",
        ),
    ] {
        place = skip_line_ends(file, place);
        let rest = &file[place..];
        if line.starts_with(rest) && rest != line {
            return Err(refused(cut_off, file.len()));
        }
        if !rest.starts_with(line) {
            return Err(refused(other, place));
        }
        place += line.len();
    }

    loop {
        // The start of the command, and the end behind its `*`.
        let start = skip_line_ends(file, place);
        let rest = &file[start..];
        if rest.is_empty() {
            return Err(refused("M02 is missing", file.len()));
        }
        let Some(star) = rest.iter().position(|&byte| byte == b'*') else {
            return Err(if begins(rest) {
                refused("an allowed command cut off", file.len())
            } else {
                refused("another command, and no * after it", start)
            });
        };
        let Some(command) = command(&rest[..=star]) else {
            return Err(refused("another command", start));
        };
        place = start + star + 1;

        match command {
            Command::Comment | Command::G01 => {}
            Command::Choice(aperture) => {
                if !(10..=41).contains(&aperture) {
                    return Err(refused("a choice outside 10 to 41", start));
                }
                if !apertures.contains(&aperture) {
                    return Err(refused("a choice of an empty aperture", start));
                }
                state.end_stroke(place);
                state.chosen = Some(aperture);
            }
            Command::D01(axes) => {
                let Some(from) = state.point else {
                    return Err(refused("D01 with no point yet", start));
                };
                if state.chosen.is_none() {
                    return Err(refused("D01 with no aperture chosen", start));
                }
                let to = state.go(axes, n);
                let mut points = state.open.take().unwrap_or(vec![from]);
                points.push(to);
                if points.len() > MOST_POINTS {
                    return Err(refused("a point too many", start));
                }
                if !in_range(to) {
                    return Err(refused("D01 outside the range", start));
                }
                if state.handed_out() + 2 * points.len() > room {
                    return Err(refused("no room", start));
                }
                state.point = Some(to);
                state.open = Some(points);
            }
            Command::D02(axes) => {
                let to = state.go(axes, n);
                if !in_range(to) {
                    return Err(refused("D02 outside the range", start));
                }
                state.end_stroke(place);
                state.point = Some(to);
            }
            Command::M02 => {
                state.end_stroke(place);
                break;
            }
        }
    }

    place = skip_line_ends(file, place);
    if place < file.len() {
        return Err(refused("something after M02", place));
    }
    Ok(())
}

/// All that the calls on a file give: the strokes, and the refusal that all further
/// ones repeat.
pub fn answer(request: Request) -> Answer {
    let mut state = State::default();
    let refusal = read(request, &mut state).err();
    Answer {
        strokes: state.strokes,
        refusal,
    }
}

#[cfg(test)]
mod tests {
    use super::*;

    const HEAD: &str = "%FSLAX36Y36*%%MOMM*%";

    fn told_with(n: u64, room: usize, apertures: &[u64], file: &[u8]) -> String {
        let request = Request {
            n,
            room,
            apertures,
            file,
        };
        answer(request).to_string()
    }

    /// The answer to these commands, N being 1 and apertures 10 and 41 in use. Places
    /// count from the start of the header, which has 20 bytes.
    fn told(commands: &str) -> String {
        told_with(1, 100, &[10, 41], format!("{HEAD}{commands}").as_bytes())
    }

    fn told_n(n: u64, commands: &str) -> String {
        told_with(n, 100, &[10], format!("{HEAD}{commands}").as_bytes())
    }

    fn told_room(room: usize, commands: &str) -> String {
        told_with(1, room, &[10], format!("{HEAD}{commands}").as_bytes())
    }

    fn told_file(file: &str) -> String {
        told_with(1, 100, &[10, 41], file.as_bytes())
    }

    #[test]
    fn the_smallest_files() {
        assert_eq!(HEAD.len(), 20);
        assert_eq!(told("M02*"), "done\n");
        assert_eq!(told("M02*\r\n\n"), "done\n");
        assert_eq!(told_file("%FSLAX36Y36*%\n%MOMM*%\nM02*"), "done\n");
        assert_eq!(
            told_file("\n\r%FSLAX36Y36*%\r\n\r\n%MOMM*%\rM02*\n"),
            "done\n"
        );
    }

    #[test]
    fn a_stroke_by_hand() {
        // 20 D10* 24 X1Y2D02* 32 X3Y4D01* 40 M02* 44
        assert_eq!(
            told("D10*X1Y2D02*X3Y4D01*M02*"),
            "stroke 10 0 4 44 1,2 3,4\ndone\n"
        );
        // Line ends between; 20 LF 21 D10* 25 CRLF 27 X1Y2D02* 35 LF 36 X3Y4D01* 44 LF 45 M02* 49
        assert_eq!(
            told("\nD10*\r\nX1Y2D02*\nX3Y4D01*\nM02*\n"),
            "stroke 10 0 4 49 1,2 3,4\ndone\n"
        );
    }

    #[test]
    fn what_ends_a_stroke() {
        // 20 D10* 24 D02* 28 X1D01* 34 D02* 38 Y1D01* 44 D41* 48 X2D01* 54 M02* 58
        assert_eq!(
            told("D10*D02*X1D01*D02*Y1D01*D41*X2D01*M02*"),
            "stroke 10 0 4 38 0,0 1,0\nstroke 10 4 4 48 1,0 1,1\nstroke 41 8 4 58 1,1 2,1\ndone\n"
        );
        // A choice of the aperture already chosen too.
        assert_eq!(
            told("D10*D02*X1D01*D10*X2D01*M02*"),
            "stroke 10 0 4 38 0,0 1,0\nstroke 10 4 4 48 1,0 2,0\ndone\n"
        );
        // A comment and G01 do not.
        assert_eq!(
            told("D10*D02*X1D01*G01*G04*X2D01*M02*"),
            "stroke 10 0 6 52 0,0 1,0 2,0\ndone\n"
        );
        // With none open nothing is ended.
        assert_eq!(told("D10*D02*D02*D41*D10*M02*"), "done\n");
    }

    #[test]
    fn axes_that_are_omitted() {
        assert_eq!(
            told("D10*X5Y6D02*X7D01*Y8D01*D01*M02*"),
            "stroke 10 0 8 52 5,6 7,6 7,8 7,8\ndone\n"
        );
        // 0 at first.
        assert_eq!(
            told("D10*Y6D02*X7D01*M02*"),
            "stroke 10 0 4 40 0,6 7,6\ndone\n"
        );
        assert_eq!(told("D10*D02*D01*M02*"), "stroke 10 0 4 36 0,0 0,0\ndone\n");
    }

    /// The number is kept, and not what it became.
    #[test]
    fn the_files_number_is_kept() {
        assert_eq!(
            told_n(10, "D10*X14Y-16D02*Y0D01*X-6D01*M02*"),
            "stroke 10 0 6 52 1,-2 1,0 -1,0\ndone\n"
        );
    }

    #[test]
    fn numbers() {
        assert_eq!(number(b"0"), Some(0));
        assert_eq!(number(b"+12"), Some(12));
        assert_eq!(number(b"-12"), Some(-12));
        assert_eq!(number(b"-0"), Some(0));
        assert_eq!(number(b"000000012"), Some(12));
        assert_eq!(number(b"-999999999"), Some(-999_999_999));
        for text in [
            "",
            "+",
            "-",
            "+-1",
            "--1",
            "1-",
            "1+",
            " 1",
            "1 ",
            "1.0",
            "1e2",
            "0000000001",
            "1234567890",
            "+1234567890",
            "a",
            "1a",
            "0x1",
            "１",
        ] {
            assert_eq!(number(text.as_bytes()), None, "{text:?}");
        }
    }

    #[test]
    fn conversion() {
        // floor((2n+N)/(2N)) by hand.
        assert_eq!(convert(0, 1), 0);
        assert_eq!(convert(7, 1), 7);
        assert_eq!(convert(-7, 1), -7);
        // N = 2: halves go up.
        assert_eq!(convert(1, 2), 1);
        assert_eq!(convert(-1, 2), 0);
        assert_eq!(convert(3, 2), 2);
        assert_eq!(convert(-3, 2), -1);
        // N = 3: no halves.
        assert_eq!(convert(1, 3), 0);
        assert_eq!(convert(2, 3), 1);
        assert_eq!(convert(-1, 3), 0);
        assert_eq!(convert(-2, 3), -1);
        // N = 10.
        assert_eq!(convert(4, 10), 0);
        assert_eq!(convert(5, 10), 1);
        assert_eq!(convert(-5, 10), 0);
        assert_eq!(convert(-6, 10), -1);
        assert_eq!(convert(-15, 10), -1);
        assert_eq!(convert(-16, 10), -2);
        assert_eq!(convert(499_999, 1_000_000), 0);
        assert_eq!(convert(500_000, 1_000_000), 1);
        assert_eq!(convert(-500_000, 1_000_000), 0);
        assert_eq!(convert(-500_001, 1_000_000), -1);
        assert_eq!(convert(999_999_999, 1_000_000), 1_000);
    }

    #[test]
    fn n_outside_its_range() {
        for n in [0, 1_000_001, u64::MAX] {
            assert_eq!(told_n(n, "M02*"), "refused 1 0\n");
            assert_eq!(told_with(n, 0, &[], b""), "refused 1 0\n");
            assert_eq!(told_with(n, 0, &[], b"\n#"), "refused 1 0\n");
        }
        assert_eq!(told_n(1_000_000, "M02*"), "done\n");
        assert_eq!(told_n(1, "M02*"), "done\n");
    }

    #[test]
    fn headers_that_are_none() {
        for (file, place) in [
            ("", 0),
            ("\n\r", 2),
            ("%", 1),
            ("\n%FSLAX36Y36*", 13),
            ("%FSLAX36Y36*%", 13),
            ("%FSLAX36Y36*%\n", 14),
            ("%FSLAX36Y36*%\n%MOM", 18),
            ("%FSLAX36Y36*%\n%MOMM*", 20),
            ("%FSLAX36Y36*%\n%MOMM*%", 21),
            ("%FSLAX36Y36*%\n%MOMM*%\n", 22),
            // Something else, at its start.
            ("\nM02*", 1),
            ("\n%MOMM*%%FSLAX36Y36*%M02*", 1),
            ("%FSLAX46Y46*%", 0),
            ("\r%FSLAX36Y36*\n%%MOMM*%M02*", 1),
            ("%FSLAX36Y36 *%", 0),
            ("%fslax36y36*%", 0),
            (" %FSLAX36Y36*%", 0),
            ("G04 first*%FSLAX36Y36*%%MOMM*%M02*", 0),
            ("%FSLAX36Y36*% \n%MOMM*%M02*", 13),
            ("%FSLAX36Y36*%\n%MOIN*%M02*", 14),
            ("%FSLAX36Y36*%%FSLAX36Y36*%%MOMM*%M02*", 13),
            ("%FSLAX36Y36*%G04*%MOMM*%M02*", 13),
            ("%FSLAX36Y36*%\r\n%MOMM%*M02*", 15),
            // A third line.
            ("%FSLAX36Y36*%%MOMM*%\n%MOMM*%M02*", 21),
            ("%FSLAX36Y36*%%MOMM*%%", 20),
            ("%FSLAX36Y36*%%MOMM*%%LPD*%M02*", 20),
        ] {
            let answer = format!("refused 14 {place}\n");
            assert_eq!(told_file(file), answer, "{file:?}");
        }
    }

    /// All at place 20, their start, whether a `*` comes or not.
    #[test]
    fn other_commands() {
        for text in [
            "G1",
            "G02",
            "G00",
            "G010",
            "G01X1D01",
            "G05",
            "G4",
            "g01",
            "M2",
            "M00",
            "M020",
            "m02",
            "D00",
            "D03",
            "D05",
            "D09",
            "D010",
            "D001",
            "D100",
            "D999",
            "D1X",
            "d10",
            "D+10",
            "X1X2D01",
            "Y1X2D01",
            "Y1Y2D01",
            "X1Y2X3D01",
            "X1D10",
            "X1Y1D03",
            "X1Y1D1",
            "X1Y1D001",
            "XD01",
            "X+D01",
            "X+-1D01",
            "X-Y1D01",
            "XY1D01",
            "X1YD01",
            "X1Y-D01",
            "X1234567890D01",
            "X1Y0000000001D01",
            "X1 D01",
            "X 1D01",
            " X1D01",
            "X1\nD01",
            "X1\rY1D01",
            "D1\n0",
            "M0\n2",
            "G0\n4",
            "X1,Y1D01",
            "X1.5D01",
            "x1D01",
            "X1y1D01",
            "X1I1D01",
            "X1Y2D01D02",
            "G01 ",
            "M02 ",
            "D10 ",
            "%",
            "%LPD",
            "\0",
            "0",
            "TF",
            "+",
            ";",
            "é",
        ] {
            for end in ["", "*", "*M02*", "\nM02*"] {
                let file = format!("{text}{end}");
                assert_eq!(told(&file), "refused 14 20\n", "{file:?}");
            }
        }
        // A `*` alone, and after a command.
        assert_eq!(told("*M02*"), "refused 14 20\n");
        assert_eq!(told("G01**M02*"), "refused 14 24\n");
        // Those that end the file only.
        for text in ["X1", "X1Y2", "G0", "D1", "D"] {
            assert_eq!(told(&format!("{text}*M02*")), "refused 14 20\n", "{text}");
        }
        // The command's start, not the line's; strokes before it are given.
        assert_eq!(
            told("D10*D02*D01*D02*\nG02*M02*"),
            "stroke 10 0 4 36 0,0 0,0\nrefused 14 37\n"
        );
        // The open one is not.
        assert_eq!(told("D10*D02*D01*G02*M02*"), "refused 14 32\n");
    }

    #[test]
    fn files_cut_off() {
        for text in [
            "G",
            "G0",
            "G01",
            "G04",
            "G04 anything\n\0",
            "M",
            "M0",
            "M02",
            "D",
            "D0",
            "D01",
            "D02",
            "D1",
            "D9",
            "D99",
            "X",
            "X+",
            "X-1",
            "X123456789",
            "X1Y",
            "X1Y-",
            "X1Y2",
            "X1Y2D",
            "X1Y2D0",
            "X1Y2D01",
            "X1Y2D02",
            "X1D",
            "Y",
            "Y+",
            "Y1",
            "Y1D0",
        ] {
            let answer = format!("refused 14 {}\n", 20 + text.len());
            assert_eq!(told(text), answer, "{text:?}");
        }
        // A missing M02: the end, after line ends too; the open stroke is not given.
        assert_eq!(told("G01*"), "refused 14 24\n");
        assert_eq!(told("D10*D02*D01*\r\n"), "refused 14 34\n");
        assert_eq!(
            told("D10*D02*D01*D02*\n"),
            "stroke 10 0 4 36 0,0 0,0\nrefused 14 37\n"
        );
    }

    /// Every beginning of an allowed command is found to be one.
    #[test]
    fn beginnings() {
        let mut allowed = vec!["G01*".to_string(), "M02*".to_string()];
        allowed.push("G04 D01 % \r\n é\0*".to_string());
        allowed.extend((10..=99).map(|nn| format!("D{nn}*")));
        let numbers = ["0", "+1", "-12", "123456789", "-000000000"];
        for end in ["D01*", "D02*"] {
            allowed.push(end.to_string());
            for one in numbers {
                allowed.push(format!("X{one}{end}"));
                allowed.push(format!("Y{one}{end}"));
                for two in numbers {
                    allowed.push(format!("X{one}Y{two}{end}"));
                }
            }
        }
        for text in &allowed {
            assert!(command(text.as_bytes()).is_some(), "{text:?}");
            for length in 1..text.len() {
                assert!(begins(&text.as_bytes()[..length]), "{text:?}, {length}");
            }
        }
    }

    #[test]
    fn comments() {
        assert_eq!(told("G04*M02*"), "done\n");
        assert_eq!(told("G04 M02\r\n%FSLAX36Y36\nD05é\0*M02*"), "done\n");
        assert_eq!(told("G049*G04G04*M02*"), "done\n");
        let every: Vec<u8> = (0..=255).filter(|&byte| byte != b'*').collect();
        let file = [HEAD.as_bytes(), b"G04", &every, b"*M02*"].concat();
        assert_eq!(told_with(1, 0, &[], &file), "done\n");
    }

    #[test]
    fn after_the_end() {
        assert_eq!(told("M02*\r\n\r\n "), "refused 14 28\n");
        assert_eq!(told("M02*M02*"), "refused 14 24\n");
        assert_eq!(told("M02*\nG04*"), "refused 14 25\n");
        assert_eq!(told("M02**"), "refused 14 24\n");
        assert_eq!(told("M02*\0"), "refused 14 24\n");
        // The stroke that M02 ends is given before that.
        assert_eq!(
            told("D10*D02*D01*M02*\n\nX"),
            "stroke 10 0 4 36 0,0 0,0\nrefused 14 38\n"
        );
    }

    #[test]
    fn no_point_yet() {
        assert_eq!(told("D10*X1Y1D01*M02*"), "refused 14 24\n");
        // Before 6, 3 and 7.
        assert_eq!(told("X999999999D01*M02*"), "refused 14 20\n");
        assert_eq!(told_room(0, "D01*M02*"), "refused 14 20\n");
        // Cut off, it is the file that is told.
        assert_eq!(told("X1Y1D01"), "refused 14 27\n");
    }

    #[test]
    fn apertures() {
        assert_eq!(told("X1D02*X2D01*M02*"), "refused 6 26\n");
        for number in 11..=99 {
            let wanted = match number {
                41 => "done\n",
                _ => "refused 6 24\n",
            };
            assert_eq!(told(&format!("D10*D{number}*M02*")), wanted, "{number}");
        }
        // A refused choice ends no stroke.
        assert_eq!(told("D10*D02*D01*D11*M02*"), "refused 6 32\n");
        assert_eq!(
            told_with(1, 9, &[], b"%FSLAX36Y36*%%MOMM*%D10*"),
            "refused 6 20\n"
        );
        // At the choice, before what comes later.
        assert_eq!(told("D42*D05*"), "refused 6 20\n");
    }

    #[test]
    fn the_range() {
        assert_eq!(
            told("D10*X262144Y-262144D02*X-262144Y262144D01*M02*"),
            "stroke 10 0 4 66 262144,-262144 -262144,262144\ndone\n"
        );
        assert_eq!(told("X262145D02*M02*"), "refused 3 20\n");
        assert_eq!(told("Y-262145D02*M02*"), "refused 3 20\n");
        assert_eq!(told("D10*D02*X-262145D01*M02*"), "refused 3 28\n");
        assert_eq!(told("D10*D02*Y262145D01*M02*"), "refused 3 28\n");
        // N = 2: 524,288.5 units; 524,289 / 2 is a half and goes up, -524,289 / 2 too.
        assert_eq!(told_n(2, "X524288D02*M02*"), "done\n");
        assert_eq!(told_n(2, "X524289D02*M02*"), "refused 3 20\n");
        assert_eq!(told_n(2, "X-524289D02*M02*"), "done\n");
        assert_eq!(told_n(2, "X-524290D02*M02*"), "refused 3 20\n");
        // A refused D02 ends no stroke.
        assert_eq!(told("D10*D02*D01*X999999999D02*M02*"), "refused 3 32\n");
    }

    #[test]
    fn too_many_points() {
        let file = |points: usize, end: &str| {
            format!("{HEAD}D10*D02*{}{end}", "D01*".repeat(points - 1)).into_bytes()
        };
        let told = |room: usize, file: &[u8]| {
            let text = told_with(1, room, &[10], file);
            text.replace(" 0,0", "")
        };
        let used = 28 + 4 * 4_095;
        assert_eq!(
            told(8_192, &file(4_096, "M02*")),
            format!("stroke 10 0 8192 {}\ndone\n", used + 4)
        );
        let refused = format!("refused 2 {used}\n");
        assert_eq!(told(65_536, &file(4_097, "M02*")), refused);
        // Before 3 and 7, and after 14.
        assert_eq!(told(8_192, &file(4_096, "X999999999D01*M02*")), refused);
        assert_eq!(
            told(8_192, &file(4_096, "D05*")),
            format!("refused 14 {used}\n")
        );
        // A stroke ended in between makes two.
        assert_eq!(
            told(8_196, &file(4_096, "D10*D01*M02*")),
            format!(
                "stroke 10 0 8192 {}\nstroke 10 8192 4 {}\ndone\n",
                used + 4,
                used + 12
            )
        );
    }

    #[test]
    fn room() {
        assert_eq!(told_room(3, "D10*D02*D01*M02*"), "refused 7 28\n");
        assert_eq!(
            told_room(4, "D10*D02*D01*M02*"),
            "stroke 10 0 4 36 0,0 0,0\ndone\n"
        );
        assert_eq!(told_room(5, "D10*D02*D01*D01*M02*"), "refused 7 32\n");
        assert_eq!(
            told_room(9, "D10*D02*D01*D01*D02*D01*M02*"),
            "stroke 10 0 6 40 0,0 0,0 0,0\nrefused 7 40\n"
        );
        assert_eq!(
            told_room(10, "D10*D02*D01*D01*D02*D01*M02*"),
            "stroke 10 0 6 40 0,0 0,0 0,0\nstroke 10 6 4 48 0,0 0,0\ndone\n"
        );
        // No room is needed for points that start no stroke.
        assert_eq!(told_room(0, "D10*X1D02*X2D02*M02*"), "done\n");
        // After 6 and 3.
        assert_eq!(told_room(0, "D02*D01*M02*"), "refused 6 24\n");
        assert_eq!(told_room(0, "D10*D02*X262145D01*M02*"), "refused 3 28\n");
    }

    /// 6 before 3, and 3 for a D02 with no aperture chosen.
    #[test]
    fn the_order_of_refusals() {
        assert_eq!(told("D02*X262145D01*M02*"), "refused 6 24\n");
        assert_eq!(told("X262145D02*D01*"), "refused 3 20\n");
        assert_eq!(told("X262145D02"), "refused 14 30\n");
        assert_eq!(told("X1D02*D01"), "refused 14 29\n");
    }

    #[test]
    fn every_reason_has_its_name() {
        for (number, reason) in REASONS {
            assert_eq!(refused(reason, 5).number, number);
        }
    }
}
