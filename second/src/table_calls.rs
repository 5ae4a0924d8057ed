//! Calls over a table of apertures, one after the other: streams of commands,
//! their answers, and the comparison.
//!
//! A command is seven numbers of eight bytes each, lowest byte first: the kind;
//! an aperture's number; w, p, q for a definition, columns, rows, row for a call
//! that draws; the room; the number of path entries. The path follows, four bytes
//! to an entry. Kinds: 0 the empty table again, 1 define, 2 remove, 3 row (the
//! room counts numbers), 4 packed row (bytes), 5 records (records).
//!
//! An answer is the refusal, of eight bytes. A call that draws adds the place and
//! the count, of eight bytes each, and all that was lent as it is then: two bytes
//! to a number, one to a byte, four to a record.

use crate::calls::MOST_QUESTIONS;
use crate::fast::Drawer;
use crate::requests;
use crate::row::{self, Answer, Request};
use crate::setting::Setting;
use crate::table::Table;
use std::fmt;

#[derive(Clone, Copy, Debug, PartialEq, Eq)]
pub enum Kind {
    Start,
    Define,
    Remove,
    Row,
    Packed,
    Records,
}

const KINDS: [Kind; 6] = [
    Kind::Start,
    Kind::Define,
    Kind::Remove,
    Kind::Row,
    Kind::Packed,
    Kind::Records,
];

impl Kind {
    pub fn draws(self) -> bool {
        matches!(self, Kind::Row | Kind::Packed | Kind::Records)
    }

    /// How many bytes one of what is lent has.
    pub fn unit(self) -> usize {
        match self {
            Kind::Row => 2,
            Kind::Packed => 1,
            _ => 4,
        }
    }
}

/// One command. `numbers` are w, p, q, or columns, rows, row.
#[derive(Clone, Debug, PartialEq, Eq)]
pub struct Command {
    pub kind: Kind,
    pub number: u64,
    pub numbers: [u64; 3],
    pub room: usize,
    pub path: Vec<u8>,
}

const HEAD: usize = 7 * 8;

impl Command {
    pub fn to_bytes(&self) -> Vec<u8> {
        let [a, b, c] = self.numbers;
        let entries = self.path.len() as u64 / 4;
        let head = [
            self.kind as u64,
            self.number,
            a,
            b,
            c,
            self.room as u64,
            entries,
        ];
        let head = head.iter().flat_map(|number| number.to_le_bytes());
        head.chain(self.path.iter().copied()).collect()
    }

    /// The first command of a stream, and what follows it.
    fn from_bytes(bytes: &[u8]) -> Result<(Command, &[u8]), String> {
        if bytes.len() < HEAD {
            return Err("the commands break off".to_string());
        }
        let (head, rest) = bytes.split_at(HEAD);
        let numbers: Vec<u64> = head
            .chunks_exact(8)
            .map(|eight| u64::from_le_bytes(eight.try_into().expect("eight bytes")))
            .collect();
        let Some(&kind) = KINDS.get(numbers[0] as usize) else {
            return Err(format!("{} is no kind of command", numbers[0]));
        };
        let length = (numbers[6] as usize).saturating_mul(4);
        if rest.len() < length {
            return Err("the commands break off".to_string());
        }
        let (path, rest) = rest.split_at(length);
        let command = Command {
            kind,
            number: numbers[1],
            numbers: [numbers[2], numbers[3], numbers[4]],
            room: numbers[5] as usize,
            path: path.to_vec(),
        };
        Ok((command, rest))
    }

    pub fn request(&self, setting: Setting) -> Request<'_> {
        let [columns, rows, row] = self.numbers;
        Request {
            setting,
            path: &self.path,
            columns,
            rows,
            row,
        }
    }

    /// What a definition gives.
    pub fn setting(&self) -> Setting {
        let [w, p, q] = self.numbers;
        Setting::new(w, p, q)
    }
}

impl fmt::Display for Command {
    /// The whole command.
    fn fmt(&self, f: &mut fmt::Formatter) -> fmt::Result {
        let [a, b, c] = self.numbers;
        match self.kind {
            Kind::Start => write!(f, "start with the empty table"),
            Kind::Define => write!(f, "define {}: w {a}, p {b}, q {c}", self.number),
            Kind::Remove => write!(f, "remove {}", self.number),
            Kind::Row | Kind::Packed | Kind::Records => {
                let path: Vec<i32> = self
                    .path
                    .chunks_exact(4)
                    .map(|four| i32::from_le_bytes(four.try_into().expect("four bytes")))
                    .collect();
                write!(
                    f,
                    "{:?} with {}: columns {a}, rows {b}, row {c}, room {}, {} entries\n path {path:?}",
                    self.kind,
                    self.number,
                    self.room,
                    path.len()
                )
            }
        }
    }
}

/// What stands in byte i of all that is lent, before the call.
fn pattern(i: usize) -> u8 {
    (37 * (i % 256) + 11) as u8
}

/// What this program answers.
struct Own {
    refusal: u8,
    /// Of a call that draws: its answer, and what was lent, as it is then.
    drawn: Option<(Answer, Vec<u8>)>,
}

impl Own {
    fn to_bytes(&self) -> Vec<u8> {
        let mut bytes = u64::from(self.refusal).to_le_bytes().to_vec();
        if let Some((answer, lent)) = &self.drawn {
            bytes.extend(answer.place.to_le_bytes());
            bytes.extend((answer.count as u64).to_le_bytes());
            bytes.extend(lent);
        }
        bytes
    }
}

/// What answers a stream: a table, and the fast way for where the literal one
/// would take too long.
#[derive(Default)]
struct Answerer {
    table: Table,
    fast: Drawer,
}

impl Answerer {
    /// "Row calls check in the order 6, 2, 4, 5, 3, 7."
    fn draw(&mut self, command: &Command, lent: &mut [u8]) -> Answer {
        let Some(setting) = self.table.setting(command.number) else {
            return row::refused(6, 0);
        };
        let request = command.request(setting);
        let points = command.path.len() as u64 / 8;
        let dear = request.columns.min(16_384) * points > MOST_QUESTIONS;
        match (command.kind, dear) {
            (Kind::Packed, false) => row::packed_row(&request, lent),
            (Kind::Packed, true) => self.fast.packed_row(&request, lent),
            (_, false) => row::row_answer(&request, lent),
            (_, true) => self.fast.row_answer(&request, lent),
        }
    }

    fn answer(&mut self, command: &Command) -> Own {
        let refusal = match command.kind {
            Kind::Start => {
                self.table = Table::default();
                0
            }
            Kind::Define => self.table.define(command.number, command.setting()),
            Kind::Remove => self.table.remove(command.number),
            Kind::Row | Kind::Packed | Kind::Records => {
                let length = command.kind.unit() * command.room;
                let mut lent: Vec<u8> = (0..length).map(pattern).collect();
                let answer = self.draw(command, &mut lent);
                return Own {
                    refusal: answer.refusal,
                    drawn: Some((answer, lent)),
                };
            }
        };
        Own {
            refusal,
            drawn: None,
        }
    }
}

/// What a stream had in it.
#[derive(Default)]
pub struct Counts {
    pub kinds: [u64; 6],
    pub refusals: [u64; 9],
    pub full: u64,
    pub emptied: u64,
    pub black: u64,
    pub several: u64,
    pub exact: u64,
    pub no_room: u64,
    /// The most runs in a row.
    pub most: usize,
    /// The most entries of a path that was not refused.
    pub longest: usize,
    /// Whether the table was full since it was last empty.
    filled: bool,
}

impl Counts {
    fn count(&mut self, command: &Command, own: &Own, in_use: usize) {
        self.kinds[command.kind as usize] += 1;
        self.refusals[own.refusal as usize] += 1;
        match (command.kind, own.refusal, in_use) {
            (Kind::Define, 0, 32) => {
                self.full += 1;
                self.filled = true;
            }
            (Kind::Remove, 0, 0) => {
                self.emptied += u64::from(self.filled);
                self.filled = false;
            }
            (Kind::Start, ..) => self.filled = false,
            _ => {}
        }
        let Some((answer, lent)) = &own.drawn else {
            return;
        };
        self.no_room += u64::from(command.room == 0);
        if answer.refusal != 0 {
            return;
        }
        let packed = command.kind == Kind::Packed;
        let black = match packed {
            true => lent[..answer.count].iter().any(|&byte| byte != 0),
            false => answer.count > 0,
        };
        let unit = if packed { 1 } else { 4 };
        self.black += u64::from(black);
        self.longest = self.longest.max(command.path.len() / 4);
        if !packed {
            self.several += u64::from(answer.count > 1);
            self.most = self.most.max(answer.count);
        }
        self.exact += u64::from(black && lent.len() == unit * answer.count);
    }
}

impl fmt::Display for Counts {
    fn fmt(&self, f: &mut fmt::Formatter) -> fmt::Result {
        let [starts, defines, removals, rows, packed, records] = self.kinds;
        let refusals: Vec<String> = (0..9)
            .map(|refusal| format!("{refusal}: {}", self.refusals[refusal]))
            .collect();
        write!(
            f,
            "table calls: {defines} definitions, {removals} removals, {rows} rows, {packed} packed rows, {records} records, {starts} starts anew; \
             refusal {}; {} times full, {} times emptied after that; \
             {} with black pixels, {} with several runs and at most {}, {} with room for exactly these, {} with no room, paths of at most {} entries",
            refusals.join(", "),
            self.full,
            self.emptied,
            self.black,
            self.several,
            self.most,
            self.exact,
            self.no_room,
            self.longest
        )
    }
}

fn show(answer: &[u8]) -> String {
    let numbers: Vec<String> = ["refusal", "place", "count"]
        .iter()
        .zip(answer.chunks_exact(8))
        .map(|(name, eight)| {
            let number = u64::from_le_bytes(eight.try_into().expect("eight bytes"));
            format!("{name} {number}")
        })
        .collect();
    let lent = answer.get(24..).unwrap_or(&[]);
    format!("{}; lent {lent:?}", numbers.join(", "))
}

/// Compares foreign answers with this program's own: what the stream had in it,
/// or what the first difference is.
pub fn compared(commands: &[u8], foreign: &[u8]) -> Result<Counts, String> {
    let mut answerer = Answerer::default();
    let mut counts = Counts::default();
    let (mut commands, mut foreign) = (commands, foreign);
    let mut i = 0;
    while !commands.is_empty() {
        let (command, later) = Command::from_bytes(commands)?;
        let own = answerer.answer(&command);
        let bytes = own.to_bytes();
        let complaint = |foreign: &[u8], what: &str| {
            format!(
                "command {i}: {command}\n{what}\n own answer     {}\n foreign answer {}",
                show(&bytes),
                show(foreign)
            )
        };
        if foreign.len() < bytes.len() {
            return Err(complaint(foreign, "the answers end too early"));
        }
        let (one, after) = foreign.split_at(bytes.len());
        if one != bytes {
            return Err(complaint(one, "the answers differ"));
        }
        counts.count(&command, &own, answerer.table.in_use());
        (commands, foreign) = (later, after);
        i += 1;
    }
    requests::none_left(foreign)?;
    Ok(counts)
}

/// The line for a full agreement, or what the first difference is.
pub fn compare(commands: &[u8], foreign: &[u8]) -> Result<String, String> {
    if commands.is_empty() {
        return Err("no commands to compare".to_string());
    }
    let counts = compared(commands, foreign)?;
    Ok(format!("{counts}: all equal"))
}

#[cfg(test)]
mod tests {
    use super::*;
    use crate::table_stream::Source;

    const COUNT: usize = 6_000;

    fn some_commands() -> Vec<Command> {
        Source::new(1).take(COUNT).collect()
    }

    /// The commands as one stream.
    fn stream(commands: &[Command]) -> Vec<u8> {
        commands.iter().flat_map(Command::to_bytes).collect()
    }

    /// Ways to be wrong.
    #[derive(Clone, Copy, Debug, PartialEq, Eq)]
    enum Fault {
        None,
        DefinesOneInUse,
        RemovesNothing,
        RemovesTheNextToo,
        RemovesWhatIsEmpty,
        DefinesTheNextPlace,
        DefinesOnRefusal,
        SettingBeforeNumber,
        InUseBeforeSetting,
        NumberOfOneByte,
        NumberOfFourBytes,
        KeepsTheTableAtAStart,
        KeepsTheFirstPen,
        LastPlaceIsNone,
        WritesPastTheCount,
        WritesOnRefusal,
        WritesNothing,
        HalfARecordIsRoom,
        RoomBeforeCoordinates,
        ApertureLast,
        CountsOnRefusal,
        LosesThePlace,
    }

    /// What draws with a fault.
    struct Faulty {
        fault: Fault,
        own: Answerer,
        /// The settings that each number was first defined with.
        first: Vec<(u64, Setting)>,
    }

    impl Faulty {
        fn define(&mut self, command: &Command) -> u8 {
            let (number, setting) = (command.number, command.setting());
            let table = &mut self.own.table;
            let in_use = table.setting(number).is_some();
            match self.fault {
                Fault::DefinesOneInUse if in_use && setting.within_limits() => {
                    table.remove(number);
                }
                Fault::DefinesTheNextPlace if !in_use && table.setting(number + 1).is_none() => {
                    return table.define(number + 1, setting);
                }
                Fault::DefinesOnRefusal if in_use && setting.within_limits() => {
                    table.remove(number);
                    table.define(number, setting);
                    return 8;
                }
                Fault::SettingBeforeNumber if !setting.within_limits() => return 1,
                Fault::InUseBeforeSetting if in_use => return 8,
                Fault::NumberOfOneByte => return table.define(number % 256, setting),
                Fault::NumberOfFourBytes => return table.define(number % (1 << 32), setting),
                Fault::LastPlaceIsNone if number == 41 => return 6,
                Fault::KeepsTheFirstPen if !in_use => {
                    let earlier = self.first.iter().find(|(n, _)| *n == number);
                    let refusal = match earlier {
                        Some(&(_, first)) if setting.within_limits() => table.define(number, first),
                        _ => table.define(number, setting),
                    };
                    if refusal == 0 && earlier.is_none() {
                        self.first.push((number, setting));
                    }
                    return refusal;
                }
                _ => {}
            }
            table.define(number, setting)
        }

        fn remove(&mut self, command: &Command) -> u8 {
            let table = &mut self.own.table;
            match self.fault {
                Fault::RemovesNothing if table.setting(command.number).is_some() => 0,
                Fault::RemovesTheNextToo => {
                    table.remove(command.number.saturating_add(1));
                    table.remove(command.number)
                }
                Fault::RemovesWhatIsEmpty if (10..=41).contains(&command.number) => {
                    table.remove(command.number);
                    0
                }
                _ => table.remove(command.number),
            }
        }

        fn draw(&mut self, command: &Command) -> Own {
            let mut own = self.own.answer(command);
            let Some((answer, lent)) = &mut own.drawn else {
                unreachable!("a call that draws");
            };
            let done = answer.refusal == 0;
            let filled = match command.kind {
                Kind::Packed => answer.count,
                _ => 4 * answer.count,
            };
            match self.fault {
                Fault::WritesPastTheCount if done && filled < lent.len() => lent[filled] = 0,
                Fault::WritesOnRefusal if !done && !lent.is_empty() => lent[0] = 0,
                Fault::WritesNothing if done => {
                    let before: Vec<u8> = (0..lent.len()).map(pattern).collect();
                    lent.copy_from_slice(&before);
                }
                Fault::HalfARecordIsRoom
                    if answer.refusal == 7
                        && command.kind == Kind::Row
                        && command.room % 2 == 1 =>
                {
                    *answer = row::done(command.room.div_ceil(2));
                }
                Fault::RoomBeforeCoordinates if answer.refusal == 3 && command.room == 0 => {
                    *answer = row::refused(7, 0);
                }
                Fault::ApertureLast if answer.refusal == 6 && command.path.is_empty() => {
                    *answer = row::refused(2, 0);
                }
                Fault::CountsOnRefusal if answer.refusal == 7 => answer.count = command.room + 1,
                Fault::LosesThePlace => answer.place = 0,
                _ => {}
            }
            own.refusal = answer.refusal;
            own
        }

        fn answer(&mut self, command: &Command) -> Own {
            let refusal = match command.kind {
                Kind::Start if self.fault == Fault::KeepsTheTableAtAStart => 0,
                Kind::Start => return self.own.answer(command),
                Kind::Define => self.define(command),
                Kind::Remove => self.remove(command),
                Kind::Row | Kind::Packed | Kind::Records => return self.draw(command),
            };
            Own {
                refusal,
                drawn: None,
            }
        }
    }

    fn answers(commands: &[Command], fault: Fault) -> Vec<u8> {
        let mut faulty = Faulty {
            fault,
            own: Answerer::default(),
            first: Vec::new(),
        };
        commands
            .iter()
            .flat_map(|command| faulty.answer(command).to_bytes())
            .collect()
    }

    #[test]
    fn what_is_right_passes() {
        let commands = some_commands();
        let line = compare(&stream(&commands), &answers(&commands, Fault::None)).unwrap();
        assert!(line.ends_with("all equal"), "{line}");
    }

    #[test]
    fn what_is_wrong_is_caught() {
        let commands = some_commands();
        let bytes = stream(&commands);
        for fault in [
            Fault::DefinesOneInUse,
            Fault::RemovesNothing,
            Fault::RemovesTheNextToo,
            Fault::RemovesWhatIsEmpty,
            Fault::DefinesTheNextPlace,
            Fault::DefinesOnRefusal,
            Fault::SettingBeforeNumber,
            Fault::InUseBeforeSetting,
            Fault::NumberOfOneByte,
            Fault::NumberOfFourBytes,
            Fault::KeepsTheTableAtAStart,
            Fault::KeepsTheFirstPen,
            Fault::LastPlaceIsNone,
            Fault::WritesPastTheCount,
            Fault::WritesOnRefusal,
            Fault::WritesNothing,
            Fault::HalfARecordIsRoom,
            Fault::RoomBeforeCoordinates,
            Fault::ApertureLast,
            Fault::CountsOnRefusal,
            Fault::LosesThePlace,
        ] {
            match compare(&bytes, &answers(&commands, fault)) {
                Ok(line) => panic!("{fault:?} is not seen: {line}"),
                Err(complaint) => assert!(complaint.contains("differ"), "{fault:?}: {complaint}"),
            }
        }
    }

    #[test]
    fn too_few_and_too_many_bytes() {
        let commands = some_commands();
        let bytes = stream(&commands);
        let mut answers = answers(&commands, Fault::None);
        answers.push(0);
        let more = compare(&bytes, &answers).unwrap_err();
        assert!(more.contains("1 bytes too many"), "{more}");
        answers.truncate(answers.len() - 2);
        let fewer = compare(&bytes, &answers).unwrap_err();
        assert!(fewer.contains("end too early"), "{fewer}");
        assert!(compare(&bytes[..bytes.len() - 1], &answers).is_err());
        assert!(compare(&[], &[]).is_err());
    }

    #[test]
    fn commands_come_back_from_bytes() {
        let commands = some_commands();
        let bytes = stream(&commands);
        let mut rest = &bytes[..];
        for command in &commands {
            let (one, later) = Command::from_bytes(rest).unwrap();
            assert_eq!(one, *command);
            rest = later;
        }
        assert!(rest.is_empty());
        assert!(Command::from_bytes(&[6; HEAD]).is_err());
    }

    /// Every kind and every refusal comes often, the table is full and empty
    /// again, and there are long paths, wide rasters and many runs.
    #[test]
    fn kinds() {
        let mut own = Answerer::default();
        let mut counts = Counts::default();
        let mut too_long = 0;
        for command in Source::new(2).take(20_000) {
            let answer = own.answer(&command);
            counts.count(&command, &answer, own.table.in_use());
            too_long += usize::from(command.path.len() > 4 * 8_192);
        }
        let [starts, calls @ ..] = counts.kinds;
        assert!(starts > 20 && calls.iter().all(|&n| n > 2_000), "{counts}");
        assert!(counts.refusals.iter().all(|&n| n > 300), "{counts}");
        assert!(counts.full > 50 && counts.emptied > 20, "{counts}");
        assert!(counts.black > 2_000 && counts.several > 200, "{counts}");
        assert!(counts.exact > 1_000 && counts.no_room > 1_000, "{counts}");
        assert!(counts.most > 1_000 && counts.longest == 8_192, "{counts}");
        assert!(too_long > 0);
    }
}
