//! Calls to try over a table of apertures: it is filled to all its places and
//! emptied to none, again and again, with calls of every kind on the way. The
//! row calls are those of the C boundary, each with an aperture like the setting
//! that its path was made for.

use crate::calls::{bad_setting, far_number, some_call};
use crate::fast::Drawer;
use crate::segments::{some_setting, LIMIT};
use crate::setting::Setting;
use crate::stream::Sequence;
use crate::table::Table;
use crate::table_calls::{Command, Kind};

/// What the program under test can hold: more entries than a path may have, and
/// more records than it can have runs.
const ENTRIES_MAX: usize = 8_200;
const RECORDS_MAX: usize = 4_100;

/// What the table is brought to.
#[derive(Clone, Copy)]
enum Phase {
    Full,
    Empty,
    /// Nothing, for so many commands.
    Any(u64),
}

pub struct Source {
    sequence: Sequence,
    table: Table,
    phase: Phase,
    fast: Drawer,
    scratch: Vec<u8>,
}

/// A number that no aperture has, and such as come back to one in narrower
/// arithmetic.
pub(crate) fn strange_number(sequence: &mut Sequence) -> u64 {
    let number = 10 + sequence.below(32);
    match sequence.below(9) {
        0 => 9,
        1 => 42,
        2 => sequence.below(10),
        3 => 42 + sequence.below(32),
        4 => number + 256,
        5 => number + (1 << 16),
        6 => number + (1 << 32),
        7 => number + (1 << 63),
        _ => far_number(sequence).max(42),
    }
}

/// A command without a room and a path.
fn command(kind: Kind, number: u64, numbers: [u64; 3]) -> Command {
    Command {
        kind,
        number,
        numbers,
        room: 0,
        path: Vec::new(),
    }
}

fn define(number: u64, setting: Setting) -> Command {
    command(Kind::Define, number, [setting.w, setting.p, setting.q])
}

fn remove(number: u64) -> Command {
    command(Kind::Remove, number, [0; 3])
}

/// Up and down across the row in a line over all columns, a run to each leg where
/// the pen is narrow.
fn zigzag(sequence: &mut Sequence, setting: &Setting, row: u64) -> Vec<u8> {
    let points = 2 + sequence.below(4_095) as i64;
    let height = 8 * setting.dy() + 32;
    let coordinates: Vec<i32> = (0..points)
        .flat_map(|i| {
            let y = 16 * row as i64 + if i % 2 == 0 { height } else { -height };
            [64 * i as i32, y.min(LIMIT) as i32]
        })
        .collect();
    crate::row::path_bytes(&coordinates)
}

impl Source {
    pub fn new(seed: u64) -> Source {
        Source {
            sequence: Sequence::new(seed),
            table: Table::default(),
            phase: Phase::Full,
            fast: Drawer::default(),
            scratch: vec![0; 4 * RECORDS_MAX],
        }
    }

    /// The numbers that are in use, or those that are not.
    fn numbers(&self, in_use: bool) -> Vec<u64> {
        (10..=41)
            .filter(|&number| self.table.setting(number).is_some() == in_use)
            .collect()
    }

    /// One of these numbers, or any where there is none.
    fn one_of(&mut self, numbers: &[u64]) -> u64 {
        match numbers.len() as u64 {
            0 => 10 + self.sequence.below(32),
            n => numbers[self.sequence.below(n) as usize],
        }
    }

    /// Any number, and a setting that is good or bad.
    fn some_define(&mut self) -> Command {
        let number = match self.sequence.below(4) {
            0 => strange_number(&mut self.sequence),
            _ => 10 + self.sequence.below(32),
        };
        let setting = match self.sequence.below(4) {
            0 => bad_setting(&mut self.sequence),
            _ => some_setting(&mut self.sequence),
        };
        define(number, setting)
    }

    fn some_remove(&mut self) -> Command {
        let number = match self.sequence.below(3) {
            0 => strange_number(&mut self.sequence),
            n => self.one_of(&self.numbers(n == 1)),
        };
        remove(number)
    }

    /// An aperture in use with a pen about as wide as this one's; now and then
    /// one that is not in use, or no aperture's number.
    fn some_aperture(&mut self, like: Setting) -> u64 {
        let in_use = self.numbers(true);
        match self.sequence.below(16) {
            0 if self.sequence.below(2) == 0 => strange_number(&mut self.sequence),
            0 => self.one_of(&self.numbers(false)),
            1 | 2 => self.one_of(&in_use),
            _ if !like.within_limits() => self.one_of(&in_use),
            _ => {
                let table = &self.table;
                let away = |number: &u64| {
                    let held = table.setting(*number);
                    held.map(|held| (held.dx() - like.dx()).abs())
                };
                let near = in_use.into_iter().min_by_key(away);
                near.unwrap_or(10 + self.sequence.below(32))
            }
        }
    }

    /// How much is lent: nothing, one too little, exactly enough, more.
    fn some_room(&mut self, command: &Command) -> usize {
        let Some(setting) = self.table.setting(command.number) else {
            return self.sequence.below(12) as usize;
        };
        let needed = match command.kind {
            Kind::Packed => command.numbers[0].min(16_384).div_ceil(8) as usize,
            kind => {
                let request = command.request(setting);
                let runs = self.fast.row_answer(&request, &mut self.scratch).count;
                runs * 4 / kind.unit()
            }
        };
        let room = match self.sequence.below(8) {
            0 => 0,
            1 | 2 => needed.saturating_sub(1),
            3 | 4 => needed,
            5 => needed + 1,
            6 => self.sequence.below(needed as u64 + 1) as usize,
            _ => needed + self.sequence.below(20) as usize,
        };
        match command.kind {
            Kind::Records => room.min(RECORDS_MAX),
            _ => room.min(2 * RECORDS_MAX),
        }
    }

    fn some_draw(&mut self) -> Command {
        let kind = [Kind::Row, Kind::Packed, Kind::Records][self.sequence.below(3) as usize];
        let call = some_call(&mut self.sequence);
        let number = self.some_aperture(call.setting);
        let mut drawn = command(kind, number, [call.columns, call.rows, call.row]);
        drawn.path = call.path;
        // Whole entries, and no more than can be held.
        let entries = (drawn.path.len() / 4).min(ENTRIES_MAX);
        drawn.path.truncate(4 * entries);
        if let Some(setting) = self.table.setting(number) {
            if setting.dx() <= 2 && self.sequence.below(300) == 0 {
                drawn.numbers[0] = 16_384;
                drawn.path = zigzag(&mut self.sequence, &setting, call.row.min(16_383));
            }
        }
        drawn.room = self.some_room(&drawn);
        drawn
    }

    /// Any command; the empty table again only now and then.
    fn any(&mut self) -> Command {
        match self.sequence.below(400) {
            0 => command(Kind::Start, 0, [0; 3]),
            n if n % 8 == 1 => self.some_define(),
            n if n % 8 == 2 => self.some_remove(),
            _ => self.some_draw(),
        }
    }
}

impl Iterator for Source {
    type Item = Command;

    /// The next command, after which the table is what the command makes it.
    fn next(&mut self) -> Option<Command> {
        let (vacant, in_use) = (self.numbers(false), self.numbers(true));
        self.phase = match self.phase {
            Phase::Full if vacant.is_empty() => Phase::Any(self.sequence.below(400)),
            Phase::Empty if in_use.is_empty() => Phase::Any(self.sequence.below(20)),
            Phase::Any(0) => match self.sequence.below(2) {
                0 => Phase::Full,
                _ => Phase::Empty,
            },
            Phase::Any(n) => Phase::Any(n - 1),
            phase => phase,
        };
        let towards = self.sequence.below(3) > 0;
        let command = match self.phase {
            Phase::Full if towards => {
                let number = self.one_of(&vacant);
                let setting = some_setting(&mut self.sequence);
                define(number, setting)
            }
            Phase::Empty if towards => {
                let number = self.one_of(&in_use);
                remove(number)
            }
            _ => self.any(),
        };
        match command.kind {
            Kind::Start => {
                self.table = Table::default();
                self.phase = Phase::Full;
            }
            Kind::Define => {
                self.table.define(command.number, command.setting());
            }
            Kind::Remove => {
                self.table.remove(command.number);
            }
            _ => {}
        }
        Some(command)
    }
}
