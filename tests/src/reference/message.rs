//! "A delta on the wire": the layout of a message and the checks 3 to 6.

use super::bytes::{array_at, i32_at, part, u16_at, u32_at, u8_at};
use super::code::Code;

/// Endpoint UID 6, creator identifier 4, number 2. Sequences compare byte by byte.
pub type Sequence = [u8; 12];
/// The first ten bytes of a sequence.
pub type Line = [u8; 10];

/// Length of the header, and the offset of the dependencies.
pub const HEADER: usize = 40;
/// Length of a dependency.
pub const DEPENDENCY: usize = 12;
/// Length of a command.
pub const COMMAND: usize = 8;
/// Greatest number of dependencies.
pub const DEPENDENCIES: usize = 8;
/// Greatest number of commands.
pub const COMMANDS: usize = 8;
/// Length of the longest message.
pub const LONGEST: usize = 200;
/// Limit of group, block and priority.
pub const LIMIT: u32 = 2_147_483_647;
/// Limit of a command's value and of a setpoint, on either side of zero.
pub const VALUE: i32 = 1_000_000;

/// Block and priority of a delta with priority.
#[derive(Clone, Copy, Debug, PartialEq, Eq)]
pub struct Explicit {
    pub block: u32,
    pub priority: u32,
}

/// A message that passed the checks 3 to 6.
#[derive(Clone, Copy, Debug)]
pub struct Delta<'a> {
    bytes: &'a [u8],
}

impl<'a> Delta<'a> {
    /// The delta of these bytes, or the lowest of the codes 3 to 6 that applies.
    pub fn check(bytes: &'a [u8]) -> Result<Delta<'a>, Code> {
        if !layout_is_right(bytes) {
            return Err(Code::Layout);
        }
        let delta = Delta { bytes };
        if delta.names_number_zero() {
            return Err(Code::Number);
        }
        if !delta.dependencies_are_right() {
            return Err(Code::Dependencies);
        }
        if !delta.ranges_are_right() {
            return Err(Code::Range);
        }
        Ok(delta)
    }

    /// The whole message.
    pub fn bytes(&self) -> &'a [u8] {
        self.bytes
    }

    /// Bytes 12-23.
    pub fn sequence(&self) -> Sequence {
        array_at(self.bytes, 12)
    }

    /// Bytes 24-27.
    pub fn group(&self) -> u32 {
        u32_at(self.bytes, 24)
    }

    /// Block and priority where byte 1 is 01.
    pub fn explicit(&self) -> Option<Explicit> {
        if u8_at(self.bytes, 1) == 0 {
            return None;
        }
        let block = u32_at(self.bytes, 28);
        let priority = u32_at(self.bytes, 32);
        Some(Explicit { block, priority })
    }

    /// Its own block, 0 without priority.
    pub fn block(&self) -> u32 {
        self.explicit().map_or(0, |explicit| explicit.block)
    }

    /// The named dependencies, in the order of the message.
    pub fn dependencies(&self) -> impl Iterator<Item = Sequence> + 'a {
        let bytes = self.bytes;
        let count = usize::from(u8_at(bytes, 2));
        (0..count).map(move |place| array_at(bytes, HEADER + DEPENDENCY * place))
    }

    /// "A delta needs its dependencies and its predecessor."
    pub fn needs(&self) -> impl Iterator<Item = Sequence> + 'a {
        self.dependencies().chain(predecessor(&self.sequence()))
    }

    /// The part of the message that starts past the dependencies.
    pub fn commands(&self) -> &'a [u8] {
        let start = HEADER + DEPENDENCY * usize::from(u8_at(self.bytes, 2));
        self.bytes.get(start..).unwrap_or(&[])
    }

    /// Code 4: its own number or a dependency's is 0000.
    fn names_number_zero(&self) -> bool {
        let zero = |sequence: Sequence| number(&sequence) == 0;
        zero(self.sequence()) || self.dependencies().any(zero)
    }

    /// Code 5: strictly ascending, never its own sequence, never its predecessor.
    fn dependencies_are_right(&self) -> bool {
        let own = self.sequence();
        let before = predecessor(&own);
        let ascending = self
            .dependencies()
            .zip(self.dependencies().skip(1))
            .all(|(lower, upper)| lower < upper);
        ascending
            && self
                .dependencies()
                .all(|named| named != own && Some(named) != before)
    }

    /// Code 6: group, block, priority and the commands.
    fn ranges_are_right(&self) -> bool {
        let block = u32_at(self.bytes, 28);
        let priority = u32_at(self.bytes, 32);
        let blocks = match self.explicit() {
            None => block == 0 && priority == 0,
            Some(_) => (1..=LIMIT).contains(&block) && priority <= LIMIT,
        };
        self.group() <= LIMIT && blocks && commands_are_right(self.commands())
    }
}

/// Code 3: the header's counts, length, offsets and zeros, and the bytes handed over.
fn layout_is_right(bytes: &[u8]) -> bool {
    let dependencies = usize::from(u8_at(bytes, 2));
    let commands = usize::from(u8_at(bytes, 3));
    let commands_start = HEADER + DEPENDENCY * dependencies;
    let length = commands_start + COMMAND * commands;
    bytes.len() == length
        && u8_at(bytes, 0) == 1
        && u8_at(bytes, 1) <= 1
        && dependencies <= DEPENDENCIES
        && (1..=COMMANDS).contains(&commands)
        && usize::from(u16_at(bytes, 4)) == length
        && usize::from(u16_at(bytes, 6)) == HEADER
        && usize::from(u16_at(bytes, 8)) == commands_start
        && u16_at(bytes, 10) == 0
        && u32_at(bytes, 36) == 0
}

/// Whether each eight bytes are a command.
pub fn commands_are_right(commands: &[u8]) -> bool {
    commands.chunks(COMMAND).all(command_is_right)
}

/// Operation 1..3, tag 0..63, two zeros, value within the limits.
fn command_is_right(command: &[u8]) -> bool {
    command.len() == COMMAND
        && (1..=3).contains(&u8_at(command, 0))
        && u8_at(command, 1) <= 63
        && u16_at(command, 2) == 0
        && (-VALUE..=VALUE).contains(&i32_at(command, 4))
}

/// The line of a sequence.
pub fn line(sequence: &Sequence) -> Line {
    array_at(sequence, 0)
}

/// The number of a sequence.
pub fn number(sequence: &Sequence) -> u16 {
    u16_at(sequence, 10)
}

/// The sequence of a line and a number.
pub fn sequence(line: &Line, number: u16) -> Sequence {
    let mut sequence = [0; 12];
    sequence[..10].copy_from_slice(line);
    sequence[10..].copy_from_slice(&number.to_be_bytes());
    sequence
}

/// The same line with number one less; number 0001 has none.
pub fn predecessor(of: &Sequence) -> Option<Sequence> {
    match number(of) {
        0 | 1 => None,
        number => Some(sequence(&line(of), number - 1)),
    }
}

/// The message that starts at an offset, cut by its own length field.
pub fn cut_at(bytes: &[u8], at: usize) -> Option<&[u8]> {
    part(bytes, at, usize::from(u16_at(bytes, at.saturating_add(4))))
}
