//! Messages written from parts, right or wrong, apart from the second implementation.

/// Endpoint UID 6, creator identifier 4, number 2.
pub type Sequence = [u8; 12];
/// The first ten bytes of a sequence.
pub type Line = [u8; 10];
/// Operation, tag, two zeros, value.
pub type Command = [u8; 8];

/// The parts of a message. Nothing is checked, so that wrong ones can be written.
#[derive(Clone, Debug, PartialEq, Eq)]
pub struct Draft {
    pub line: Line,
    pub number: u16,
    pub group: u32,
    /// Block and priority, for a delta with priority.
    pub explicit: Option<(u32, u32)>,
    pub dependencies: Vec<Sequence>,
    pub commands: Vec<Command>,
}

/// Line A of the examples is 0x0A, B is 0x0B, and so on.
pub fn line(last_of_uid: u8) -> Line {
    [0, 0, 0, 0, 0, last_of_uid, 0, 0, 0, 1]
}

/// A line and a number put together.
pub fn sequence(line: Line, number: u16) -> Sequence {
    let mut sequence = [0; 12];
    sequence[..10].copy_from_slice(&line);
    sequence[10..].copy_from_slice(&number.to_be_bytes());
    sequence
}

/// A command's eight bytes.
pub fn command(operation: u8, tag: u8, value: i32) -> Command {
    let v = value.to_be_bytes();
    [operation, tag, 0, 0, v[0], v[1], v[2], v[3]]
}

/// Operation 1.
pub fn set(tag: u8, value: i32) -> Command {
    command(1, tag, value)
}

/// Operation 2.
pub fn add(tag: u8, value: i32) -> Command {
    command(2, tag, value)
}

/// Operation 3.
pub fn raise(tag: u8, value: i32) -> Command {
    command(3, tag, value)
}

impl Draft {
    /// Group 1, no dependency, no priority, and one command that sets tag 0 to 1.
    pub fn new(line: Line, number: u16) -> Draft {
        Draft {
            line,
            number,
            group: 1,
            explicit: None,
            dependencies: Vec::new(),
            commands: vec![set(0, 1)],
        }
    }

    /// With these commands.
    pub fn commands(mut self, commands: &[Command]) -> Draft {
        self.commands = commands.to_vec();
        self
    }

    /// In this group.
    pub fn group(mut self, group: u32) -> Draft {
        self.group = group;
        self
    }

    /// With this block and priority.
    pub fn priority(mut self, block: u32, priority: u32) -> Draft {
        self.explicit = Some((block, priority));
        self
    }

    /// Naming these dependencies, in this order.
    pub fn naming(mut self, dependencies: &[Sequence]) -> Draft {
        self.dependencies = dependencies.to_vec();
        self
    }

    /// Its sequence.
    pub fn sequence(&self) -> Sequence {
        sequence(self.line, self.number)
    }

    /// The message. Counts and lengths that do not fit their field are cut to it.
    pub fn bytes(&self) -> Vec<u8> {
        let offset = 40 + 12 * self.dependencies.len();
        let length = offset + 8 * self.commands.len();
        let (block, priority) = self.explicit.unwrap_or((0, 0));
        let mut bytes = vec![1, u8::from(self.explicit.is_some())];
        bytes.push(self.dependencies.len() as u8);
        bytes.push(self.commands.len() as u8);
        for number in [length, 40, offset, 0] {
            bytes.extend((number as u16).to_be_bytes());
        }
        bytes.extend(self.sequence());
        for number in [self.group, block, priority, 0] {
            bytes.extend(number.to_be_bytes());
        }
        bytes.extend(self.dependencies.concat());
        bytes.extend(self.commands.concat());
        bytes
    }
}

/// The text of sequences that lie end to end. Nothing is checked: bytes of any length are
/// written, with a comma after each twelve but the last.
pub fn text(sequences: &[u8]) -> Vec<u8> {
    const DIGITS: &[u8; 16] = b"0123456789ABCDEF";
    let mut text = Vec::new();
    for (place, byte) in sequences.iter().enumerate() {
        if place > 0 && place % 12 == 0 {
            text.push(b',');
        }
        text.push(DIGITS[usize::from(byte >> 4)]);
        text.push(DIGITS[usize::from(byte & 15)]);
    }
    text
}
