//! Deliberately wrong programs that print a log: in the fields of a line, in the messages
//! that have one, and in what is refused.

use crate::reference::code::Code;
use crate::reference::image::{read_sized, SIZE};
use crate::view::{first_message, messages, sequence_of, u16_at, u32_at};
use crate::wire::text;

/// What is wrong with the program.
#[derive(Clone, Copy, Debug, PartialEq, Eq)]
pub enum PrintFault {
    /// Counts places from 1.
    PlaceFromOne,
    /// Gives the offset of the next message.
    OffsetOfNext,
    /// Counts offsets from where the messages begin.
    OffsetFromMessages,
    /// Leaves the length out.
    LengthMissing,
    /// Writes the sequence in small letters.
    SmallLetters,
    /// Leaves the sequence's number out.
    NumberMissing,
    /// Gives a value below zero as its distance from zero.
    SignLost,
    /// Gives a value as a number of four bytes.
    TwosComplementLost,
    /// Gives the value before the tag.
    TagAndValueExchanged,
    /// Gives the operation before the tag.
    OperationPrinted,
    /// Takes the commands from the place that they have without dependencies.
    DependenciesAsCommands,
    /// Gives the first command alone.
    FirstCommandAlone,
    /// Gives the last command first.
    LastCommandFirst,
    /// Prints the held ones too.
    HeldPrinted,
    /// Ends each line by a blank.
    BlankAtEnd,
    /// Ends the last line by no line feed.
    LastLineOpen,
    /// Prints an empty line for an empty log.
    EmptyLine,
    /// Takes the front of a longer input.
    LongInputCut,
    /// Fills a shorter input up with zeros.
    ShortInputFilled,
    /// Refuses a wrong size by 2.
    SizeRefusedByTwo,
    /// Prints nothing where it refuses.
    RefusalSilent,
    /// Does not look at the bytes past the used part.
    TailUnjudged,
}

/// Every wrong program.
pub const PRINT_FAULTS: [PrintFault; 22] = [
    PrintFault::PlaceFromOne,
    PrintFault::OffsetOfNext,
    PrintFault::OffsetFromMessages,
    PrintFault::LengthMissing,
    PrintFault::SmallLetters,
    PrintFault::NumberMissing,
    PrintFault::SignLost,
    PrintFault::TwosComplementLost,
    PrintFault::TagAndValueExchanged,
    PrintFault::OperationPrinted,
    PrintFault::DependenciesAsCommands,
    PrintFault::FirstCommandAlone,
    PrintFault::LastCommandFirst,
    PrintFault::HeldPrinted,
    PrintFault::BlankAtEnd,
    PrintFault::LastLineOpen,
    PrintFault::EmptyLine,
    PrintFault::LongInputCut,
    PrintFault::ShortInputFilled,
    PrintFault::SizeRefusedByTwo,
    PrintFault::RefusalSilent,
    PrintFault::TailUnjudged,
];

/// A program that prints a log, with a fault or with none. Its lines are made of the image's
/// bytes, apart from the second implementation.
#[derive(Clone, Copy, Debug)]
pub struct Printer(pub Option<PrintFault>);

impl Printer {
    /// What it prints for an input.
    pub fn print(&self, input: &[u8]) -> String {
        let image = self.put_right(input);
        match read_sized(&image) {
            Ok(_) => self.lines(&image),
            Err(code) => self.refusal(code),
        }
    }

    fn has(&self, fault: PrintFault) -> bool {
        self.0 == Some(fault)
    }

    /// The input that the fault takes a wrong one for.
    fn put_right(&self, input: &[u8]) -> Vec<u8> {
        let mut right = input.to_vec();
        match self.0 {
            Some(PrintFault::LongInputCut) => right.truncate(SIZE),
            Some(PrintFault::ShortInputFilled) if right.len() < SIZE => right.resize(SIZE, 0),
            Some(PrintFault::TailUnjudged) if right.len() == SIZE => {
                let used = u16_at(&right, 8).min(SIZE);
                right[used..].fill(0);
            }
            _ => {}
        }
        right
    }

    fn refusal(&self, code: Code) -> String {
        match code {
            _ if self.has(PrintFault::RefusalSilent) => String::new(),
            Code::Size if self.has(PrintFault::SizeRefusedByTwo) => "2\n".to_string(),
            _ => format!("{}\n", code.number()),
        }
    }

    fn lines(&self, image: &[u8]) -> String {
        let held = usize::from(self.has(PrintFault::HeldPrinted)) * u16_at(image, 2);
        let mut offset = self.first_offset(image);
        let mut lines = Vec::new();
        for (place, message) in (0..).zip(messages(image, 0, u16_at(image, 0) + held)) {
            lines.push(self.fields(place, offset, &message).join(" "));
            offset += message.len();
        }
        let end = match self.0 {
            Some(PrintFault::BlankAtEnd) => " \n",
            _ => "\n",
        };
        match self.0 {
            Some(PrintFault::LastLineOpen) => lines.join(end),
            Some(PrintFault::EmptyLine) if lines.is_empty() => end.to_string(),
            _ => lines.iter().map(|line| line.to_string() + end).collect(),
        }
    }

    /// The offset that the first line gives.
    fn first_offset(&self, image: &[u8]) -> usize {
        match self.0 {
            Some(PrintFault::OffsetFromMessages) => 0,
            _ => first_message(image),
        }
    }

    /// The fields of a message's line.
    fn fields(&self, place: usize, offset: usize, message: &[u8]) -> Vec<String> {
        let place = place + usize::from(self.has(PrintFault::PlaceFromOne));
        let offset = match self.0 {
            Some(PrintFault::OffsetOfNext) => offset + message.len(),
            _ => offset,
        };
        let mut fields = vec![place.to_string(), offset.to_string()];
        if !self.has(PrintFault::LengthMissing) {
            fields.push(message.len().to_string());
        }
        fields.push(self.sequence(message));
        let commands = self.commands(message).into_iter();
        fields.extend(commands.flat_map(|command| self.command(command)));
        fields
    }

    fn sequence(&self, message: &[u8]) -> String {
        let digits = text(&sequence_of(message));
        let digits = String::from_utf8_lossy(&digits);
        match self.0 {
            Some(PrintFault::SmallLetters) => digits.to_lowercase(),
            Some(PrintFault::NumberMissing) => digits[..20].to_string(),
            _ => digits.into_owned(),
        }
    }

    /// The commands that are given, in their order.
    fn commands<'a>(&self, message: &'a [u8]) -> Vec<&'a [u8]> {
        let start = match self.0 {
            Some(PrintFault::DependenciesAsCommands) => 40,
            _ => u16_at(message, 8),
        };
        let commands = message[start..].chunks(8).take(usize::from(message[3]));
        let mut commands: Vec<&[u8]> = commands.collect();
        match self.0 {
            Some(PrintFault::FirstCommandAlone) => commands.truncate(1),
            Some(PrintFault::LastCommandFirst) => commands.reverse(),
            _ => {}
        }
        commands
    }

    /// The fields of a command.
    fn command(&self, command: &[u8]) -> Vec<String> {
        let (operation, tag, word) = (command[0], command[1], u32_at(command, 4));
        let value = match self.0 {
            Some(PrintFault::SignLost) => (word as i32).unsigned_abs().to_string(),
            Some(PrintFault::TwosComplementLost) => word.to_string(),
            _ => (word as i32).to_string(),
        };
        match self.0 {
            Some(PrintFault::TagAndValueExchanged) => vec![value, tag.to_string()],
            Some(PrintFault::OperationPrinted) => {
                vec![operation.to_string(), tag.to_string(), value]
            }
            _ => vec![tag.to_string(), value],
        }
    }
}
