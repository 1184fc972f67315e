//! A station for tests. It reads images and steps by the paper's offsets itself.

#![deny(warnings)]
#![allow(dead_code)]

pub mod text;

pub use bivamolune_tests::boundary::SUBJECT;
use bivamolune_tests::boundary::{code, executions, length, offset, packed, undos, value, Calls};
use bivamolune_tests::reference::compose::Request;
pub use bivamolune_tests::view::{messages, u16_at, u32_at};
use bivamolune_tests::view::{steps as steps_of, Kind, Step, SETPOINTS};
use bivamolune_tests::wire::{add, line, set, Draft, Line};

pub const A: u8 = 0x0A;
pub const B: u8 = 0x0B;
pub const C: u8 = 0x0C;
pub const D: u8 = 0x0D;

pub const IMAGE: usize = 16_384;
pub const STEPS: usize = 10_160;
/// The size of a step.
pub const STEP: usize = 80;
pub const MESSAGE: usize = 200;

/// What unwritten bytes of step and message buffers hold.
pub const PATTERN: u8 = 0xA5;

/// A delta of a line of the examples, in group 1, which sets tag 0 to 1.
pub fn delta(letter: u8, number: u16) -> Draft {
    Draft::new(line(letter), number)
}

/// A1 of the examples: sets tag 3 to 1500.
pub fn a1() -> Draft {
    delta(A, 1).commands(&[set(3, 1500)])
}

/// B1 of the examples: adds -20 to tag 3.
pub fn b1() -> Draft {
    delta(B, 1).commands(&[add(3, -20)])
}

/// Line and number as in the examples: A1, B2; other lines by the last byte of the UID.
pub fn name(sequence: &[u8]) -> String {
    let number = u16::from_be_bytes([sequence[10], sequence[11]]);
    match sequence[5] {
        letter @ 0x0A..=0x0F => format!("{letter:X}{number}"),
        other => format!("{other:02X}.{number}"),
    }
}

/// Names of messages, with blanks between.
fn names(messages: &[Vec<u8>]) -> String {
    let names: Vec<String> = messages.iter().map(|m| name(&m[12..24])).collect();
    names.join(" ")
}

/// An image, and the calls on it.
#[derive(Clone)]
pub struct Station {
    pub image: Vec<u8>,
}

impl Station {
    /// The station empty makes out of a buffer of other bytes.
    pub fn new() -> Station {
        let mut image = vec![PATTERN; IMAGE];
        assert_eq!(SUBJECT.empty(&mut image), 0);
        Station { image }
    }

    /// A new station with these deltas, all accepted.
    pub fn with(drafts: &[Draft]) -> Station {
        let mut station = Station::new();
        for draft in drafts {
            assert_eq!(station.code(&draft.bytes()), 0, "{draft:?}");
        }
        station
    }

    /// Delivers; the code and the steps, such as "-B1 +A1 +B1".
    pub fn deliver(&mut self, draft: &Draft) -> (u32, String) {
        self.deliver_bytes(&draft.bytes())
    }

    /// Delivers a message; the code alone.
    pub fn code(&mut self, message: &[u8]) -> u32 {
        self.deliver_bytes(message).0
    }

    /// Delivers with a step buffer of the least size.
    pub fn deliver_bytes(&mut self, message: &[u8]) -> (u32, String) {
        self.deliver_into(message, STEPS)
    }

    /// Delivers; the message and the bytes past the steps must be unchanged, and all
    /// bytes on a refusal.
    pub fn deliver_into(&mut self, message: &[u8], size: usize) -> (u32, String) {
        let mut steps = vec![PATTERN; size];
        let before = self.image.clone();
        let copy = message.to_vec();
        let answer = SUBJECT.deliver(&mut self.image, &copy, &mut steps);
        assert_eq!(copy, message, "the message was written");
        let (undone, executed) = (undos(answer), executions(answer));
        if code(answer) != 0 {
            assert_eq!((undone, executed), (0, 0), "counts of a refusal");
            assert!(before == self.image, "a refusal wrote the image");
        }
        let end = STEP * (undone + executed);
        assert!(steps[end..].iter().all(|byte| *byte == PATTERN));
        let read = steps_of(&steps, undone, executed).expect("undos, then executions");
        let words: Vec<String> = read.iter().map(signed_name).collect();
        (code(answer), words.join(" "))
    }

    /// Delivers what must be accepted; the steps with their pairs, such as "-B1 3=0".
    pub fn pairs(&mut self, draft: &Draft) -> Vec<String> {
        let mut steps = vec![PATTERN; STEPS];
        let answer = SUBJECT.deliver(&mut self.image, &draft.bytes(), &mut steps);
        assert_eq!(code(answer), 0, "{draft:?}");
        let read = steps_of(&steps, undos(answer), executions(answer));
        let read = read.expect("undos, then executions");
        read.iter().map(with_pairs).collect()
    }

    /// Purges; the code. A refusal must leave the image as it was.
    pub fn purge(&mut self, k: u32) -> u32 {
        let before = self.image.clone();
        let answer = SUBJECT.purge(&mut self.image, k);
        if answer != 0 {
            assert!(before == self.image, "a refusal wrote the image");
        }
        answer
    }

    /// Composes into a buffer of 200 bytes.
    pub fn compose(&self, request: &Request) -> (u32, Vec<u8>) {
        self.compose_into(request, MESSAGE)
    }

    /// Composes; what is only read and the bytes past the message must be unchanged, and
    /// all bytes on a refusal.
    pub fn compose_into(&self, request: &Request, size: usize) -> (u32, Vec<u8>) {
        let mut message = vec![PATTERN; size];
        let image = self.image.clone();
        let (line, commands) = (request.line.to_vec(), request.commands.to_vec());
        let copies = Request {
            line: &line,
            commands: &commands,
            ..*request
        };
        let answer = SUBJECT.compose(&image, &copies, &mut message);
        assert!(image == self.image, "the image was written");
        assert_eq!(line, request.line, "the line was written");
        assert_eq!(commands, request.commands, "the commands were written");
        let written = length(answer);
        assert_eq!(written == 0, code(answer) != 0, "length beside the code");
        assert!(message[written..].iter().all(|byte| *byte == PATTERN));
        message.truncate(written);
        (code(answer), message)
    }

    /// The code of composing on a line without priority.
    pub fn compose_code(&self, line: Line) -> u32 {
        self.compose(&plain_request(&line)).0
    }

    /// Bytes 0-1.
    pub fn log_count(&self) -> usize {
        u16_at(&self.image, 0)
    }

    /// Bytes 2-3.
    pub fn held_count(&self) -> usize {
        u16_at(&self.image, 2)
    }

    /// The log's names in order.
    pub fn log(&self) -> String {
        names(&messages(&self.image, 0, self.log_count()))
    }

    /// The held deltas' names in order.
    pub fn held(&self) -> String {
        names(&messages(&self.image, self.log_count(), self.held_count()))
    }

    /// A setpoint as it stands in the image.
    pub fn value(&self, tag: usize) -> i32 {
        u32_at(&self.image, SETPOINTS + 4 * tag) as i32
    }
}

/// A number as the calls take it: what does not fit is the greatest.
fn number(number: usize) -> u32 {
    u32::try_from(number).unwrap_or(u32::MAX)
}

/// What setpoint answers: the code, and the value. The image must be unchanged.
pub fn setpoint(image: &[u8], tag: usize) -> (u32, i32) {
    let copy = image.to_vec();
    let answer = SUBJECT.setpoint(&copy, number(tag));
    assert!(copy == image, "the image was written");
    assert_eq!(answer, packed(code(answer), value(answer) as u32));
    (code(answer), value(answer))
}

/// What log message answers: the code, and the part of the image, which is empty beside a
/// refusal. The image must be unchanged.
pub fn find_log_message(image: &[u8], place: usize) -> (u32, &[u8]) {
    let copy = image.to_vec();
    let answer = SUBJECT.log_message(&copy, number(place));
    assert!(copy == image, "the image was written");
    let (at, size) = (offset(answer), length(answer));
    assert_eq!((at == 0, size == 0), (code(answer) != 0, code(answer) != 0));
    (code(answer), &image[at..at + size])
}

/// The part alone.
pub fn log_message(image: &[u8], place: usize) -> &[u8] {
    find_log_message(image, place).1
}

/// The code alone.
pub fn log_message_code(image: &[u8], place: usize) -> u32 {
    find_log_message(image, place).0
}

/// A request without priority that sets tag 0 to 1.
pub fn plain_request(line: &[u8]) -> Request<'_> {
    Request {
        line,
        commands: &[1, 0, 0, 0, 0, 0, 0, 1],
        priority_flag: 0,
        priority: 0,
    }
}

/// A step as "-B1" or "+A1".
fn signed_name(step: &Step) -> String {
    let sign = match step.kind {
        Kind::Undo => '-',
        Kind::Execute => '+',
    };
    format!("{sign}{}", name(&step.sequence))
}

/// A step as "-B1 3=0 4=-20": its name, then tag and value of each pair.
fn with_pairs(step: &Step) -> String {
    let pairs = step.pairs.iter();
    let words = pairs.map(|(tag, value)| format!(" {tag}={value}"));
    signed_name(step) + &words.collect::<String>()
}

/// A code and steps, for comparing.
pub fn steps(code: u32, steps: &str) -> (u32, String) {
    (code, steps.to_string())
}
