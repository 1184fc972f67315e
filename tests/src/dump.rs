//! A message, an image and steps byte by byte, as `docs/FORMAT.md` shows them: field after field
//! with its offset, its bytes and what they say. The bytes are those of a run.

use crate::boundary::{code, executions, undos, Calls};
use crate::view::{all_messages, base_values, floor_count, u16_at, u32_at, values, STEP};
use crate::wire::{add, line, raise, sequence, set, Draft};

/// What the fields of a message's header are called, with their offsets and sizes.
const MESSAGE: [(usize, usize, &str); 15] = [
    (0, 1, "kind"),
    (1, 1, "with priority"),
    (2, 1, "dependencies"),
    (3, 1, "commands"),
    (4, 2, "length"),
    (6, 2, "offset of dependencies"),
    (8, 2, "offset of commands"),
    (10, 2, ""),
    (12, 6, "endpoint UID"),
    (18, 4, "creator identifier"),
    (22, 2, "number"),
    (24, 4, "group"),
    (28, 4, "block"),
    (32, 4, "priority"),
    (36, 4, ""),
];

/// The same of an image's header.
const IMAGE: [(usize, usize, &str); 11] = [
    (0, 2, "log count"),
    (2, 2, "held count"),
    (4, 2, "offset of setpoints"),
    (6, 2, "offset of messages"),
    (8, 2, "bytes used"),
    (10, 2, "floors"),
    (12, 2, "offset of floors"),
    (14, 2, "offset of base values"),
    (16, 4, "greatest purged effective block"),
    (20, 4, "greatest purged group"),
    (24, 8, ""),
];

/// A delta of group 1, by the letter of its line.
fn delta(letter: u8, number: u16) -> Draft {
    Draft::new(line(letter), number)
}

/// The run: B1 is executed, C2 waits for C1, D1 for A1; then A1 comes, and is purged.
pub struct Run {
    pub message: Vec<u8>,
    pub image: Vec<u8>,
    pub steps: Vec<u8>,
    pub purged: Vec<u8>,
}

impl Run {
    pub fn of(calls: &dyn Calls) -> Run {
        let mut last = delta(0x0D, 1).priority(1, 7);
        last.dependencies = vec![sequence(line(0x0A), 1), sequence(line(0x0B), 1)];
        let last = last.commands(&[set(5, -1), raise(3, 1490)]);
        let arrivals = [
            delta(0x0B, 1).commands(&[add(3, -20)]),
            delta(0x0C, 2),
            last.clone(),
            delta(0x0A, 1).commands(&[set(3, 1500)]),
        ];
        let mut image = vec![0; 16_384];
        let mut steps = vec![0; 10_160];
        let mut count = 0;
        assert_eq!(calls.empty(&mut image), 0);
        for arrival in arrivals {
            let answer = calls.deliver(&mut image, &arrival.bytes(), &mut steps);
            assert_eq!(code(answer), 0);
            count = undos(answer) + executions(answer);
        }
        steps.truncate(STEP * count);
        let message = last.bytes();
        let mut purged = image.clone();
        assert_eq!(calls.purge(&mut purged, 1), 0);
        Run {
            message,
            image,
            steps,
            purged,
        }
    }

    /// The four parts of the page.
    pub fn parts(&self) -> [String; 4] {
        let steps = self.steps.chunks(STEP).map(step_lines);
        [
            message_lines(&self.message),
            image_lines(&self.image),
            steps.collect(),
            image_lines(&self.purged),
        ]
    }
}

/// A line: the offset, the bytes, what they say.
fn field_line(bytes: &[u8], at: usize, size: usize, says: &str) -> String {
    let bytes: Vec<String> = bytes[at..at + size]
        .iter()
        .map(|byte| format!("{byte:02X}"))
        .collect();
    format!("{at:5}  {:<35}  {says}\n", bytes.join(" "))
}

/// The line of what is left, which is zero.
fn zeros_line(bytes: &[u8], at: usize) -> String {
    assert!(bytes[at..].iter().all(|byte| *byte == 0));
    field_line(bytes, at, 2, "zeros to the end")
}

/// The lines of a header's fields, each with its number.
fn header_lines(bytes: &[u8], fields: &[(usize, usize, &str)]) -> String {
    let says = |at: usize, size: usize, name: &str| match (name, size) {
        ("", _) => "zero".to_string(),
        (_, 6) => name.to_string(),
        _ => {
            let number = bytes[at..at + size].iter();
            let number = number.fold(0, |n: u64, byte| 256 * n + u64::from(*byte));
            format!("{name}: {number}")
        }
    };
    let line = |field: &(usize, usize, &str)| {
        let (at, size, name) = *field;
        field_line(bytes, at, size, &says(at, size, name))
    };
    fields.iter().map(line).collect()
}

/// Line and number of a sequence, as the examples name it.
fn name_at(bytes: &[u8], at: usize) -> String {
    format!("{:X}{}", bytes[at + 5], u16_at(bytes, at + 10))
}

fn message_lines(message: &[u8]) -> String {
    let mut text = header_lines(message, &MESSAGE);
    let commands = u16_at(message, 8);
    for at in (u16_at(message, 6)..commands).step_by(12) {
        let says = format!("dependency: {}", name_at(message, at));
        text += &field_line(message, at, 12, &says);
    }
    for at in (commands..message.len()).step_by(8) {
        let does = ["set", "add", "raise"][usize::from(message[at]) - 1];
        let (tag, value) = (message[at + 1], u32_at(message, at + 4) as i32);
        let says = format!("command: {does}, tag {tag}, {value}");
        text += &field_line(message, at, 8, &says);
    }
    text
}

/// The lines of the values that are not zero, of 64 that begin somewhere.
fn value_lines(image: &[u8], values: &[i32; 64], begin: usize, name: &str) -> String {
    let line = |(tag, value): (usize, &i32)| match value {
        0 => String::new(),
        _ => {
            let says = format!("{name} of tag {tag}: {value}");
            field_line(image, begin + 4 * tag, 4, &says)
        }
    };
    values.iter().enumerate().map(line).collect()
}

fn image_lines(image: &[u8]) -> String {
    let mut text = header_lines(image, &IMAGE);
    text += &value_lines(image, &values(image), u16_at(image, 4), "setpoint");
    text += &value_lines(image, &base_values(image), u16_at(image, 14), "base value");
    for place in 0..floor_count(image) {
        let at = u16_at(image, 12) + 12 * place;
        text += &field_line(image, at, 12, &format!("floor: {}", name_at(image, at)));
    }
    let (log, mut at) = (u16_at(image, 0), u16_at(image, 6));
    for (place, message) in all_messages(image).iter().enumerate() {
        let part = if place < log { "log" } else { "held" };
        let says = format!("{part}: {}, {} bytes", name_at(message, 12), message.len());
        text += &field_line(image, at, 6, &says);
        at += message.len();
    }
    text + &zeros_line(image, at)
}

fn step_lines(step: &[u8]) -> String {
    let kind = ["undo", "execute"][usize::from(step[0]) - 1];
    let count = u16_at(step, 2);
    let mut text = field_line(step, 0, 1, kind);
    text += &field_line(step, 1, 3, &format!("pairs: {count}"));
    text += &field_line(step, 4, 12, &name_at(step, 4));
    for at in (16..16 + 8 * count).step_by(8) {
        let (tag, value) = (u32_at(step, at), u32_at(step, at + 4) as i32);
        text += &field_line(step, at, 8, &format!("tag {tag} to {value}"));
    }
    text + &zeros_line(step, 16 + 8 * count)
}
