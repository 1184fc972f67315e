//! Edits of an image: damage of every kind, and changes that leave it an image.

use crate::view::{BASE, FLOORS, SETPOINTS};
use crate::wire::{Draft, Line, Sequence};

/// One change of an image buffer. Places and offsets beyond what there is wrap round.
#[derive(Clone, Debug, PartialEq, Eq)]
pub enum Edit {
    /// Flips one bit anywhere.
    Bit(usize),
    /// Sets a byte.
    Byte(usize, u8),
    /// Adds to the two-byte number at an offset of the header.
    Header(usize, u16),
    /// Adds to a setpoint.
    Setpoint(usize, i32),
    /// Adds to a base value.
    Base(usize, i32),
    /// Makes a base value and its setpoint this one.
    BaseAndSetpoint(usize, i32),
    /// Makes the four-byte number at an offset of the header this one.
    Word(usize, u32),
    /// Exclusive-ors a byte past the used part.
    Tail(usize, u8),
    /// Exclusive-ors a byte of a message.
    Message(usize, usize, u8),
    /// Exchanges two messages.
    Swap(usize, usize),
    /// Puts another message in the place of one, with the used part made to match.
    Instead(usize, Vec<u8>),
    /// Repeats a message right after itself, with counts and used part made to match.
    Double(usize),
    /// Leaves a message out, with counts and used part made to match.
    Drop(usize),
    /// Counts one message of the log as held (true), or one held as in the log.
    Border(bool),
    /// Adds held deltas until there are so many.
    Fill(usize),
    /// Exclusive-ors a byte of a floor.
    Floor(usize, usize, u8),
    /// Exchanges two floors.
    SwapFloors(usize, usize),
    /// Repeats a floor right after itself, with header and messages made to match.
    DoubleFloor(usize),
    /// Leaves a floor out, with header and messages made to match.
    DropFloor(usize),
    /// Adds a floor in its place by line and number, with header and messages made to match.
    AddFloor(Sequence),
}

/// A line above those of the generator, for `Fill`.
const FILLER: Line = [0xFF, 0xFF, 0xFF, 0xFF, 0xFF, 0xFF, 0xFF, 0xFF, 0xFF, 0xFF];

impl Edit {
    /// Changes the image.
    pub fn apply(&self, image: &mut [u8]) {
        match *self {
            Edit::Bit(bit) => flip(image, bit / 8, 1 << (bit % 8)),
            Edit::Byte(at, value) => put(image, at, &[value]),
            Edit::Header(at, add) => {
                let sum = number(image, at).wrapping_add(add);
                put(image, at, &sum.to_be_bytes());
            }
            Edit::Setpoint(tag, add) => edit_value(image, SETPOINTS + 4 * (tag % 64), add),
            Edit::Base(tag, add) => edit_value(image, BASE + 4 * (tag % 64), add),
            Edit::BaseAndSetpoint(tag, value) => {
                for start in [BASE, SETPOINTS] {
                    put(image, start + 4 * (tag % 64), &value.to_be_bytes());
                }
            }
            Edit::Word(at, word) => put(image, at, &word.to_be_bytes()),
            Edit::Tail(at, bits) => {
                let used = usize::from(number(image, 8)).min(image.len());
                let room = (image.len() - used).max(1);
                flip(image, used + at % room, bits);
            }
            Edit::Border(to_held) => {
                let step: u16 = if to_held { 1 } else { u16::MAX };
                Edit::Header(0, step.wrapping_neg()).apply(image);
                Edit::Header(2, step).apply(image);
            }
            _ => {
                let mut parts = Parts::of(image);
                self.apply_to_messages(&mut parts);
                self.apply_to_floors(&mut parts);
                parts.write(image);
            }
        }
    }

    /// The edits of whole messages.
    fn apply_to_messages(&self, parts: &mut Parts) {
        let count = parts.messages.len();
        if count > 0 {
            match *self {
                Edit::Message(place, at, bits) => {
                    let message = &mut parts.messages[place % count];
                    let at = at % message.len().max(1);
                    flip(message, at, bits);
                }
                Edit::Instead(place, ref other) => parts.messages[place % count] = other.clone(),
                Edit::Swap(one, two) => parts.messages.swap(one % count, two % count),
                Edit::Double(place) => parts.double(place % count),
                Edit::Drop(place) => parts.drop(place % count),
                _ => {}
            }
        }
        if let Edit::Fill(wanted) = *self {
            parts.fill(wanted);
        }
    }

    /// The edits of whole floors.
    fn apply_to_floors(&self, parts: &mut Parts) {
        let floors = &mut parts.floors;
        let count = floors.len();
        match *self {
            Edit::AddFloor(floor) => {
                let place = floors.iter().filter(|other| **other < floor).count();
                floors.insert(place, floor);
            }
            _ if count == 0 => {}
            Edit::Floor(place, at, bits) => flip(&mut floors[place % count], at % 12, bits),
            Edit::SwapFloors(one, two) => floors.swap(one % count, two % count),
            Edit::DoubleFloor(place) => floors.insert(place % count, floors[place % count]),
            Edit::DropFloor(place) => drop(floors.remove(place % count)),
            _ => {}
        }
    }
}

/// Counts, floors and messages of an image.
struct Parts {
    log: usize,
    held: usize,
    floors: Vec<Sequence>,
    messages: Vec<Vec<u8>>,
}

impl Parts {
    /// The floors as far as the image goes, the messages as far as their lengths can be
    /// followed.
    fn of(image: &[u8]) -> Parts {
        let (log, held) = (usize::from(number(image, 0)), usize::from(number(image, 2)));
        let floors = image.get(FLOORS..).unwrap_or(&[]).chunks_exact(12);
        let floors = floors.take(usize::from(number(image, 10)));
        let floors: Vec<Sequence> = floors.filter_map(|floor| floor.try_into().ok()).collect();
        let mut messages = Vec::new();
        let mut at = FLOORS + 12 * floors.len();
        for _ in 0..(log + held).min(100) {
            let length = usize::from(number(image, at + 4));
            match image.get(at..at + length) {
                Some(message) => messages.push(message.to_vec()),
                None => break,
            }
            at += length;
        }
        Parts {
            log,
            held,
            floors,
            messages,
        }
    }

    /// Repeats the message at a place.
    fn double(&mut self, place: usize) {
        self.messages.insert(place, self.messages[place].clone());
        *self.count_of(place) += 1;
    }

    /// Leaves out the message at a place.
    fn drop(&mut self, place: usize) {
        self.messages.remove(place);
        let count = self.count_of(place);
        *count = count.saturating_sub(1);
    }

    /// Adds held deltas of a high line.
    fn fill(&mut self, wanted: usize) {
        for filler in 2..2 + wanted.saturating_sub(self.messages.len()) {
            self.messages
                .push(Draft::new(FILLER, filler as u16).bytes());
            self.held += 1;
        }
    }

    /// The count, of log or of held, that a place falls under.
    fn count_of(&mut self, place: usize) -> &mut usize {
        if place < self.log {
            &mut self.log
        } else {
            &mut self.held
        }
    }

    /// Writes counts, offset of messages, used part, floors and messages; the rest becomes zero.
    fn write(&self, image: &mut [u8]) {
        let (floors, messages) = (self.floors.concat(), self.messages.concat());
        let first = FLOORS + floors.len();
        let used = first + messages.len();
        let numbers = [(0, self.log), (2, self.held), (6, first), (8, used)];
        for (at, number) in numbers.into_iter().chain([(10, self.floors.len())]) {
            put(image, at, &(number as u16).to_be_bytes());
        }
        if let Some(tail) = image.get_mut(FLOORS..) {
            tail.fill(0);
        }
        put(image, FLOORS, &floors);
        put(image, first, &messages);
    }
}

/// Adds to a setpoint or a base value without a stop.
fn edit_value(image: &mut [u8], at: usize, add: i32) {
    if let Some(bytes) = image.get(at..at + 4) {
        let old = bytes.iter().fold(0_u32, |n, b| n << 8 | u32::from(*b));
        let new = old.wrapping_add(add as u32);
        put(image, at, &new.to_be_bytes());
    }
}

/// Exclusive-ors a byte, if it is there.
fn flip(bytes: &mut [u8], at: usize, bits: u8) {
    if let Some(byte) = bytes.get_mut(at) {
        *byte ^= bits;
    }
}

/// The two-byte number at an offset, 0 past the end.
fn number(bytes: &[u8], at: usize) -> u16 {
    let byte = |at: usize| bytes.get(at).copied().unwrap_or(0);
    u16::from_be_bytes([byte(at), byte(at + 1)])
}

/// Writes bytes that fit.
fn put(bytes: &mut [u8], at: usize, source: &[u8]) {
    if let Some(target) = bytes.get_mut(at..at + source.len()) {
        target.copy_from_slice(source);
    }
}
