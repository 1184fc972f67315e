//! Deliberately wrong walks over an image's messages: in where a message begins, how long it
//! is, and where the messages end.

use crate::boundary::{code, length, offset, packed, Calls, Reference};
use crate::edit::Edit;
use crate::reference::bytes::{put, u16_at, u8_at};
use crate::reference::compose::Request;
use crate::reference::image::{first_message, read_sized, SETPOINTS, SIZE};

/// What is wrong with the walk.
#[derive(Clone, Copy, Debug, PartialEq, Eq)]
pub enum WalkFault {
    /// Begins where the header ends.
    FromHeader,
    /// Adds the length of the first message twice.
    LengthTwice,
    /// Adds the length of the first message at every place.
    FirstLengthAlways,
    /// Gives the length of the next message.
    LengthOfNext,
    /// Finds a log message by lengths and count alone, also in a buffer that is no image.
    Unjudged,
    /// Takes a header whose bytes used are one more than where the messages end.
    UsedOneMore,
    /// Takes a header whose bytes used are one less.
    UsedOneLess,
    /// Goes by the counts of a message, and does not look at its length.
    LengthUnchecked,
    /// Does not look at the offset of messages.
    FirstOffsetUnchecked,
    /// Goes on up to the bytes used, and does not look at the held count.
    HeldUncounted,
}

/// Every wrong walk.
pub const WALK_FAULTS: [WalkFault; 10] = [
    WalkFault::FromHeader,
    WalkFault::LengthTwice,
    WalkFault::FirstLengthAlways,
    WalkFault::LengthOfNext,
    WalkFault::Unjudged,
    WalkFault::UsedOneMore,
    WalkFault::UsedOneLess,
    WalkFault::LengthUnchecked,
    WalkFault::FirstOffsetUnchecked,
    WalkFault::HeldUncounted,
];

/// The second implementation with a wrong walk.
#[derive(Clone, Copy, Debug)]
pub struct FaultyWalk(pub WalkFault);

impl Calls for FaultyWalk {
    fn deliver(&self, image: &mut [u8], message: &[u8], steps: &mut [u8]) -> u32 {
        let mut right = self.put_right(image);
        let answer = Reference.deliver(&mut right, message, steps);
        if code(answer) == 0 {
            image.copy_from_slice(&right);
        }
        answer
    }

    fn compose(&self, image: &[u8], request: &Request, message: &mut [u8]) -> u32 {
        Reference.compose(&self.put_right(image), request, message)
    }

    fn setpoint(&self, image: &[u8], tag: u32) -> u64 {
        Reference.setpoint(&self.put_right(image), tag)
    }

    fn log_message(&self, image: &[u8], place: u32) -> u64 {
        let right = self.put_right(image);
        let answer = Reference.log_message(&right, place);
        match (self.0, code(answer)) {
            (WalkFault::Unjudged, 2) => by_lengths_alone(image, place),
            (_, 0) => self.misplaced(&right, place as usize, answer),
            _ => answer,
        }
    }
}

impl FaultyWalk {
    /// The image that the fault takes a wrong one for: what it does not see is put right.
    fn put_right(&self, image: &[u8]) -> Vec<u8> {
        let mut right = image.to_vec();
        if image.len() != SIZE || read_sized(image).is_ok() {
            return right;
        }
        match self.0 {
            WalkFault::UsedOneMore => Edit::Header(8, 0xFFFF).apply(&mut right),
            WalkFault::UsedOneLess => Edit::Header(8, 1).apply(&mut right),
            WalkFault::LengthUnchecked => lengths_by_counts(&mut right),
            WalkFault::FirstOffsetUnchecked => put_number(&mut right, 6, first_message(image)),
            WalkFault::HeldUncounted => count_held(&mut right),
            _ => {}
        }
        right
    }

    /// Offset and length of a message that is there, as the fault has them.
    fn misplaced(&self, image: &[u8], place: usize, answer: u64) -> u64 {
        let (at, size) = (offset(answer), length(answer));
        let start = first_message(image);
        let first = length_at(image, start);
        match self.0 {
            WalkFault::FromHeader => part(at - start + SETPOINTS, size),
            WalkFault::LengthTwice if place > 0 => part(at + first, size),
            WalkFault::FirstLengthAlways => part(start + place * first, size),
            WalkFault::LengthOfNext => part(at, length_at(image, at + size)),
            _ => answer,
        }
    }
}

/// The answer that gives a part of the image.
fn part(at: usize, size: usize) -> u64 {
    packed(256 * size as u32, at as u32)
}

/// The length field of the message at an offset, 0 past the end.
fn length_at(image: &[u8], at: usize) -> usize {
    usize::from(u16_at(image, at + 4))
}

/// The message at a place that the log count has, wherever the lengths lead.
fn by_lengths_alone(image: &[u8], place: u32) -> u64 {
    if place >= u32::from(u16_at(image, 0)) {
        return 12;
    }
    let next = |at, _| at + length_at(image, at);
    let at = (0..place).fold(first_message(image), next);
    part(at, length_at(image, at))
}

/// Writes into each message the length that its counts give.
fn lengths_by_counts(image: &mut [u8]) {
    let mut at = first_message(image);
    for _ in 0..usize::from(u16_at(image, 0)) + usize::from(u16_at(image, 2)) {
        let (dependencies, commands) = (u8_at(image, at + 2), u8_at(image, at + 3));
        let length = 40 + 12 * usize::from(dependencies) + 8 * usize::from(commands);
        put_number(image, at + 4, length);
        at += length;
    }
}

/// Makes the held count that of the messages up to the bytes used, less the log's.
fn count_held(image: &mut [u8]) {
    let used = usize::from(u16_at(image, 8)).min(image.len());
    let (mut at, mut count) = (first_message(image), 0);
    while at < used && length_at(image, at) > 0 {
        at += length_at(image, at);
        count += 1_usize;
    }
    let log = usize::from(u16_at(image, 0));
    put_number(image, 2, count.saturating_sub(log));
}

/// Writes a number of two bytes.
fn put_number(image: &mut [u8], at: usize, number: usize) {
    put(image, at, &(number as u16).to_be_bytes());
}
