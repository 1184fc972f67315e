//! Deliberately wrong variants of the second implementation. Each shows that the
//! differential runner finds its fault.

mod close;
mod fault;
mod floors;
mod late;
mod narrow;
mod pairs;
mod printing;
mod purges;
mod texts;
mod walks;

pub use fault::{Fault, FAULTS};
pub use printing::{PrintFault, Printer, PRINT_FAULTS};
pub use walks::{FaultyWalk, WalkFault, WALK_FAULTS};

use crate::boundary::{code, executions, length, packed, undos, value, Calls, Reference};
use crate::reference::bytes::{i32_at, put, u16_at};
use crate::reference::code::Code;
use crate::reference::compose::Request;
use crate::reference::image::{self, first_message, listed, read_sized, BASE, SETPOINTS};
use crate::reference::message::Delta;
use crate::reference::setpoints::{run, Setpoints};
use crate::reference::station::empty_image;
use crate::reference::steps::{self, run_log, Steps, STEP};
use crate::view::messages;

/// The second implementation with one fault.
#[derive(Clone, Copy, Debug)]
pub struct Faulty(pub Fault);

impl Calls for Faulty {
    fn empty(&self, image: &mut [u8]) -> u32 {
        let before = image.to_vec();
        let answer = Reference.empty(image);
        if self.0 == Fault::TailNotCleared && answer == 0 {
            image[BASE..].copy_from_slice(&before[BASE..]);
        }
        answer
    }

    fn deliver(&self, image: &mut [u8], message: &[u8], buffer: &mut [u8]) -> u32 {
        if self.0 == Fault::FullAt63 && makes_64(image, message) {
            return if buffer.len() < steps::BUFFER { 1 } else { 8 };
        }
        if self.0 == Fault::ShortRoom && buffer.len() + 1 == steps::BUFFER {
            return pairs::with_short_room(image, message, buffer);
        }
        if let Some(other) = self.of_floors(image, message, buffer) {
            return other;
        }
        if close::has_own_rule(self.0) {
            let answer = close::deliver(self.0, image, message, buffer);
            return answer.unwrap_or_else(Code::number);
        }
        let (before, untouched) = (image.to_vec(), buffer.to_vec());
        let answer = Reference.deliver(image, message, buffer);
        if code(answer) == 0 {
            if let Some(other) = self.without_steps(&before, image) {
                buffer.copy_from_slice(&untouched);
                return other;
            }
        }
        match (self.0, code(answer)) {
            (Fault::RepeatWrites, 0) => repeat_writes(&before, image, message, buffer, answer),
            (Fault::CountsOff, 0) if undos(answer) > 0 => answer + 65_536,
            (Fault::UndoesEverything, 0) => undoes_everything(&before, image, buffer, answer),
            (Fault::RefusalWrites, 7) => {
                buffer[..STEP].fill(0);
                answer
            }
            (Fault::StepsCleared, 0) => {
                buffer[STEP * (undos(answer) + executions(answer))..].fill(0);
                answer
            }
            (Fault::FullBeforeConflict, 7) if count(&before) == 64 => 8,
            (Fault::First140Compared, 7) if narrow::begins_as_present(&before, message) => 0,
            (Fault::RangeBeforeDependencies, 5) if range_is_wrong(message) => 6,
            (Fault::TailUnchecked, 2) => without_tail(image, message, buffer),
            (Fault::SetpointsUnchecked, 2) => without_setpoints(image, message, buffer),
            (Fault::BaseUnused, 0) if *image != before[..] => {
                forget_base(image);
                answer
            }
            (Fault::LeavesImage, 0) => {
                image.copy_from_slice(&before);
                answer
            }
            (fault, 0) => {
                pairs::spoil(fault, (&before, image), &untouched, buffer);
                answer
            }
            _ => answer,
        }
    }

    fn compose(&self, image: &[u8], request: &Request, message: &mut [u8]) -> u32 {
        let before = message.to_vec();
        let answer = Reference.compose(image, request, message);
        if code(answer) != 0 {
            return answer;
        }
        match self.0 {
            Fault::ComposeClears => message[length(answer)..].fill(0),
            Fault::ComposeNextGroup if u16_at(image, 0) > 0 => next_group(image, message),
            Fault::ComposeAtEight if message[2] == 8 => {
                message.copy_from_slice(&before);
                return 11;
            }
            fault => floors::compose(fault, image, message),
        }
        answer
    }

    fn setpoint(&self, image: &[u8], tag: u32) -> u64 {
        let answer = Reference.setpoint(image, tag);
        match (self.0, code(answer)) {
            (Fault::TagWraps, 12) => Reference.setpoint(image, tag % 64),
            (Fault::SetpointUnjudged, 2) if tag < 64 => {
                packed(0, i32_at(image, SETPOINTS + 4 * tag as usize) as u32)
            }
            (Fault::SignLost, 0) => packed(0, value(answer).unsigned_abs()),
            (fault, 2) if tag < 64 && floors::passes(fault, image) => {
                packed(0, i32_at(image, SETPOINTS + 4 * tag as usize) as u32)
            }
            _ => answer,
        }
    }

    fn log_message(&self, image: &[u8], place: u32) -> u64 {
        let answer = Reference.log_message(image, place);
        match (self.0, code(answer)) {
            (Fault::LastPlaceRefused, 0) if place + 1 == u32::from(u16_at(image, 0)) => 12,
            (Fault::HeldAsLog, 12) if place < u32::from(count(image)) => held_as_log(image, place),
            (Fault::OffsetFromMessages, 0) => answer - packed(0, first_message(image) as u32),
            _ => answer,
        }
    }

    fn purge(&self, image: &mut [u8], k: u32) -> u32 {
        purges::purge(self.0, image, k)
    }

    fn read_sequences(&self, text: &[u8], sequences: &mut [u8]) -> u32 {
        texts::read(self.0, text, sequences)
    }

    fn write_sequences(&self, sequences: &[u8], text: &mut [u8]) -> u32 {
        texts::write(self.0, sequences, text)
    }
}

impl Faulty {
    /// The answer to a right delivery of a fault that takes floors for something else.
    fn of_floors(&self, image: &[u8], message: &[u8], buffer: &[u8]) -> Option<u32> {
        let taken = buffer.len() >= steps::BUFFER && Delta::check(message).is_ok();
        taken.then(|| floors::delivery(self.0, image, message))?
    }

    /// The answer of a fault that writes no steps where a delivery is accepted; the image is
    /// made to fit.
    fn without_steps(&self, before: &[u8], image: &mut [u8]) -> Option<u32> {
        match self.0 {
            Fault::EchoesLater if count(before) > 0 => image.copy_from_slice(before),
            Fault::SameLog => image.copy_from_slice(&empty_image()),
            Fault::RefusesAll => image.copy_from_slice(before),
            _ => return None,
        }
        Some(if self.0 == Fault::RefusesAll { 3 } else { 0 })
    }
}

/// The message at a place of log and held ones together.
fn held_as_log(image: &[u8], place: u32) -> u64 {
    let before = messages(image, 0, place as usize);
    let offset = first_message(image) + before.concat().len();
    packed(256 * u32::from(u16_at(image, offset + 4)), offset as u32)
}

/// How many deltas an image counts.
fn count(image: &[u8]) -> u16 {
    u16_at(image, 0).wrapping_add(u16_at(image, 2))
}

/// Whether the message would be the 64th delta of the image.
fn makes_64(image: &[u8], message: &[u8]) -> bool {
    let mut copy = image.to_vec();
    let answer = Reference.deliver(&mut copy, message, &mut [0; steps::BUFFER]);
    code(answer) == 0 && count(image) == 63 && count(&copy) == 64
}

fn repeat_writes(
    before: &[u8],
    image: &[u8],
    message: &[u8],
    buffer: &mut [u8],
    answer: u32,
) -> u32 {
    if before == image {
        buffer[..4].copy_from_slice(&[2, 0, 0, message[3]]);
        buffer[4..16].copy_from_slice(&message[12..24]);
    }
    answer
}

/// The steps over both logs whole.
fn undoes_everything(before: &[u8], image: &[u8], buffer: &mut [u8], answer: u32) -> u32 {
    let (old, new) = match (read_sized(before), read_sized(image)) {
        (Ok((_, old)), Ok((_, new))) => (old, new),
        _ => return answer,
    };
    let (mut undos, executions) = (run_log(&old), run_log(&new));
    undos.reverse();
    let all = Steps { undos, executions };
    steps::write(&all, buffer);
    close::counts(&all)
}

/// Whether the message without its dependencies answers 6.
fn range_is_wrong(message: &[u8]) -> bool {
    let commands = 40 + 12 * usize::from(message[2]);
    let mut alone = [&message[..40], &message[commands..]].concat();
    alone[2] = 0;
    alone[4..10].copy_from_slice(&[0, 40 + 8 * message[3], 0, 40, 0, 40]);
    Delta::check(&alone).is_err()
}

fn without_tail(image: &mut [u8], message: &[u8], buffer: &mut [u8]) -> u32 {
    let mut copy = image.to_vec();
    let used = usize::from(u16_at(&copy, 8)).min(copy.len());
    copy[used..].fill(0);
    let answer = Reference.deliver(&mut copy, message, buffer);
    if code(answer) != 2 {
        image.copy_from_slice(&copy);
    }
    answer
}

fn without_setpoints(image: &mut [u8], message: &[u8], buffer: &mut [u8]) -> u32 {
    match rebuilt(image) {
        Some(mut right) => {
            let answer = Reference.deliver(&mut right, message, buffer);
            image.copy_from_slice(&right);
            answer
        }
        None => 2,
    }
}

/// The image with its setpoints computed anew, if that makes it one.
fn rebuilt(image: &[u8]) -> Option<Vec<u8>> {
    let mut setpoints = listed(image)?.1.base;
    let mut at = first_message(image);
    for _ in 0..u16_at(image, 0).min(64) {
        let length = usize::from(u16_at(image, at + 4));
        let delta = Delta::check(image.get(at..at + length)?).ok()?;
        (setpoints, _) = run(delta.commands(), setpoints);
        at += length;
    }
    let mut image = image.to_vec();
    write_setpoints(&mut image, &setpoints);
    read_sized(&image).is_ok().then_some(image)
}

/// Writes the setpoints of an image.
fn write_setpoints(image: &mut [u8], setpoints: &Setpoints) {
    for (tag, setpoint) in setpoints.iter().enumerate() {
        put(image, SETPOINTS + 4 * tag, &setpoint.to_be_bytes());
    }
}

/// Writes the setpoints of the log run from zero.
fn forget_base(image: &mut [u8]) {
    let before = image.to_vec();
    if let Ok((_, order)) = read_sized(&before) {
        let from_zero = image::write(&floors::without_base(&order));
        image[SETPOINTS..BASE].copy_from_slice(&from_zero[SETPOINTS..BASE]);
    }
}

/// The highest group of the log plus one.
fn next_group(image: &[u8], message: &mut [u8]) {
    if let Ok((_, order)) = read_sized(image) {
        let highest = order.log.iter().map(|p| p.delta.group()).max().unwrap_or(0);
        message[24..28].copy_from_slice(&(highest + 1).to_be_bytes());
    }
}
