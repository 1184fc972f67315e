//! "The calls" on an image: empty, deliver, log message and its code, setpoint.

use super::bytes::i32_at;
use super::code::Code;
use super::image::{read, read_sized, write, CAPACITY, SETPOINTS, SIZE};
use super::message::Delta;
use super::order::{order, Order, Set};
use super::purged::Purged;
use super::setpoints::COUNT;
use super::steps;

/// How many undos and executions a delivery wrote.
#[derive(Clone, Copy, Debug, Default, PartialEq, Eq)]
pub struct Counts {
    pub undos: usize,
    pub executions: usize,
}

/// Writes the image of no deltas.
pub fn empty(image: &mut [u8]) -> Result<(), Code> {
    if image.len() != SIZE {
        return Err(Code::Size);
    }
    image.copy_from_slice(&empty_image());
    Ok(())
}

/// The image of no deltas, with no floor.
pub fn empty_image() -> Vec<u8> {
    write(&order(&Set::new(), &Purged::nothing()))
}

/// Takes a message into the set of the image, and writes the steps. One at or below its floor
/// joins no set, and 7 and 8 are not looked for.
pub fn deliver(image: &mut [u8], message: &[u8], buffer: &mut [u8]) -> Result<Counts, Code> {
    if image.len() != SIZE || buffer.len() < steps::BUFFER {
        return Err(Code::Size);
    }
    let (mut set, old) = read(image)?;
    let delta = Delta::check(message)?;
    if old.purged.has(&delta.sequence()) || !is_new(&set, &delta)? {
        return Ok(Counts::default());
    }
    set.insert(delta.sequence(), delta);
    let new = order(&set, &old.purged);
    let (counts, bytes) = (write_steps(&old, &new, buffer), write(&new));
    image.copy_from_slice(&bytes);
    Ok(counts)
}

/// Whether the delta joins the set: codes 7 and 8, and a repeat of equal bytes.
pub fn is_new(set: &Set, delta: &Delta) -> Result<bool, Code> {
    match set.get(&delta.sequence()) {
        Some(present) if present.bytes() == delta.bytes() => Ok(false),
        Some(_) => Err(Code::Conflict),
        None if set.len() >= CAPACITY => Err(Code::Full),
        None => Ok(true),
    }
}

/// Writes the steps from the old log to the new one and counts them.
fn write_steps(old: &Order, new: &Order, buffer: &mut [u8]) -> Counts {
    let steps = steps::steps(&steps::run_log(old), &steps::run_log(new));
    steps::write(&steps, buffer);
    Counts {
        undos: steps.undos.len(),
        executions: steps.executions.len(),
    }
}

/// The part of the image that holds the log's message at a place, empty if refused.
pub fn log_message(image: &[u8], place: usize) -> &[u8] {
    find_log_message(image, place).unwrap_or(&[])
}

/// The code of `log_message` on the same arguments, 0 if it is not refused.
pub fn log_message_code(image: &[u8], place: usize) -> u32 {
    find_log_message(image, place).map_or_else(Code::number, |_| 0)
}

fn find_log_message(image: &[u8], place: usize) -> Result<&[u8], Code> {
    let (_, order) = read_sized(image)?;
    let placed = order.log.get(place).ok_or(Code::Place)?;
    Ok(placed.delta.bytes())
}

/// The code, and a tag's value, which is 0 beside a refusal.
pub fn setpoint(image: &[u8], tag: usize) -> (u32, i32) {
    match find_setpoint(image, tag) {
        Ok(value) => (0, value),
        Err(code) => (code.number(), 0),
    }
}

fn find_setpoint(image: &[u8], tag: usize) -> Result<i32, Code> {
    read_sized(image)?;
    if tag >= COUNT {
        return Err(Code::Place);
    }
    Ok(i32_at(image, SETPOINTS + 4 * tag))
}
