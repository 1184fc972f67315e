//! "The station image": the one image of a purged part and a set of deltas, written and read.

use super::bytes::{array_at, i32_at, put, u16_at, u32_at};
use super::code::Code;
use super::message::{cut_at, line, number, Delta, Sequence, LIMIT, VALUE};
use super::order::{order, Order, Set};
use super::purged::Purged;
use super::setpoints::{run, Setpoints};

/// The size of an image buffer.
pub const SIZE: usize = 16_384;
/// Offset of the setpoints.
pub const SETPOINTS: usize = 32;
/// Offset of the base values.
pub const BASE: usize = 288;
/// Offset of the floors.
pub const FLOORS: usize = 544;
/// Length of a floor: a line and its highest purged number.
pub const FLOOR: usize = 12;
/// The most floors an image has.
pub const MOST_FLOORS: usize = 32;
/// The most deltas an image holds.
pub const CAPACITY: usize = 64;

/// The image of an ordered set.
pub fn write(order: &Order) -> Vec<u8> {
    let mut image = vec![0; SIZE];
    let messages = messages(order.purged.floors.len());
    let mut at = messages;
    let log = order.log.iter().map(|placed| &placed.delta);
    for delta in log.chain(&order.held) {
        put(&mut image, at, delta.bytes());
        at += delta.bytes().len();
    }
    put_u16(&mut image, 0, order.log.len());
    put_u16(&mut image, 2, order.held.len());
    put_u16(&mut image, 4, SETPOINTS);
    put_u16(&mut image, 6, messages);
    put_u16(&mut image, 8, at);
    put_values(&mut image, SETPOINTS, &log_setpoints(order));
    put_purged(&mut image, &order.purged);
    image
}

/// Writes header bytes 10-23, the base values and the floors.
fn put_purged(image: &mut [u8], purged: &Purged) {
    put_u16(image, 10, purged.floors.len());
    put_u16(image, 12, FLOORS);
    put_u16(image, 14, BASE);
    put(image, 16, &purged.block.to_be_bytes());
    put(image, 20, &purged.group.to_be_bytes());
    put_values(image, BASE, &purged.base);
    for (place, (line, number)) in purged.floors.iter().enumerate() {
        let at = FLOORS + FLOOR * place;
        put(image, at, line);
        put(image, at + line.len(), &number.to_be_bytes());
    }
}

/// Offset of the messages, which follow so many floors.
fn messages(floors: usize) -> usize {
    FLOORS + FLOOR * floors
}

/// Offset of the first message, by the number of floors that a buffer counts.
pub fn first_message(buffer: &[u8]) -> usize {
    messages(usize::from(u16_at(buffer, 10)))
}

/// Reads a buffer of an image's size, or refuses it by code 2: the buffer is an
/// image if it equals the image of the purged part and the deltas it lists.
pub fn read(buffer: &[u8]) -> Result<(Set<'_>, Order<'_>), Code> {
    let (set, purged) = listed(buffer).ok_or(Code::Image)?;
    let order = order(&set, &purged);
    if write(&order) == buffer {
        Ok((set, order))
    } else {
        Err(Code::Image)
    }
}

/// As `read`, with code 1 for a buffer of wrong size.
pub fn read_sized(buffer: &[u8]) -> Result<(Set<'_>, Order<'_>), Code> {
    if buffer.len() != SIZE {
        return Err(Code::Size);
    }
    read(buffer)
}

/// The deltas a buffer lists, at most 64 that pass 3 to 6, no sequence twice and none at or
/// below a floor; and its purged part.
pub fn listed(buffer: &[u8]) -> Option<(Set<'_>, Purged)> {
    let purged = listed_purged(buffer)?;
    let count = usize::from(u16_at(buffer, 0)) + usize::from(u16_at(buffer, 2));
    if count > CAPACITY {
        return None;
    }
    let mut set = Set::new();
    let mut at = first_message(buffer);
    for _ in 0..count {
        let delta = Delta::check(cut_at(buffer, at)?).ok()?;
        at += delta.bytes().len();
        if purged.has(&delta.sequence()) || set.insert(delta.sequence(), delta).is_some() {
            return None;
        }
    }
    Some((set, purged))
}

/// The purged part a buffer lists: at most 32 floors, numbers of at least 1, base values,
/// block and group in range; with no floor all of them zero. Floors out of order or two of
/// one line would be written otherwise.
fn listed_purged(buffer: &[u8]) -> Option<Purged> {
    let mut purged = Purged::nothing();
    let count = usize::from(u16_at(buffer, 10));
    if count > MOST_FLOORS {
        return None;
    }
    for place in 0..count {
        let floor: Sequence = array_at(buffer, FLOORS + FLOOR * place);
        if number(&floor) == 0 {
            return None;
        }
        purged.floors.insert(line(&floor), number(&floor));
    }
    purged.block = u32_at(buffer, 16);
    purged.group = u32_at(buffer, 20);
    for (tag, value) in purged.base.iter_mut().enumerate() {
        *value = i32_at(buffer, BASE + 4 * tag);
    }
    if count == 0 && purged != Purged::nothing() {
        return None;
    }
    is_in_range(&purged).then_some(purged)
}

/// Whether base values, block and group keep to their limits.
fn is_in_range(purged: &Purged) -> bool {
    let value = |value: &i32| (-VALUE..=VALUE).contains(value);
    purged.base.iter().all(value) && purged.block <= LIMIT && purged.group <= LIMIT
}

/// The setpoints as the log leaves them, the base values at first.
fn log_setpoints(order: &Order) -> Setpoints {
    let base = order.purged.base;
    order.log.iter().fold(base, |setpoints, placed| {
        run(placed.delta.commands(), setpoints).0
    })
}

/// Writes 64 values, by tag.
fn put_values(image: &mut [u8], at: usize, values: &Setpoints) {
    for (tag, value) in values.iter().enumerate() {
        put(image, at + 4 * tag, &value.to_be_bytes());
    }
}

/// Writes a count or an offset; all of them are below 65,536.
fn put_u16(image: &mut [u8], at: usize, number: usize) {
    let number = u16::try_from(number).unwrap_or(u16::MAX);
    put(image, at, &number.to_be_bytes());
}
