//! Compose: a new delta of a line on top of the whole log.

use std::collections::BTreeSet;

use super::bytes::put;
use super::code::Code;
use super::image::{read, SIZE};
use super::message::{
    commands_are_right, line, number, predecessor, sequence, Explicit, Line, Sequence, COMMAND,
    COMMANDS, DEPENDENCIES, DEPENDENCY, HEADER, LIMIT, LONGEST,
};
use super::order::Order;

/// What is handed over beside the image and the message buffer.
#[derive(Clone, Copy, Debug)]
pub struct Request<'a> {
    pub line: &'a [u8],
    pub commands: &'a [u8],
    pub priority_flag: u32,
    pub priority: u32,
}

/// The fields that follow from the log.
struct Header {
    sequence: Sequence,
    group: u32,
    explicit: Option<Explicit>,
    dependencies: Vec<Sequence>,
}

/// Writes the composed message and answers its length.
pub fn compose(image: &[u8], request: &Request, message: &mut [u8]) -> Result<usize, Code> {
    let line: Line = request.line.try_into().map_err(|_| Code::Size)?;
    if image.len() != SIZE || message.len() < LONGEST {
        return Err(Code::Size);
    }
    let (_, order) = read(image)?;
    check_request(request)?;
    let header = header(&order, &line, request)?;
    let bytes = bytes_of(&header, request.commands);
    put(message, 0, &bytes);
    Ok(bytes.len())
}

/// Code 3 for the size of the commands, 6 for flag, priority and commands.
fn check_request(request: &Request) -> Result<(), Code> {
    let size = request.commands.len();
    if size == 0 || size > COMMAND * COMMANDS || size % COMMAND != 0 {
        return Err(Code::Layout);
    }
    let priority_is_right = match request.priority_flag {
        0 => request.priority == 0,
        1 => request.priority <= LIMIT,
        _ => false,
    };
    if !priority_is_right || !commands_are_right(request.commands) {
        return Err(Code::Range);
    }
    Ok(())
}

/// The fields of the new delta, or code 9, 10 or 11.
fn header(order: &Order, own: &Line, request: &Request) -> Result<Header, Code> {
    if order
        .held
        .iter()
        .any(|delta| line(&delta.sequence()) == *own)
    {
        return Err(Code::HeldLine);
    }
    let sequence = sequence(own, next_number(order, own)?);
    let group = next_group(order, &sequence)?;
    let explicit = match request.priority_flag {
        0 => None,
        _ => Some(Explicit {
            block: next_block(order)?,
            priority: request.priority,
        }),
    };
    let dependencies = dependencies(order, &sequence);
    if dependencies.len() > DEPENDENCIES {
        return Err(Code::Crowded);
    }
    Ok(Header {
        sequence,
        group,
        explicit,
        dependencies,
    })
}

/// One more than the line's greatest number in the log, or than its floor, or 0001.
fn next_number(order: &Order, own: &Line) -> Result<u16, Code> {
    let sequences = order.log.iter().map(|placed| placed.delta.sequence());
    let greatest = sequences
        .filter(|s| line(s) == *own)
        .map(|s| number(&s))
        .max();
    let greatest = greatest.unwrap_or(0).max(order.purged.floor(own));
    greatest.checked_add(1).ok_or(Code::Limit)
}

/// The highest, of log and purged part, plus one on an empty log, or if the last delta's
/// sequence is above the new one; else the highest.
fn next_group(order: &Order, new: &Sequence) -> Result<u32, Code> {
    let groups = order.log.iter().map(|placed| placed.delta.group());
    let highest = groups.fold(order.purged.group, u32::max);
    match order.log.last() {
        Some(last) if last.delta.sequence() <= *new => Ok(highest),
        _ => below_limit(highest),
    }
}

/// The highest effective block, of log and purged part, plus one.
fn next_block(order: &Order) -> Result<u32, Code> {
    let blocks = order.log.iter().map(|placed| placed.effective_block);
    below_limit(blocks.fold(order.purged.block, u32::max))
}

/// One more, or code 10.
fn below_limit(highest: u32) -> Result<u32, Code> {
    if highest < LIMIT {
        Ok(highest + 1)
    } else {
        Err(Code::Limit)
    }
}

/// The log deltas that no other log delta needs, less the predecessor; ascending.
fn dependencies(order: &Order, new: &Sequence) -> Vec<Sequence> {
    let mut ends: BTreeSet<Sequence> = order.log_sequences().into_iter().collect();
    for placed in &order.log {
        for need in placed.delta.needs() {
            ends.remove(&need);
        }
    }
    if let Some(before) = predecessor(new) {
        ends.remove(&before);
    }
    ends.into_iter().collect()
}

/// The message on the wire.
fn bytes_of(header: &Header, commands: &[u8]) -> Vec<u8> {
    let commands_start = HEADER + DEPENDENCY * header.dependencies.len();
    let length = commands_start + commands.len();
    let mut bytes = vec![0; length];
    bytes[0] = 1;
    bytes[1] = u8::from(header.explicit.is_some());
    bytes[2] = header.dependencies.len() as u8;
    bytes[3] = (commands.len() / COMMAND) as u8;
    put(&mut bytes, 4, &(length as u16).to_be_bytes());
    put(&mut bytes, 6, &(HEADER as u16).to_be_bytes());
    put(&mut bytes, 8, &(commands_start as u16).to_be_bytes());
    put(&mut bytes, 12, &header.sequence);
    put(&mut bytes, 24, &header.group.to_be_bytes());
    if let Some(explicit) = header.explicit {
        put(&mut bytes, 28, &explicit.block.to_be_bytes());
        put(&mut bytes, 32, &explicit.priority.to_be_bytes());
    }
    for (place, dependency) in header.dependencies.iter().enumerate() {
        put(&mut bytes, HEADER + DEPENDENCY * place, dependency);
    }
    put(&mut bytes, commands_start, commands);
    bytes
}
