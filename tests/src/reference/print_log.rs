//! The program for service laptops that prints a log: one line for each of its messages.

use super::bytes::{i32_at, u8_at};
use super::image::{first_message, read_sized};
use super::message::{Delta, COMMAND};
use super::order::Order;
use super::text::field;

/// What the program prints for an input: the log, or the code by which it refuses.
pub fn print_log(input: &[u8]) -> String {
    match read_sized(input) {
        Ok((_, order)) => lines(&order, first_message(input)),
        Err(code) => format!("{}\n", code.number()),
    }
}

/// The log's messages from first to last, the first at an offset; the held ones are left out.
fn lines(order: &Order, first: usize) -> String {
    let mut offset = first;
    let mut printed = String::new();
    for (place, placed) in order.log.iter().enumerate() {
        printed += &line(place, offset, &placed.delta);
        offset += placed.delta.bytes().len();
    }
    printed
}

/// Place, offset, length and sequence, then tag and value of each command.
fn line(place: usize, offset: usize, delta: &Delta) -> String {
    let (length, sequence) = (delta.bytes().len(), field(&delta.sequence()));
    let mut line = format!("{place} {offset} {length} {sequence}");
    for command in delta.commands().chunks(COMMAND) {
        line += &format!(" {} {}", u8_at(command, 1), i32_at(command, 4));
    }
    line + "\n"
}
