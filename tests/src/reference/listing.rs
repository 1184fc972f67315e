//! The listing program: messages end to end, one line each, and a last line.

use super::bytes::u16_at;
use super::code::Code;
use super::station::{deliver, empty_image, Counts};
use super::steps;

/// Bytes beyond these are dropped.
pub const INPUT: usize = 60_000;

/// What the program prints for an input.
pub fn listing(input: &[u8]) -> String {
    let mut rest = input.get(..INPUT).unwrap_or(input);
    let mut image = empty_image();
    let mut buffer = vec![0; steps::BUFFER];
    let mut printed = String::new();
    for number in 1.. {
        if rest.is_empty() {
            break;
        }
        match cut(rest) {
            Some((message, after)) => {
                printed += &line(number, deliver(&mut image, message, &mut buffer));
                rest = after;
            }
            None => {
                printed += &line(number, Err(Code::Layout));
                break;
            }
        }
    }
    let (log, held) = (u16_at(&image, 0), u16_at(&image, 2));
    printed + &format!("log {log} held {held}\n")
}

/// The message at the front and what follows it; nothing for a cut outside 48..200
/// or past the end, or for a rest of one to five bytes.
fn cut(rest: &[u8]) -> Option<(&[u8], &[u8])> {
    if rest.len() < 6 {
        return None;
    }
    let length = usize::from(u16_at(rest, 4));
    if !(48..=200).contains(&length) || length > rest.len() {
        return None;
    }
    Some(rest.split_at(length))
}

/// Message number, code, undos, executions.
fn line(number: u32, result: Result<Counts, Code>) -> String {
    let code = result.map_or_else(Code::number, |_| 0);
    let counts = result.unwrap_or_default();
    format!("{number} {code} {} {}\n", counts.undos, counts.executions)
}
