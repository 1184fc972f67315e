//! Sequences as text: 24 characters of 0-9 and A-F each, joined by commas.

use super::bytes::{array_at, put};
use super::code::Code;
use super::message::number;

/// Greatest number of sequences.
pub const SEQUENCES: usize = 8;
/// Length of a sequence.
pub const SEQUENCE: usize = 12;
/// Length of a sequence's text, two digits a byte.
pub const DIGITS: usize = 24;
/// The least size of the reader's buffer, eight sequences.
pub const SEQUENCES_ROOM: usize = 96;
/// The least size of the writer's buffer, eight sequences and seven commas.
pub const TEXT_ROOM: usize = 199;

/// Reads a text, writes its sequences end to end and answers their length.
pub fn read_sequences(text: &[u8], sequences: &mut [u8]) -> Result<usize, Code> {
    if sequences.len() < SEQUENCES_ROOM {
        return Err(Code::Size);
    }
    let read = sequences_of(text).ok_or(Code::Form)?;
    check_numbers(&read)?;
    put(sequences, 0, &read);
    Ok(read.len())
}

/// Writes the text of sequences that lie end to end and answers its length.
pub fn write_sequences(sequences: &[u8], text: &mut [u8]) -> Result<usize, Code> {
    if text.len() < TEXT_ROOM {
        return Err(Code::Size);
    }
    let size = sequences.len();
    if size == 0 || size > SEQUENCE * SEQUENCES || size % SEQUENCE != 0 {
        return Err(Code::Form);
    }
    check_numbers(sequences)?;
    let fields: Vec<String> = sequences.chunks(SEQUENCE).map(field).collect();
    let written = fields.join(",");
    put(text, 0, written.as_bytes());
    Ok(written.len())
}

/// Code 14: a number 0000.
fn check_numbers(sequences: &[u8]) -> Result<(), Code> {
    let zero = |sequence: &[u8]| number(&array_at(sequence, 0)) == 0;
    match sequences.chunks(SEQUENCE).any(zero) {
        true => Err(Code::Zero),
        false => Ok(()),
    }
}

/// The sequences of the fields between commas, one to eight; nothing for any other text.
fn sequences_of(text: &[u8]) -> Option<Vec<u8>> {
    let fields: Vec<&[u8]> = text.split(|character| *character == b',').collect();
    if fields.len() > SEQUENCES {
        return None;
    }
    let mut sequences = Vec::new();
    for field in fields {
        sequences.extend(sequence_of(field)?);
    }
    Some(sequences)
}

/// The sequence of one field.
fn sequence_of(field: &[u8]) -> Option<Vec<u8>> {
    if field.len() != DIGITS {
        return None;
    }
    let byte = |pair: &[u8]| Some(16 * digit(pair[0])? + digit(pair[1])?);
    field.chunks(2).map(byte).collect()
}

/// The value of a digit. Small letters are none.
fn digit(character: u8) -> Option<u8> {
    match character {
        b'0'..=b'9' => Some(character - b'0'),
        b'A'..=b'F' => Some(10 + character - b'A'),
        _ => None,
    }
}

/// The digits of one sequence.
pub fn field(sequence: &[u8]) -> String {
    let digits = sequence.iter().map(|byte| format!("{byte:02X}"));
    digits.collect()
}
