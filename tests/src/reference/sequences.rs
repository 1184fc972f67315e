//! The program for service laptops: sequences in either form, printed in the other.

use super::code::Code;
use super::text::{read_sequences, write_sequences, SEQUENCES_ROOM, TEXT_ROOM};

/// Bytes beyond these are dropped; so many are refused in any case.
pub const INPUT: usize = 256;

/// What the program prints for an input, or the code by which it refuses. Printable
/// characters alone, with a line feed behind them or none, are a text.
pub fn other_form(input: &[u8]) -> Result<Vec<u8>, Code> {
    let input = input.get(..INPUT).unwrap_or(input);
    let line = input.strip_suffix(b"\n").unwrap_or(input);
    match line.iter().all(printable) {
        true => bytes_of(line),
        false => line_of(input),
    }
}

/// A character from the blank to the tilde.
fn printable(byte: &u8) -> bool {
    (32..=126).contains(byte)
}

/// The sequences of a text.
fn bytes_of(text: &[u8]) -> Result<Vec<u8>, Code> {
    let mut sequences = vec![0; SEQUENCES_ROOM];
    let length = read_sequences(text, &mut sequences)?;
    sequences.truncate(length);
    Ok(sequences)
}

/// The text of sequences and a line feed.
fn line_of(sequences: &[u8]) -> Result<Vec<u8>, Code> {
    let mut text = vec![0; TEXT_ROOM];
    let length = write_sequences(sequences, &mut text)?;
    text.truncate(length);
    text.push(b'\n');
    Ok(text)
}
