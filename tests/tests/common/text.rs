//! The reader and the writer of texts, each with what must stay as it was.

use super::{PATTERN, SUBJECT};
use bivamolune_tests::boundary::{code, length, Calls};

/// The least sizes of the buffers.
pub const SEQUENCES_ROOM: usize = 96;
pub const TEXT_ROOM: usize = 199;

/// The sequence `0102030405060708090A0B0C`, and that text.
pub const ONE: [u8; 12] = [1, 2, 3, 4, 5, 6, 7, 8, 9, 10, 11, 12];
pub const ONE_TEXT: &str = "0102030405060708090A0B0C";

/// A right text of so many sequences, whose characters are digits and letters in turn.
pub fn some_text(count: usize) -> Vec<u8> {
    let fields = vec!["0A1B2C3D4E5F9876543210FE"; count];
    fields.join(",").into_bytes()
}

/// The sequences of `some_text`.
pub fn some_sequences(count: usize) -> Vec<u8> {
    let one = [
        0x0A, 0x1B, 0x2C, 0x3D, 0x4E, 0x5F, 0x98, 0x76, 0x54, 0x32, 0x10, 0xFE,
    ];
    one.repeat(count)
}

/// What the reader answers, with a buffer of the least size.
pub fn read(text: &[u8]) -> (u32, Vec<u8>) {
    read_into(text, SEQUENCES_ROOM)
}

/// The code, and what was written. The text and the bytes past the sequences must be
/// unchanged, and all bytes on a refusal.
pub fn read_into(text: &[u8], room: usize) -> (u32, Vec<u8>) {
    checked(text, room, |from, into| SUBJECT.read_sequences(from, into))
}

/// What the writer answers, with a buffer of the least size.
pub fn write(sequences: &[u8]) -> (u32, Vec<u8>) {
    write_into(sequences, TEXT_ROOM)
}

/// The same of the writer.
pub fn write_into(sequences: &[u8], room: usize) -> (u32, Vec<u8>) {
    checked(sequences, room, |from, into| {
        SUBJECT.write_sequences(from, into)
    })
}

/// Makes the call on buffers of two patterns, so that a byte that is written with the value
/// it had is seen too.
fn checked(from: &[u8], room: usize, call: impl Fn(&[u8], &mut [u8]) -> u32) -> (u32, Vec<u8>) {
    let copy = from.to_vec();
    let (mut buffer, mut other) = (vec![PATTERN; room], vec![!PATTERN; room]);
    let answer = call(&copy, &mut buffer);
    assert_eq!(call(&copy, &mut other), answer, "the same call again");
    assert_eq!(copy, from, "what is only read was written");
    let written = length(answer);
    assert_eq!(written == 0, code(answer) != 0, "length beside the code");
    assert!(buffer[written..].iter().all(|byte| *byte == PATTERN));
    assert!(other[written..].iter().all(|byte| *byte == !PATTERN));
    buffer.truncate(written);
    assert_eq!(buffer, other[..written], "the whole length was written");
    (code(answer), buffer)
}

/// The code of a refusal, which writes nothing.
pub fn refusal(code: u32) -> (u32, Vec<u8>) {
    (code, Vec::new())
}
