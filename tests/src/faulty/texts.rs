//! The faults of sequences as text. Each makes the call again on a text that is put right,
//! or changes what was written.

use super::Fault;
use crate::boundary::{code, length, Calls, Reference};
use crate::wire;

/// The reader with a fault.
pub fn read(fault: Fault, text: &[u8], sequences: &mut [u8]) -> u32 {
    let before = sequences.to_vec();
    let answer = Reference.read_sequences(text, sequences);
    match (fault, code(answer)) {
        (Fault::FormBeforeSize, 1) => {
            form_before_size(Reference.read_sequences(text, &mut [0; 96]))
        }
        (Fault::RoomOf95, 1) if before.len() == 95 => with_room(sequences, 96, |larger| {
            Reference.read_sequences(text, larger)
        }),
        (Fault::ZeroBeforeForm, 13) if a_field_ends_in_zeros(text) => 14,
        (_, 13) => Reference.read_sequences(&put_right(fault, text), sequences),
        (_, 14) => refused_by_14(fault, text, sequences),
        (Fault::RepeatsRefused, 0) if repeats(&sequences[..length(answer)]) => {
            sequences.copy_from_slice(&before);
            13
        }
        (Fault::CountsSequences, 0) => answer / 12,
        (_, 0) => {
            spoil_sequences(fault, sequences, length(answer));
            answer
        }
        _ => answer,
    }
}

/// The writer with a fault.
pub fn write(fault: Fault, sequences: &[u8], text: &mut [u8]) -> u32 {
    let before = text.to_vec();
    let sorted = sorted(sequences);
    let from = match fault {
        Fault::Ascending => &sorted,
        _ => sequences,
    };
    let answer = Reference.write_sequences(from, text);
    match (fault, code(answer)) {
        (Fault::FormBeforeSize, 1) => {
            form_before_size(Reference.write_sequences(sequences, &mut [0; 199]))
        }
        (Fault::RoomOf198, 1) if before.len() == 198 => with_room(text, 199, |larger| {
            Reference.write_sequences(sequences, larger)
        }),
        (Fault::NineWritten, 13) => write_nine(sequences, text),
        (Fault::WritesZero, 14) => write_unjudged(sequences, text),
        (_, 0) => {
            spoil_text(fault, text, length(answer));
            answer
        }
        _ => answer,
    }
}

/// What a size that is refused hides: 13 goes before it.
fn form_before_size(with_room: u32) -> u32 {
    match code(with_room) {
        13 => 13,
        _ => 1,
    }
}

/// The call on a larger buffer, of which what fits is kept.
fn with_room(buffer: &mut [u8], size: usize, call: impl Fn(&mut [u8]) -> u32) -> u32 {
    let mut larger = buffer.to_vec();
    larger.resize(size, 0);
    let answer = call(&mut larger);
    buffer.copy_from_slice(&larger[..buffer.len()]);
    answer
}

/// The text that a fault takes a wrong one for.
fn put_right(fault: Fault, text: &[u8]) -> Vec<u8> {
    let mut right = text.to_vec();
    match fault {
        Fault::SmallLettersRead => right.make_ascii_uppercase(),
        Fault::LetterG => replace(&mut right, b'G', b'0'),
        Fault::ColonRead => replace(&mut right, b':', b'A'),
        Fault::CommaUnchecked => right
            .iter_mut()
            .skip(24)
            .step_by(25)
            .for_each(|c| *c = b','),
        Fault::CommaLast if right.last() == Some(&b',') => drop(right.pop()),
        // The ninth is read and dropped.
        Fault::NineRead if right.len() == 224 => right.truncate(199),
        _ => {}
    }
    right
}

fn replace(text: &mut [u8], old: u8, new: u8) {
    let found = text.iter_mut().filter(|character| **character == old);
    found.for_each(|character| *character = new);
}

/// Whether some field between commas ends in four zeros.
fn a_field_ends_in_zeros(text: &[u8]) -> bool {
    let mut fields = text.split(|character| *character == b',');
    fields.any(|field| field.ends_with(b"0000"))
}

/// What becomes of a text with a number 0000.
fn refused_by_14(fault: Fault, text: &[u8], sequences: &mut [u8]) -> u32 {
    let ones: Vec<u8> = text
        .iter()
        .map(|c| if *c == b',' { b',' } else { b'1' })
        .collect();
    let last_is_zero = text.ends_with(b"0000");
    match fault {
        Fault::LastNumberOnly if !last_is_zero => {
            let answer = Reference.read_sequences(&ones, sequences);
            put_digits(text, sequences);
            answer
        }
        Fault::ReadsThenRefuses => {
            put_digits(text, sequences);
            14
        }
        _ => 14,
    }
}

/// Writes the sequences of a text of right form.
fn put_digits(text: &[u8], sequences: &mut [u8]) {
    let digit = |c: u8| (c as char).to_digit(16).unwrap_or(0) as u8;
    let digits: Vec<u8> = text
        .iter()
        .filter(|c| **c != b',')
        .map(|c| digit(*c))
        .collect();
    for (byte, pair) in sequences.iter_mut().zip(digits.chunks(2)) {
        *byte = 16 * pair[0] + pair[1];
    }
}

/// Whether a sequence stands twice.
fn repeats(sequences: &[u8]) -> bool {
    let all: Vec<&[u8]> = sequences.chunks(12).collect();
    (1..all.len()).any(|place| all[..place].contains(&all[place]))
}

/// The sequences in ascending order.
fn sorted(sequences: &[u8]) -> Vec<u8> {
    let mut all: Vec<&[u8]> = sequences.chunks(12).collect();
    all.sort_unstable();
    all.concat()
}

/// Exchanges the two digits of each byte.
fn swap_digits(field: &mut [u8]) {
    field[..24].chunks_mut(2).for_each(|pair| pair.swap(0, 1));
}

/// Writes nine sequences where there is room for them.
fn write_nine(sequences: &[u8], text: &mut [u8]) -> u32 {
    if sequences.len() != 108 || text.len() < 224 {
        return 13;
    }
    write_unjudged(sequences, text)
}

/// Writes sequences, whatever they are, where there is room for them.
fn write_unjudged(sequences: &[u8], text: &mut [u8]) -> u32 {
    let written = wire::text(sequences);
    text[..written.len()].copy_from_slice(&written);
    256 * written.len() as u32
}

/// The faults of the sequences that were written at the front of a buffer.
fn spoil_sequences(fault: Fault, buffer: &mut [u8], length: usize) {
    let (written, rest) = buffer.split_at_mut(length);
    match fault {
        Fault::DigitsSwapped => written
            .iter_mut()
            .for_each(|byte| *byte = byte.rotate_left(4)),
        Fault::RestCleared => rest.fill(0),
        _ => {}
    }
}

/// The same of a text.
fn spoil_text(fault: Fault, buffer: &mut [u8], length: usize) {
    let (written, rest) = buffer.split_at_mut(length);
    match fault {
        Fault::DigitsSwapped => written.chunks_mut(25).for_each(swap_digits),
        Fault::RestCleared => rest.fill(0),
        Fault::NulWritten => rest.iter_mut().take(1).for_each(|next| *next = 0),
        Fault::Semicolons => replace(written, b',', b';'),
        Fault::SmallLettersWritten => written.make_ascii_lowercase(),
        _ => {}
    }
}
