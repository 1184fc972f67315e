//! Sequences and their texts: right ones, those with one thing wrong whose code is known,
//! and bytes that mean nothing.

use super::right::any_sequence;
use crate::call::{Action, Call, View};
use crate::random::Random;
use crate::wire::{self, text};

/// Set apart from the numbers of the other calls, which stay as they were.
const TEXTS: u64 = 0x7E87_5EED;
/// Characters that are no digits, those beside the digits first.
const NO_DIGITS: &[u8] = b"/:@G`abcdefg,;.- \n\r\tOlxX\0\x7F\x80\xB0\xFF";
/// Characters that are no comma.
const NO_COMMAS: &[u8] = b"0F;.+- \n\0\xAC";
/// Bytes that are not printable, those beside the printable ones first.
const NOT_PRINTABLE: &[u8] = b"\x1F\x7F\n\r\t\0\x80\xFF";
/// Lengths that sequences never have.
const LENGTHS: [usize; 14] = [0, 1, 6, 10, 11, 13, 23, 25, 53, 95, 97, 108, 120, 199];

/// One to eight sequences end to end, in any order, some of them twice.
pub fn any_sequences(random: &mut Random) -> Vec<u8> {
    let count = random.pick(&[1, 1, 2, 2, 3, 4, 5, 6, 7, 8, 8]);
    sequences(random, count)
}

/// So many sequences.
fn sequences(random: &mut Random, count: usize) -> Vec<u8> {
    let mut all = Vec::new();
    for place in 0..count {
        match random.below(8) {
            0 if place > 0 => all.extend_from_within(12 * (place - 1)..),
            1 => {
                let fill = random.pick(&[0x00, 0x09, 0x90, 0xAF, 0xFA, 0xFF]);
                all.extend([fill; 11]);
                all.push(random.within(1, 255) as u8);
            }
            2 => all.extend((0..12).map(|_| random.byte() | 1)),
            _ => all.extend(any_sequence(random)),
        }
    }
    all
}

/// Makes one number of the sequences 0000.
fn spoil_number(random: &mut Random, sequences: &mut [u8]) {
    let at = 12 * random.below(sequences.len() / 12);
    if let Some(number) = sequences.get_mut(at + 10..at + 12) {
        number.fill(0);
    }
}

/// A text with one thing wrong, and the code that this is, 13 or 14. One of 13 may have a
/// number 0000 besides.
pub fn nearly_right_text(random: &mut Random) -> (u32, Vec<u8>) {
    let mut sequences = any_sequences(random);
    let code = random.pick(&[13, 13, 13, 14]);
    if code == 14 || random.chance(20) {
        spoil_number(random, &mut sequences);
    }
    match code {
        14 => (14, text(&sequences)),
        _ => (13, wrong_form(random, text(&sequences))),
    }
}

/// A right text made wrong by a character, its length or a comma.
fn wrong_form(random: &mut Random, mut text: Vec<u8>) -> Vec<u8> {
    let length = text.len();
    match random.below(12) {
        0..=3 => put_no_digit(random, &mut text),
        4 | 5 => spoil_comma(random, &mut text),
        6 => drop(text.remove(random.below(length))),
        7 => text.insert(random.below(length + 1), random.pick(b"0AF,")),
        8 => text.push(random.pick(b",,\n\0 ")),
        9 => text.insert(0, random.pick(b", +")),
        10 => {
            let more = random.within(9, 10);
            text = wire::text(&sequences(random, more));
        }
        _ => text.truncate(25 * random.below(length / 25 + 1)),
    }
    text
}

/// A character that is no digit in the place of a digit.
fn put_no_digit(random: &mut Random, text: &mut [u8]) {
    let at = random.below(text.len());
    let at = if at % 25 == 24 { at + 1 } else { at };
    text[at] = match random.chance(30) {
        // A small letter where its capital stood, so that only its case is wrong.
        true if text[at].is_ascii_uppercase() => text[at].to_ascii_lowercase(),
        _ => random.pick(NO_DIGITS),
    };
}

/// Another character for a comma, or the comma one place off; a text of one sequence gets a
/// comma too many.
fn spoil_comma(random: &mut Random, text: &mut Vec<u8>) {
    let commas = text.len() / 25;
    if commas == 0 {
        return text.push(b',');
    }
    let at = 25 * random.below(commas) + 24;
    match random.below(4) {
        0 => text.swap(at, at - 1),
        1 => text.swap(at, at + 1),
        _ => text[at] = random.pick(NO_COMMAS),
    }
}

/// Bytes for the writer with one thing wrong, and its code, 13 or 14.
pub fn nearly_right_sequences(random: &mut Random) -> (u32, Vec<u8>) {
    let mut all = any_sequences(random);
    if random.chance(50) {
        spoil_number(random, &mut all);
        return (14, all);
    }
    let length = random.pick(&LENGTHS);
    let fill = random.pick(&[0, 1]);
    if length > all.len() {
        all = sequences(random, length / 12);
    }
    all.resize(length, fill);
    (13, all)
}

/// Any bytes, or digits and commas without order, of a length near one that matters.
fn noise(random: &mut Random) -> Vec<u8> {
    let length = random.pick(&[0, 1, 12, 23, 24, 25, 49, 74, 96, 198, 199, 200, 224]);
    match random.below(3) {
        0 => (0..length).map(|_| random.byte()).collect(),
        1 => vec![random.pick(b"0A,F\xFF"); length],
        _ => (0..length)
            .map(|_| random.pick(b"0123456789ABCDEF,"))
            .collect(),
    }
}

/// A text to be read, with a buffer that is most often of the least size.
fn reading(random: &mut Random) -> Action {
    let text = match random.below(20) {
        0..=7 => text(&any_sequences(random)),
        8..=17 => nearly_right_text(random).1,
        18 => any_sequences(random),
        _ => noise(random),
    };
    let room = match random.chance(60) {
        true => 96,
        false => random.pick(&[0, 1, 12, 84, 95, 95, 97, 108, 120, 199, 300]),
    };
    Action::ReadSequences { text, room }
}

/// Sequences to be written, in the same way.
fn writing(random: &mut Random) -> Action {
    let sequences = match random.below(20) {
        0..=8 => any_sequences(random),
        9..=17 => nearly_right_sequences(random).1,
        18 => text(&any_sequences(random)),
        _ => noise(random),
    };
    let room = match random.chance(60) {
        true => 199,
        false => random.pick(&[0, 1, 24, 96, 198, 198, 200, 224, 249, 400]),
    };
    Action::WriteSequences { sequences, room }
}

/// Printable bytes of a length of sequences, or one less; in half of them one byte is none.
fn printable(random: &mut Random) -> Vec<u8> {
    let length = random.pick(&[12, 12, 24, 24, 36, 48, 60, 72, 84, 96, 11, 23, 95]);
    let mut bytes: Vec<u8> = (0..length).map(|_| random.within(32, 126) as u8).collect();
    if random.chance(50) {
        bytes[random.below(length)] = random.pick(NOT_PRINTABLE);
    }
    bytes
}

/// An input of the program that prints the other form: a text or sequences, right or
/// nearly, most texts with a line feed.
pub fn either_form(seed: u64) -> Vec<u8> {
    let mut random = Random::new(seed);
    let mut input = match random.below(12) {
        0..=2 => text(&any_sequences(&mut random)),
        3 | 4 => any_sequences(&mut random),
        5 | 6 => nearly_right_text(&mut random).1,
        7 | 8 => nearly_right_sequences(&mut random).1,
        9 | 10 => printable(&mut random),
        _ => noise(&mut random),
    };
    match random.below(8) {
        0..=2 => input.push(b'\n'),
        3 => input.extend(random.pick(&[b"\n\n", b"\r\n", b"\0\n"])),
        // Sequences whose last byte is a line feed.
        4 => input
            .iter_mut()
            .last()
            .into_iter()
            .for_each(|last| *last = b'\n'),
        5 if random.chance(20) => input.resize(random.within(190, 600), b'0'),
        _ => {}
    }
    input
}

/// A call on texts.
pub fn text_call(random: &mut Random) -> Action {
    match random.chance(60) {
        true => reading(random),
        false => writing(random),
    }
}

/// Puts some calls on texts between those of a seed's list, past the first.
pub fn add_texts(seed: u64, calls: &mut Vec<Call>) {
    let mut random = Random::new(seed ^ TEXTS);
    for _ in 0..random.below(7) {
        let place = random.within(1, calls.len());
        let action = text_call(&mut random);
        let view = View::Station;
        calls.insert(place, Call { view, action });
    }
}
