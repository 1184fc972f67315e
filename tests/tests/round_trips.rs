//! "Reading a written list yields the sequences, and a text that is read is the one that
//! would be written": over the answers of the calls alone.

#![deny(warnings)]

mod common;

use std::collections::BTreeSet;

use bivamolune_tests::generate::{any_sequences, nearly_right_text};
use bivamolune_tests::random::Random;
use common::text::{read, write};

/// Bytes of one to eight sequences, any at all.
fn any_bytes(random: &mut Random) -> Vec<u8> {
    let length = 12 * random.within(1, 8);
    let mask = random.pick(&[0xFF, 0xFF, 0x0F, 0xF0, 0x81]);
    (0..length).map(|_| random.byte() & mask).collect()
}

/// A text of any digits.
fn any_text(random: &mut Random) -> Vec<u8> {
    let digits = random.pick(&["0123456789ABCDEF", "0F", "9A", "01"]);
    let length = 25 * random.within(1, 8) - 1;
    let character = |at: usize| match at % 25 {
        24 => b',',
        _ => random.pick(digits.as_bytes()),
    };
    (0..length).map(character).collect()
}

#[test]
fn written_sequences_are_read_again() {
    let (mut written, mut refused) = (0, 0);
    for seed in 0..30_000 {
        let mut random = Random::new(seed);
        let sequences = match random.chance(50) {
            true => any_sequences(&mut random),
            false => any_bytes(&mut random),
        };
        let (code, text) = write(&sequences);
        if code == 0 {
            assert_eq!(text.len(), 25 * sequences.len() / 12 - 1, "seed {seed}");
            assert_eq!(read(&text), (0, sequences), "seed {seed}");
            written += 1;
        } else {
            assert_eq!(code, 14, "seed {seed}");
            refused += 1;
        }
    }
    assert!(written > 20_000 && refused > 50, "{written} {refused}");
}

#[test]
fn read_texts_are_written_again() {
    let (mut taken, mut refused) = (0, 0);
    for seed in 0..30_000 {
        let mut random = Random::new(1_000_000 + seed);
        let text = match random.chance(80) {
            true => any_text(&mut random),
            false => nearly_right_text(&mut random).1,
        };
        let (code, sequences) = read(&text);
        if code == 0 {
            assert_eq!(sequences.len(), 12 * (text.len() + 1) / 25, "seed {seed}");
            assert_eq!(write(&sequences), (0, text), "seed {seed}");
            taken += 1;
        } else {
            refused += 1;
        }
    }
    assert!(taken > 15_000 && refused > 5_000, "{taken} {refused}");
}

/// All numbers but 0000, in a line of its own each time: as many texts as numbers.
#[test]
fn every_number_both_ways() {
    let mut texts = BTreeSet::new();
    for number in 1..=u16::MAX {
        let mut sequence = [0xA9, 0x9A, 0, 0, 0, 0, 0, 0, 0, 0xFF, 0, 0];
        sequence[10..].copy_from_slice(&number.to_be_bytes());
        let (code, text) = write(&sequence);
        assert_eq!((code, text.len()), (0, 24));
        let digits = std::str::from_utf8(&text[20..]).expect("digits");
        assert_eq!(u16::from_str_radix(digits, 16), Ok(number));
        assert_eq!(read(&text), (0, sequence.to_vec()));
        texts.insert(text);
    }
    assert_eq!(texts.len(), 65_535);
}
