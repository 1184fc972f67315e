//! Sequences as text, each rule just inside and just outside.

#![deny(warnings)]

mod common;

use common::text::{
    read, read_into, refusal, some_sequences, some_text, write, write_into, ONE, ONE_TEXT,
};

/// The places of the commas of eight sequences.
const COMMAS: [usize; 7] = [24, 49, 74, 99, 124, 149, 174];
/// The digits in the order of their values.
const DIGITS: &[u8; 16] = b"0123456789ABCDEF";
/// The lengths of a text of one to eight sequences, and of their bytes.
const TEXTS: [usize; 8] = [24, 49, 74, 99, 124, 149, 174, 199];
const BYTES: [usize; 8] = [12, 24, 36, 48, 60, 72, 84, 96];

/// A text with one character changed.
fn with(mut text: Vec<u8>, at: usize, character: u8) -> Vec<u8> {
    text[at] = character;
    text
}

#[test]
fn one_sequence_both_ways() {
    assert_eq!(read(ONE_TEXT.as_bytes()), (0, ONE.to_vec()));
    assert_eq!(write(&ONE), (0, ONE_TEXT.as_bytes().to_vec()));
}

#[test]
fn one_to_eight_sequences_both_ways() {
    for (place, (characters, bytes)) in TEXTS.into_iter().zip(BYTES).enumerate() {
        let (text, sequences) = (some_text(place + 1), some_sequences(place + 1));
        assert_eq!((text.len(), sequences.len()), (characters, bytes));
        assert_eq!(read(&text), (0, sequences.clone()));
        assert_eq!(write(&sequences), (0, text));
    }
}

/// Every character at every place of all eight lengths: a comma at 24, 49 and so on, and
/// 0-9 or A-F elsewhere; the digit has its value in its half of its byte.
#[test]
fn every_character_at_every_place() {
    for count in 1..=8 {
        let (text, sequences) = (some_text(count), some_sequences(count));
        for at in 0..text.len() {
            for character in 0..=255 {
                let answer = read(&with(text.clone(), at, character));
                let value = DIGITS.iter().position(|digit| *digit == character);
                let expected = match (COMMAS.contains(&at), value) {
                    (true, _) if character == b',' => (0, sequences.clone()),
                    (false, Some(value)) => (0, with_digit(&sequences, at, value as u8)),
                    _ => refusal(13),
                };
                assert_eq!(answer, expected, "{count}: {character} at {at}");
            }
        }
    }
}

/// The sequences with another digit, whose character is at a place of the text.
fn with_digit(sequences: &[u8], at: usize, value: u8) -> Vec<u8> {
    let mut changed = sequences.to_vec();
    let within = at % 25;
    let byte = &mut changed[12 * (at / 25) + within / 2];
    *byte = match within % 2 {
        0 => 16 * value + *byte % 16,
        _ => *byte / 16 * 16 + value,
    };
    changed
}

/// Every byte at every place is written as its two digits, the greater first.
#[test]
fn every_byte_at_every_place() {
    for count in 1..=8 {
        let (text, sequences) = (some_text(count), some_sequences(count));
        for place in 0..sequences.len() {
            for byte in 0..=255_u8 {
                let mut expected = text.clone();
                let at = 25 * (place / 12) + 2 * (place % 12);
                expected[at] = DIGITS[usize::from(byte) / 16];
                expected[at + 1] = DIGITS[usize::from(byte) % 16];
                let answer = write(&with(sequences.clone(), place, byte));
                assert_eq!(answer, (0, expected), "{count}: {byte} at {place}");
            }
        }
    }
}

#[test]
fn every_length_of_a_text() {
    let long = some_text(9);
    for length in 0..=210 {
        let text = &long[..length];
        let expected = match TEXTS.iter().position(|right| *right == length) {
            Some(place) => (0, some_sequences(place + 1)),
            None => refusal(13),
        };
        assert_eq!(read(text), expected, "a text of {length}");
        // The same length without a comma in it.
        let digits = vec![b'7'; length];
        let expected = match length {
            24 => (0, vec![0x77; 12]),
            _ => refusal(13),
        };
        assert_eq!(read(&digits), expected, "{length} digits");
    }
    for length in [224, 249, 256, 4_096, 65_536 + 24, 100_000] {
        let text = some_text(length / 25 + 1);
        assert_eq!(read(&text[..length]), refusal(13), "a text of {length}");
    }
}

#[test]
fn every_length_of_sequences() {
    let long = some_sequences(10);
    for length in 0..=110 {
        let expected = match BYTES.iter().position(|right| *right == length) {
            Some(place) => (0, some_text(place + 1)),
            None => refusal(13),
        };
        assert_eq!(write(&long[..length]), expected, "{length} bytes");
    }
    for length in [120, 192, 256, 256 + 12, 65_536 + 12, 120_000] {
        assert_eq!(write(&vec![7; length]), refusal(13), "{length} bytes");
    }
}

/// No text and no sequences at all.
#[test]
fn nothing_is_of_wrong_length() {
    assert_eq!(read(b""), refusal(13));
    assert_eq!(write(&[]), refusal(13));
}

/// Each comma moved to each other place, what was between shifted.
#[test]
fn a_comma_moved() {
    for count in 2..=8 {
        for comma in &COMMAS[..count - 1] {
            for to in 0..some_text(count).len() {
                let mut text = some_text(count);
                text.remove(*comma);
                text.insert(to, b',');
                let expected = match to == *comma {
                    true => (0, some_sequences(count)),
                    false => refusal(13),
                };
                assert_eq!(read(&text), expected, "{comma} of {count} to {to}");
            }
        }
    }
}

#[test]
fn a_comma_left_out() {
    for count in 2..=8 {
        for comma in &COMMAS[..count - 1] {
            let mut text = some_text(count);
            text.remove(*comma);
            assert_eq!(read(&text), refusal(13), "{comma} of {count}");
        }
    }
}

#[test]
fn a_comma_too_many() {
    for count in 1..=8 {
        for at in 0..=some_text(count).len() {
            let mut text = some_text(count);
            text.insert(at, b',');
            assert_eq!(read(&text), refusal(13), "at {at} of {count}");
        }
    }
}

#[test]
fn a_comma_first_or_last() {
    for count in 1..=8 {
        let text = some_text(count);
        assert_eq!(read(&[b",", &text[..]].concat()), refusal(13));
        assert_eq!(read(&[&text[..], b","].concat()), refusal(13));
        // The comma in the place of a digit, at the right length.
        assert_eq!(read(&with(text.clone(), 0, b',')), refusal(13));
        let last = text.len() - 1;
        assert_eq!(read(&with(text, last, b',')), refusal(13));
    }
}

/// The lengths of 24 and 25 made of commas alone, and of empty fields.
#[test]
fn commas_alone() {
    for length in 1..=200 {
        assert_eq!(read(&vec![b','; length]), refusal(13), "{length} commas");
    }
    let empty_field = [ONE_TEXT, "", ONE_TEXT].join(",");
    assert_eq!(read(empty_field.as_bytes()), refusal(13));
}

#[test]
fn fields_of_wrong_length_in_a_text_of_right_length() {
    for (first, second) in [(23, 25), (25, 23), (22, 26), (1, 47), (0, 48), (48, 0)] {
        let text = format!("{},{}", "7".repeat(first), "7".repeat(second));
        assert_eq!(text.len(), 49);
        assert_eq!(read(text.as_bytes()), refusal(13), "{first} and {second}");
    }
}

#[test]
fn small_letters_are_wrong() {
    let text = "ABCDEF0123456789ABCDEF01";
    assert_eq!(read(text.as_bytes()).0, 0);
    assert_eq!(read(text.to_lowercase().as_bytes()), refusal(13));
    for (at, letter) in text.char_indices().filter(|(_, c)| c.is_alphabetic()) {
        let small = letter.to_ascii_lowercase() as u8;
        let text = with(text.as_bytes().to_vec(), at, small);
        assert_eq!(read(&text), refusal(13), "{letter} at {at}");
    }
}

/// What stands beside the digits and the letters, and digits of other kinds.
#[test]
fn characters_beside_the_digits() {
    for character in [
        b'/', b':', b'@', b'G', b'`', b'a', b'f', b'g', b' ', b'+', b'-',
    ] {
        let text = with(ONE_TEXT.as_bytes().to_vec(), 5, character);
        assert_eq!(read(&text), refusal(13), "{character}");
    }
    // The lower bits of each are those of a digit.
    for character in [
        b'0' ^ 0x80,
        b'A' ^ 0x80,
        b'0' ^ 0x40,
        b'A' ^ 0x20,
        0,
        10,
        15,
    ] {
        let text = with(ONE_TEXT.as_bytes().to_vec(), 5, character);
        assert_eq!(read(&text), refusal(13), "{character}");
    }
    // Twelve digits of two bytes each.
    assert_eq!(read("\u{0660}".repeat(12).as_bytes()), refusal(13));
}

#[test]
fn no_other_joint_than_one_comma() {
    for joint in [
        "", ";", ".", " ", "\n", "\0", ", ", " ,", ",,", "\r\n", "\u{FF0C}",
    ] {
        let text = [ONE_TEXT, ONE_TEXT].join(joint);
        assert_eq!(read(text.as_bytes()), refusal(13), "{joint:?}");
    }
    for around in [" ", "\n", "\r\n", "\0", "\"", "0x", "\u{FEFF}"] {
        let text = format!("{around}{ONE_TEXT}");
        assert_eq!(read(text.as_bytes()), refusal(13), "{around:?} before");
        let text = format!("{ONE_TEXT}{around}");
        assert_eq!(read(text.as_bytes()), refusal(13), "{around:?} behind");
    }
}

#[test]
fn nine_sequences() {
    for room in [96, 108, 199, 224, 4_096] {
        assert_eq!(read_into(&some_text(8), room).0, 0);
        assert_eq!(read_into(&some_text(9), room), refusal(13));
    }
    for room in [199, 224, 4_096] {
        assert_eq!(write_into(&some_sequences(8), room).0, 0);
        assert_eq!(write_into(&some_sequences(9), room), refusal(13));
    }
}

/// Bytes are no text. A text of one sequence has 24 bytes, and so may be written as two.
#[test]
fn the_other_form() {
    assert_eq!(read(&ONE), refusal(13));
    assert_eq!(read(&[ONE, ONE].concat()), refusal(13));
    let digits_of_digits = b"303130323033303430353036,303730383039304130423043";
    assert_eq!(write(ONE_TEXT.as_bytes()), (0, digits_of_digits.to_vec()));
    assert_eq!(write(&some_text(2)), refusal(13));
}

/// Number 0000 in each place of one to eight sequences, with all else right.
#[test]
fn number_0000_in_each_place() {
    for count in 1..=8 {
        for place in 0..count {
            let mut text = some_text(count);
            text[25 * place + 20..25 * place + 24].fill(b'0');
            assert_eq!(read(&text), refusal(14), "{place} of {count}");
            let mut sequences = some_sequences(count);
            sequences[12 * place + 10..12 * place + 12].fill(0);
            assert_eq!(write(&sequences), refusal(14), "{place} of {count}");
        }
        let zeros = vec!["000000000000000000000000"; count].join(",");
        assert_eq!(read(zeros.as_bytes()), refusal(14));
        assert_eq!(write(&vec![0; 12 * count]), refusal(14));
    }
}

/// Each bit of a number alone makes it one.
#[test]
fn every_other_number_is_right() {
    for number in [
        "0001", "000F", "0010", "00FF", "0100", "0F00", "1000", "7FFF", "8000", "FFFF",
    ] {
        let text = format!("00000000000000000000{number}");
        let (code, sequence) = read(text.as_bytes());
        assert_eq!((code, sequence.len()), (0, 12), "{number}");
        assert_eq!(write(&sequence), (0, text.into_bytes()), "{number}");
    }
    for bit in 0..16 {
        let mut sequence = [0; 12];
        sequence[10 + bit / 8] = 1 << (bit % 8);
        assert_eq!(write(&sequence).0, 0, "bit {bit}");
    }
}

/// Zeros in every place but the number: UID, creator identifier, and across two sequences.
#[test]
fn zeros_elsewhere_are_right() {
    let text = "000000000000000000000001,000000000000000000000001";
    let sequences = [0, 0, 0, 0, 0, 0, 0, 0, 0, 0, 0, 1].repeat(2);
    assert_eq!(read(text.as_bytes()), (0, sequences.clone()));
    assert_eq!(write(&sequences), (0, text.as_bytes().to_vec()));
    for start in 0..=20 {
        let mut text = "123456789ABCDEF12345678A".to_string();
        text.replace_range(start..start + 4, "0000");
        let code = if start == 20 { 14 } else { 0 };
        assert_eq!(read(text.as_bytes()).0, code, "0000 at {start}");
    }
}

/// Descending, equal and mixed: the order is the caller's, and is kept.
#[test]
fn sequences_in_any_order() {
    let (low, high) = ("000000000000000000000001", "FFFFFFFFFFFFFFFFFFFFFFFF");
    let bytes = |text: &str| match text == low {
        true => [0, 0, 0, 0, 0, 0, 0, 0, 0, 0, 0, 1],
        false => [0xFF; 12],
    };
    for choice in 0..256 {
        let pick = |place: usize| if choice >> place & 1 == 0 { low } else { high };
        let fields: Vec<&str> = (0..8).map(pick).collect();
        let sequences: Vec<u8> = fields.iter().flat_map(|field| bytes(field)).collect();
        let text = fields.join(",").into_bytes();
        assert_eq!(read(&text), (0, sequences.clone()));
        assert_eq!(write(&sequences), (0, text));
    }
}

/// Which sequence stands where: eight that all differ.
#[test]
fn each_sequence_has_its_place() {
    let text = "100000000000000000000001,200000000000000000000002,300000000000000000000003,\
                400000000000000000000004,500000000000000000000005,600000000000000000000006,\
                700000000000000000000007,800000000000000000000008";
    let mut sequences = Vec::new();
    for place in 1..=8 {
        sequences.extend([16 * place, 0, 0, 0, 0, 0, 0, 0, 0, 0, 0, place]);
    }
    assert_eq!(read(text.as_bytes()), (0, sequences.clone()));
    assert_eq!(write(&sequences), (0, text.as_bytes().to_vec()));
}
