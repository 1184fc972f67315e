//! "Bad input is refused by its number and nothing is written": any bytes, and bytes that
//! are right but for one thing. Every refusal of every call is met.

#![deny(warnings)]

mod common;

use std::collections::BTreeMap;

use bivamolune_tests::boundary::{code, Calls};
use bivamolune_tests::edit::Edit;
use bivamolune_tests::generate::{
    any_draft, any_sequences, conflicting, drafts, nearly_right, nearly_right_sequences,
    nearly_right_text, wrong_images,
};
use bivamolune_tests::random::Random;
use bivamolune_tests::reference::compose::Request;
use bivamolune_tests::reference::listing::listing;
use bivamolune_tests::reference::reader::Reader;
use bivamolune_tests::wire::{text, Draft};
use common::text::{read_into, refusal, write_into};
use common::{log_message, log_message_code, setpoint, Station, IMAGE, MESSAGE, STEPS, SUBJECT};

/// A buffer of any bytes, of a size near one that matters.
fn noise(random: &mut Random, sizes: &[usize]) -> Vec<u8> {
    let size = random.pick(sizes);
    let mask = random.pick(&[0x00, 0x01, 0x03, 0xFF]);
    (0..size).map(|_| random.byte() & mask).collect()
}

/// An image, or any bytes.
fn any_image(random: &mut Random) -> Vec<u8> {
    let sizes = [0, 1, 5, 31, 32, 543, 544, 549, IMAGE - 1, IMAGE, IMAGE + 1];
    match random.below(3) {
        0 => Station::new().image,
        _ => noise(random, &sizes),
    }
}

/// Any bytes are answered by every call; deliver refuses them and writes nothing.
#[test]
fn any_bytes_are_answered() {
    for seed in 0..3_000 {
        let mut random = Random::new(5_000_000 + seed);
        let mut image = any_image(&mut random);
        let sizes = [0, 1, 6, 39, 40, 47, 48, 60, 200, 201, 70_000];
        let message = noise(&mut random, &sizes);
        let mut steps = noise(&mut random, &[0, 79, STEPS - 1, STEPS, STEPS + 1]);
        let (old, before) = (image.clone(), steps.clone());
        let answer = SUBJECT.deliver(&mut image, &message, &mut steps);
        assert!((1..=6).contains(&answer), "seed {seed}: {answer}");
        assert!(image == old && steps == before);
        compose_any(&mut random, &image);
        let (place, tag) = (random.below(70), random.below(70));
        let part = log_message(&image, place);
        assert_eq!(part.is_empty(), log_message_code(&image, place) != 0);
        let (code, value) = setpoint(&image, tag);
        assert!(code == 0 || value == 0);
        assert!(Reader::new(&image).next_message().is_empty());
        assert!(image == old);
        assert!(listing(&message).ends_with("held 0\n"));
        purge_any(&mut random, &image, code);
    }
}

/// A purge of any bytes, which have no log in any case: 1 or 2 as the other calls have it, or 15
/// where something is to be purged. Nothing is written.
fn purge_any(random: &mut Random, image: &[u8], code: u32) {
    let any = random.bits() as u32;
    let k = random.pick(&[0, 1, any]);
    let mut copy = image.to_vec();
    let expected = match code {
        1 | 2 => code,
        _ if k > 0 => 15,
        _ => 0,
    };
    assert_eq!(SUBJECT.purge(&mut copy, k), expected);
    assert!(copy == image);
}

/// A compose of any bytes: a refusal writes nothing.
fn compose_any(random: &mut Random, image: &[u8]) {
    let line = noise(random, &[0, 9, 10, 11]);
    let commands = noise(random, &[0, 7, 8, 16, 64, 65, 72]);
    let request = Request {
        line: &line,
        commands: &commands,
        priority_flag: random.below(3) as u32,
        priority: random.bits() as u32,
    };
    let mut buffer = noise(random, &[0, MESSAGE - 1, MESSAGE, 300]);
    let before = buffer.clone();
    let answer = SUBJECT.compose(image, &request, &mut buffer);
    assert!(code(answer) == 0 || (buffer == before && answer < 256));
}

/// A station of some deltas, one of them or another draft, and what is wrong with its
/// delivery: an image byte (2), the message (3 to 6), other bytes (7), or no room (8).
fn nearly_right_delivery(random: &mut Random) -> (Station, u32, Vec<u8>) {
    let count = random.pick(&[1, 3, 12, 64]);
    let all = drafts(random, count);
    let mut station = Station::with(&all);
    let own: &Draft = &all[random.below(count)];
    let new = any_draft(random);
    let is_new = all.iter().all(|draft| draft.sequence() != new.sequence());
    match random.below(6) {
        0 => {
            let at = random.pick(&[0, 9, 15, 16, 31, 32, 287, 288, 543, IMAGE - 1]);
            station.image[at] ^= 1 << random.below(8);
            (station, 2, own.bytes())
        }
        1 => (station, 7, conflicting(random, own)),
        2 if is_new && count == 64 => (station, 8, new.bytes()),
        _ => {
            let (code, message) = nearly_right(random, if is_new { &new } else { own });
            (station, code, message)
        }
    }
}

/// Deliveries that are right but for one thing are refused by the number of that thing.
#[test]
fn nearly_right_deliveries_are_refused_by_their_number() {
    let mut met: BTreeMap<u32, usize> = BTreeMap::new();
    for seed in 0..6_000 {
        let mut random = Random::new(8_000_000 + seed);
        let (mut station, expected, message) = nearly_right_delivery(&mut random);
        let short = random.chance(10);
        let (size, expected) = match short {
            true => (random.pick(&[0, 80, STEPS - 1]), 1),
            false => (STEPS, expected),
        };
        let (code, _) = station.deliver_into(&message, size);
        assert_eq!(code, expected, "seed {seed}");
        *met.entry(code).or_default() += 1;
    }
    let codes: Vec<u32> = met.keys().copied().collect();
    assert_eq!(codes, [1, 2, 3, 4, 5, 6, 7, 8]);
    assert!(met.values().all(|count| *count > 50), "{met:?}");
}

/// What each call that reads an image answers on one.
fn codes(station: &Station, message: &[u8]) -> [u32; 5] {
    [
        station.clone().code(message),
        station.compose_code([0x55; 10]),
        station.clone().purge(1),
        setpoint(&station.image, 0).0,
        log_message_code(&station.image, 0),
    ]
}

/// An image with one message that fails 3, 4, 5 or 6, in its log or held, is refused by 2.
#[test]
fn an_image_with_one_wrong_message_is_refused_by_2() {
    let mut met: BTreeMap<(u32, bool), usize> = BTreeMap::new();
    for seed in 0..1_000 {
        let mut random = Random::new(13_000_000 + seed);
        let count = random.pick(&[1, 4, 20, 64]);
        let all = drafts(&mut random, count);
        let right = Station::with(&all);
        for (code, edit) in wrong_images(&mut random, &all, 6) {
            let mut wrong = right.clone();
            edit.apply(&mut wrong.image);
            assert_eq!(
                codes(&wrong, &all[0].bytes()),
                [2; 5],
                "seed {seed} {edit:?}"
            );
            if let Edit::Instead(place, message) = edit {
                assert_eq!(Station::new().code(&message), code, "seed {seed}");
                *met.entry((code, place < right.log_count())).or_default() += 1;
            }
        }
    }
    assert_eq!(met.len(), 8, "{met:?}");
    assert!(met.values().all(|count| *count > 50), "{met:?}");
}

/// The same messages as the listing program's input: their numbers are printed.
#[test]
fn nearly_right_messages_are_listed_with_their_number() {
    let mut met: BTreeMap<u32, usize> = BTreeMap::new();
    for seed in 0..600 {
        let mut random = Random::new(9_000_000 + seed);
        let draft = any_draft(&mut random);
        let (code, message) = nearly_right(&mut random, &draft);
        // A message whose length field is right is one cut, whatever else is wrong.
        let length = usize::from(message[4]) * 256 + usize::from(message[5]);
        if length == message.len() && (48..=200).contains(&length) {
            assert_eq!(
                listing(&message),
                format!("1 {code} 0 0\nlog 0 held 0\n"),
                "seed {seed}"
            );
            *met.entry(code).or_default() += 1;
        }
    }
    assert_eq!(met.keys().copied().collect::<Vec<u32>>(), [3, 4, 5, 6]);
}

/// The code of a text by the places of its characters: a comma at each 25th, digits
/// elsewhere, and 0000 at no number's place.
fn code_of_text(text: &[u8]) -> u32 {
    let lengths = [24, 49, 74, 99, 124, 149, 174, 199];
    let digits = b"0123456789ABCDEF";
    let fits = |(at, c): (usize, &u8)| match at % 25 {
        24 => *c == b',',
        _ => digits.contains(c),
    };
    if !lengths.contains(&text.len()) || !text.iter().enumerate().all(fits) {
        return 13;
    }
    let zero = |last: usize| (last - 4..last).all(|at| text[at] == b'0');
    match (24..=text.len()).step_by(25).any(zero) {
        true => 14,
        false => 0,
    }
}

/// The code of bytes to be written.
fn code_of_sequences(bytes: &[u8]) -> u32 {
    match bytes.len() {
        12 | 24 | 36 | 48 | 60 | 72 | 84 | 96 => {}
        _ => return 13,
    }
    let zero = |at: usize| bytes[at] == 0 && bytes[at + 1] == 0;
    match (10..bytes.len()).step_by(12).any(zero) {
        true => 14,
        false => 0,
    }
}

/// A text that may be right: characters that nearly always fit their places.
fn perhaps_right(random: &mut Random) -> Vec<u8> {
    let length = 25 * random.within(1, 8) - 1;
    let wrong = random.pick(&[0, 0, 2, 30]);
    let character = |at: usize| match at % 25 {
        _ if random.below(1_000) < wrong => random.byte(),
        24 => b',',
        20.. if random.chance(60) => b'0',
        _ => random.pick(b"0123456789ABCDEF"),
    };
    (0..length).map(character).collect()
}

/// Any bytes are answered by reader and writer, by the rule of their places.
#[test]
fn any_text_and_any_sequences_are_answered() {
    let mut met: BTreeMap<(&str, u32), usize> = BTreeMap::new();
    for seed in 0..20_000 {
        let mut random = Random::new(11_000_000 + seed);
        let sizes = [0, 12, 23, 24, 25, 48, 49, 96, 199, 200, 5_000];
        let bytes = match random.below(3) {
            0 => noise(&mut random, &sizes),
            _ => perhaps_right(&mut random),
        };
        let room = random.pick(&[0, 95, 96, 97, 198, 199, 200, 5_000]);
        let expected = if room < 96 { 1 } else { code_of_text(&bytes) };
        assert_eq!(read_into(&bytes, room).0, expected, "seed {seed}");
        *met.entry(("read", expected)).or_default() += 1;
        let bytes = match random.chance(50) {
            true => bytes,
            false => noise(&mut random, &[12, 24, 36, 84, 96, 108]),
        };
        let expected = if room < 199 {
            1
        } else {
            code_of_sequences(&bytes)
        };
        assert_eq!(write_into(&bytes, room).0, expected, "seed {seed}");
        *met.entry(("write", expected)).or_default() += 1;
    }
    assert_eq!(met.len(), 8, "{met:?}");
    assert!(met.values().all(|count| *count > 100), "{met:?}");
}

/// Texts and sequences that are right but for one thing are refused by its number, and
/// right ones are not.
#[test]
fn nearly_right_texts_are_refused_by_their_number() {
    for seed in 0..6_000 {
        let mut random = Random::new(12_000_000 + seed);
        let right = any_sequences(&mut random);
        assert_eq!(write_into(&right, 199), (0, text(&right)), "seed {seed}");
        assert_eq!(read_into(&text(&right), 96), (0, right), "seed {seed}");
        let (code, wrong) = nearly_right_text(&mut random);
        assert_eq!(read_into(&wrong, 96), refusal(code), "seed {seed}");
        assert_eq!(code_of_text(&wrong), code, "seed {seed}");
        let (code, wrong) = nearly_right_sequences(&mut random);
        assert_eq!(write_into(&wrong, 199), refusal(code), "seed {seed}");
        assert_eq!(code_of_sequences(&wrong), code, "seed {seed}");
    }
}
