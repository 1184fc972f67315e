//! "The lowest number that applies to the call is answered, and never when its condition
//! fails": each call with every choice of conditions that can hold together.

#![deny(warnings)]

mod common;

use bivamolune_tests::boundary::Calls;
use bivamolune_tests::reference::compose::Request;
use bivamolune_tests::sketch::Sketch;
use bivamolune_tests::wire::{line, sequence, set, Draft, Line};
use common::text::{read_into, refusal, some_sequences, some_text, write_into};
use common::{
    delta, log_message, log_message_code, plain_request, setpoint, Station, A, B, C, IMAGE,
    MESSAGE, PATTERN, STEPS, SUBJECT,
};

const LIMIT: u32 = 2_147_483_647;

/// Every choice of some of the codes.
fn choices(codes: &[u32]) -> Vec<Vec<u32>> {
    let mut all = vec![Vec::new()];
    for code in codes {
        let with: Vec<Vec<u32>> = all.iter().map(|c| [&c[..], &[*code]].concat()).collect();
        all.extend(with);
    }
    all
}

/// The lowest of the codes, 0 if there is none.
fn lowest(codes: &[u32]) -> u32 {
    codes.iter().copied().min().unwrap_or(0)
}

/// What there is before a delivery: some deltas, or 64 of them.
#[derive(Clone, Copy, PartialEq)]
enum Room {
    Some,
    None,
}

/// A station on which a delta of line C is new, or known with other bytes (7).
fn station(codes: &[u32], own: u16, room: Room) -> Station {
    let mut drafts = vec![delta(B, 1)];
    if codes.contains(&7) {
        drafts[0] = delta(C, own).group(9);
    }
    if room == Room::None {
        drafts.extend((1..=63).map(|number| delta(A, number)));
    }
    Station::with(&drafts)
}

/// A delta of line C with these of the conditions 4 to 6. Where 4 is one of them, its
/// own number or a dependency's is 0000.
fn draft(codes: &[u32], own: u16) -> Draft {
    let mut draft = delta(C, own).naming(&[sequence(line(A), 1), sequence(line(B), 1)]);
    if codes.contains(&4) && own != 0 {
        draft.dependencies[0] = sequence(line(A), 0);
    }
    if codes.contains(&5) {
        draft.dependencies.swap(0, 1);
    }
    if codes.contains(&6) {
        draft = draft.commands(&[set(64, 0)]);
    }
    draft
}

/// Delivers with these conditions and asks for the lowest.
fn check_delivery(codes: &[u32], own: u16, room: Room) {
    let mut image = station(codes, own, room).image;
    let mut message = draft(codes, own).bytes();
    if codes.contains(&2) {
        image[IMAGE - 1] ^= 1;
    }
    if codes.contains(&3) {
        message.pop();
    }
    let size = if codes.contains(&1) { STEPS - 1 } else { STEPS };
    let mut steps = vec![PATTERN; size];
    let before = image.clone();
    let answer = SUBJECT.deliver(&mut image, &message, &mut steps);
    assert_eq!(answer % 256, lowest(codes), "{codes:?} on number {own}");
    if lowest(codes) != 0 {
        assert_eq!(answer, lowest(codes));
        assert!(image == before && steps.iter().all(|byte| *byte == PATTERN));
    }
}

#[test]
fn deliver_answers_the_lowest() {
    for codes in choices(&[1, 2, 3, 4, 5, 6, 7, 8]) {
        let (conflict, full) = (codes.contains(&7), codes.contains(&8));
        match (conflict, full) {
            // A sequence is present or new, not both.
            (true, true) => continue,
            (false, true) => check_delivery(&codes, 3, Room::None),
            (false, false) => check_delivery(&codes, 3, Room::Some),
            // A conflict is one on a full station too.
            (true, false) => {
                check_delivery(&codes, 3, Room::Some);
                check_delivery(&codes, 3, Room::None);
            }
        }
        // Number 0000 cannot be present.
        if codes.contains(&4) && !conflict {
            let room = if full { Room::None } else { Room::Some };
            check_delivery(&codes, 0, room);
        }
    }
}

#[test]
fn each_kind_of_6_comes_after_4_and_5() {
    let kinds = |draft: Draft| {
        [
            draft.clone().group(LIMIT + 1),
            draft.clone().priority(0, 0),
            draft.clone().priority(LIMIT + 1, 0),
            draft.clone().priority(1, LIMIT + 1),
            draft.clone().commands(&[[4, 0, 0, 0, 0, 0, 0, 0]]),
            draft.clone().commands(&[[1, 0, 1, 0, 0, 0, 0, 0]]),
            draft.commands(&[set(0, 1_000_001)]),
        ]
    };
    for codes in choices(&[4, 5]) {
        let wanted = lowest(&codes).max(if codes.is_empty() { 6 } else { 0 });
        for wrong in kinds(draft(&codes, 3)) {
            assert_eq!(Station::new().code(&wrong.bytes()), wanted, "{wrong:?}");
        }
    }
}

/// An image whose line C is held (9), whose group or block is at its limit (10), and
/// which has nine ends (11).
fn compose_station(codes: &[u32], by_block: bool) -> Station {
    let mut drafts = vec![delta(A, 1)];
    if codes.contains(&9) {
        drafts.push(delta(C, 3));
    }
    if codes.contains(&10) {
        drafts[0] = match by_block {
            true => delta(A, 1).priority(LIMIT, 0),
            false => Draft::new([0xFF; 10], 1).group(LIMIT),
        };
    }
    if codes.contains(&11) {
        drafts.extend((0x20..0x29).map(|last| delta(last, 1)));
    }
    Station::with(&drafts)
}

/// A size that is wrong by code 1.
#[derive(Clone, Copy, PartialEq)]
enum Wrong {
    Image,
    Line,
    Message,
}

/// Composes with these conditions and asks for the lowest.
fn check_compose(codes: &[u32], by_block: bool, wrong: Wrong) {
    let one = codes.contains(&1);
    let mut image = compose_station(codes, by_block).image;
    if codes.contains(&2) {
        image[IMAGE - 1] ^= 1;
    }
    if one && wrong == Wrong::Image {
        image.push(0);
    }
    let room = MESSAGE - usize::from(one && wrong == Wrong::Message);
    let own: Line = line(C);
    let request = Request {
        line: &own[usize::from(one && wrong == Wrong::Line)..],
        commands: &[1, 0, 0, 0, 0, 0, 0, 1][..8 - usize::from(codes.contains(&3))],
        priority_flag: u32::from(by_block),
        priority: if codes.contains(&6) { LIMIT + 1 } else { 0 },
    };
    let mut message = vec![PATTERN; room];
    let answer = SUBJECT.compose(&image, &request, &mut message);
    assert_eq!(answer % 256, lowest(codes), "{codes:?}");
    if lowest(codes) != 0 {
        assert_eq!(answer, lowest(codes));
        assert!(message.iter().all(|byte| *byte == PATTERN));
    }
}

#[test]
fn compose_answers_the_lowest() {
    for codes in choices(&[1, 2, 3, 6, 9, 10, 11]) {
        for by_block in [false, true] {
            for wrong in [Wrong::Image, Wrong::Line, Wrong::Message] {
                check_compose(&codes, by_block, wrong);
            }
        }
    }
}

#[test]
fn each_kind_of_6_comes_after_3_and_before_9() {
    let station = compose_station(&[9, 10, 11], false);
    let line = line(C);
    let right = plain_request(&line);
    assert_eq!(station.compose(&right).0, 9);
    let wrong_command = [1, 64, 0, 0, 0, 0, 0, 0];
    let flag = |priority_flag, priority| Request {
        priority_flag,
        priority,
        ..right
    };
    let commands = Request {
        commands: &wrong_command,
        ..right
    };
    for wrong in [flag(2, 0), flag(0, 1), flag(1, LIMIT + 1), commands] {
        assert_eq!(station.compose(&wrong).0, 6);
        let short = Request {
            commands: &wrong.commands[..7],
            ..wrong
        };
        assert_eq!(station.compose(&short).0, 3);
    }
}

#[test]
fn log_message_and_setpoint_answer_the_lowest() {
    for codes in choices(&[1, 2, 12]) {
        let mut image = Station::with(&[delta(A, 1)]).image;
        if codes.contains(&2) {
            image[IMAGE - 1] ^= 1;
        }
        if codes.contains(&1) {
            image.push(0);
        }
        let (place, tag) = if codes.contains(&12) { (1, 64) } else { (0, 0) };
        assert_eq!(log_message_code(&image, place), lowest(&codes));
        assert_eq!(log_message(&image, place).is_empty(), lowest(&codes) != 0);
        let value = i32::from(lowest(&codes) == 0);
        assert_eq!(setpoint(&image, tag), (lowest(&codes), value));
    }
}

#[test]
fn empty_answers_1_or_0() {
    for (size, code) in [(IMAGE - 1, 1), (IMAGE, 0), (IMAGE + 1, 1)] {
        assert_eq!(SUBJECT.empty(&mut vec![PATTERN; size]), code);
    }
}

/// A station with 32 floors or with none, whose log is two lines and, where 16 shall hold, lines
/// without a floor.
fn purge_station(codes: &[u32], floors: bool) -> Station {
    let count = if floors { 32 } else { 0 };
    let lines = (0..count).map(|last| sequence(line(0x40 + last), 1));
    let mut station = Station {
        image: Sketch {
            floors: lines.collect(),
            ..Sketch::default()
        }
        .image(),
    };
    let own: Vec<Draft> = match (codes.contains(&16), floors) {
        (false, false) => vec![delta(A, 1), delta(B, 1)],
        (false, true) => vec![delta(0x40, 2), delta(0x41, 2)],
        (true, false) => (1..34).map(|last| delta(last, 1)).collect(),
        (true, true) => vec![delta(0x40, 2), delta(0x10, 1)],
    };
    for draft in own {
        assert_eq!(station.code(&draft.bytes()), 0);
    }
    station
}

/// Purges with these conditions and asks for the lowest. Where K exceeds L, the whole log would
/// leave too many floors exactly if 16 is among them.
fn check_purge(codes: &[u32], floors: bool, beyond: u32) {
    let mut image = purge_station(codes, floors).image;
    let log = u32::from(image[1]);
    if codes.contains(&2) {
        image[IMAGE - 1] ^= 1;
    }
    if codes.contains(&1) {
        image.push(0);
    }
    let k = if codes.contains(&15) { beyond } else { log };
    let before = image.clone();
    assert_eq!(
        SUBJECT.purge(&mut image, k),
        lowest(codes),
        "{codes:?} {floors} {k}"
    );
    assert_eq!(image == before, lowest(codes) != 0);
}

#[test]
fn purge_answers_the_lowest() {
    for codes in choices(&[1, 2, 15, 16]) {
        for floors in [false, true] {
            for beyond in [34, 65, 256, 65_536, u32::MAX] {
                check_purge(&codes, floors, beyond);
            }
        }
    }
}

/// What is wrong with the form of a text or of sequences by code 13.
type Spoil = fn(&mut Vec<u8>);

/// Every choice of 1, 13 and 14, with each kind of 13 and each place of 14.
#[test]
fn reading_a_text_answers_the_lowest() {
    let kinds: [Spoil; 9] = [
        |text| text[0] = b'a',
        |text| text[49 - 2] = b'G',
        |text| text[24] = b'0',
        |text| text[48] = b',',
        |text| text.push(b','),
        |text| text.push(b'0'),
        |text| text.extend(some_text(9)),
        |text| text.insert(0, b','),
        |text| text.truncate(48),
    ];
    for codes in choices(&[1, 13, 14]) {
        for zero in [0, 1] {
            for kind in kinds {
                let mut text = some_text(2);
                if codes.contains(&14) {
                    text[25 * zero + 20..25 * zero + 24].fill(b'0');
                }
                if codes.contains(&13) {
                    kind(&mut text);
                }
                let room = if codes.contains(&1) { 95 } else { 96 };
                let answer = read_into(&text, room);
                match lowest(&codes) {
                    0 => assert_eq!(answer, (0, some_sequences(2))),
                    code => assert_eq!(answer, refusal(code), "{codes:?}"),
                }
            }
        }
    }
}

#[test]
fn writing_a_text_answers_the_lowest() {
    let kinds: [Spoil; 5] = [
        |sequences| sequences.truncate(23),
        |sequences| sequences.push(0),
        |sequences| sequences.extend(some_sequences(7)),
        |sequences| sequences.extend([0; 96]),
        |sequences| sequences.clear(),
    ];
    for codes in choices(&[1, 13, 14]) {
        for zero in [0, 1] {
            for kind in kinds {
                let mut sequences = some_sequences(2);
                if codes.contains(&14) {
                    sequences[12 * zero + 10..12 * zero + 12].fill(0);
                }
                if codes.contains(&13) {
                    kind(&mut sequences);
                }
                let room = if codes.contains(&1) { 198 } else { 199 };
                let answer = write_into(&sequences, room);
                match lowest(&codes) {
                    0 => assert_eq!(answer, (0, some_text(2))),
                    code => assert_eq!(answer, refusal(code), "{codes:?}"),
                }
            }
        }
    }
}

/// A number 0000 in one sequence and a wrong character in another, whichever is first.
#[test]
fn form_is_judged_of_all_before_numbers_of_any() {
    for zero in 0..8 {
        for wrong in 0..8 {
            let mut text = some_text(8);
            text[25 * zero + 20..25 * zero + 24].fill(b'0');
            assert_eq!(read_into(&text, 96), refusal(14));
            text[25 * wrong + 3] = b'f';
            assert_eq!(read_into(&text, 96), refusal(13), "{zero} and {wrong}");
            assert_eq!(read_into(&text, 95), refusal(1));
        }
    }
}
