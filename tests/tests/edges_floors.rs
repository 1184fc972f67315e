//! Code 2 of what a purge leaves in an image: floors, base values, purged block and group, and
//! the header of 32 bytes.

#![deny(warnings)]

mod common;

use bivamolune_tests::sketch::Sketch;
use bivamolune_tests::wire::{add, line, sequence, set, Draft, Sequence};
use common::{delta, find_log_message, setpoint, Station, A, B, C, D, IMAGE};

const LIMIT: u32 = 2_147_483_647;

fn s(letter: u8, number: u16) -> Sequence {
    sequence(line(letter), number)
}

/// A2 and B5 are the highest purged, tag 3 was 1500 after them. The log is A3, which adds -20
/// to it, and C1; D2 waits for D1.
fn sketch() -> Sketch {
    Sketch {
        log: vec![delta(A, 3).commands(&[add(3, -20)]), delta(C, 1)],
        held: vec![delta(D, 2)],
        values: vec![(0, 1), (3, 1480), (9, -7)],
        floors: vec![s(A, 2), s(B, 5)],
        base: vec![(3, 1500), (9, -7)],
        block: 0,
        group: 4,
    }
}

/// The code of an image, on which all calls agree.
fn code(image: &[u8]) -> u32 {
    let mut station = Station {
        image: image.to_vec(),
    };
    let compose = station.compose_code(line(0x20));
    assert_eq!(setpoint(image, 63).0, compose);
    let place = find_log_message(image, 0).0;
    assert!(place == compose || (place, compose) == (12, 0), "{place}");
    assert_eq!(station.code(&delta(0x21, 1).bytes()), compose);
    compose
}

/// The code of a sketch.
fn code_of(sketch: &Sketch) -> u32 {
    code(&sketch.image())
}

/// The sketch with a change.
fn changed(change: impl Fn(&mut Sketch)) -> Sketch {
    let mut sketch = sketch();
    change(&mut sketch);
    sketch
}

#[test]
fn an_image_with_two_floors() {
    let image = sketch().image();
    assert_eq!(code(&image), 0);
    // L 2, H 1, 32, 544 + 24, the end of three messages of 48, F 2, 544, 288.
    let numbers = [0, 2, 0, 1, 0, 32, 2, 0x38, 2, 0xC8, 0, 2, 2, 0x20, 1, 0x20];
    assert_eq!(image[..16], numbers);
    assert_eq!(
        image[16..32],
        [0, 0, 0, 0, 0, 0, 0, 4, 0, 0, 0, 0, 0, 0, 0, 0]
    );
    assert_eq!(image[544..556], [0, 0, 0, 0, 0, 0x0A, 0, 0, 0, 1, 0, 2]);
    assert_eq!(image[556..568], [0, 0, 0, 0, 0, 0x0B, 0, 0, 0, 1, 0, 5]);
    assert_eq!(image[568..574], [1, 0, 0, 1, 0, 48]);
}

/// What is the only thing wrong is named; where a change leaves an image, the byte says so: a
/// block or a group within its limit that changes no order, a floor of another line or number
/// that no message and no need is at.
#[test]
fn each_bit_of_the_header() {
    let right = sketch().image();
    for at in 0..32 {
        for bit in 0..8 {
            let mut other = right.clone();
            other[at] ^= 1 << bit;
            // Bytes 16-19 raise the effective block of all, which changes no order; the
            // highest bit of either number passes its limit.
            let in_range = (16..24).contains(&at) && (bit, at % 4) != (7, 0);
            let expected = if in_range { 0 } else { 2 };
            assert_eq!(code(&other), expected, "byte {at} bit {bit}");
        }
    }
}

/// The setpoints say what the base values were, but for that of tag 0, which C1 sets: there
/// 2^19 is within the limits, and 2^20 is not.
#[test]
fn each_bit_of_the_base_values() {
    let right = sketch().image();
    for at in 288..544 {
        for bit in 0..8 {
            let mut other = right.clone();
            other[at] ^= 1 << bit;
            let hidden = at == 291 || at == 290 || (at == 289 && bit < 4);
            let expected = if hidden { 0 } else { 2 };
            assert_eq!(code(&other), expected, "byte {at} bit {bit}");
        }
    }
}

/// A floor of another line lets A3 wait for A2; the image then is none, as A3 is in its log. One
/// of B may be any that keeps the lines ascending: no bit of B makes the line of C1 or of D2.
#[test]
fn each_bit_of_the_floors() {
    let right = sketch().image();
    for at in 0..12 {
        for bit in 0..8 {
            let mut of_a = right.clone();
            of_a[544 + at] ^= 1 << bit;
            assert_eq!(code(&of_a), 2, "A, byte {at} bit {bit}");
            let mut of_b = right.clone();
            of_b[556 + at] ^= 1 << bit;
            let floor = &of_b[556..568];
            let ascending = floor[..10] > s(A, 2)[..10];
            let number = u16::from_be_bytes([floor[10], floor[11]]);
            let expected = if ascending && number > 0 { 0 } else { 2 };
            assert_eq!(code(&of_b), expected, "B, byte {at} bit {bit}");
        }
    }
}

/// In the place of B5, a floor of the line of C1 has it; one of D has D2, or at 1 frees it, which
/// is held.
#[test]
fn a_floor_moved_to_the_line_of_a_message() {
    for letter in [C, D] {
        for number in [1, 2, 5, 0xFFFF] {
            let other = changed(|sketch| sketch.floors[1] = s(letter, number));
            assert_eq!(code_of(&other), 2, "{letter:X}{number}");
        }
    }
}

/// A floor of A at 2: A3 follows it. At 1, A3 waits for A2; at 3, A3 is at it; above, below it.
#[test]
fn a_message_at_below_and_above_its_floor() {
    for (number, expected) in [(1, 2), (2, 0), (3, 2), (4, 2), (0xFFFF, 2)] {
        let other = changed(|sketch| sketch.floors[0] = s(A, number));
        assert_eq!(code_of(&other), expected, "floor {number}");
    }
    // The same of a held one: with a floor at 1 it is no longer held.
    for (number, expected) in [(1, 2), (2, 2), (3, 2), (0xFFFF, 2)] {
        let other = changed(|sketch| sketch.floors.push(s(D, number)));
        assert_eq!(code_of(&other), expected, "floor {number}");
    }
    let free = changed(|sketch| {
        sketch.floors.push(s(D, 1));
        sketch.log.append(&mut sketch.held);
    });
    assert_eq!(code_of(&free), 0);
}

/// A message of FFFF alone lies above FFFE and at FFFF.
#[test]
fn the_last_number() {
    let image = |floor, log: bool| {
        let mut sketch = Sketch {
            log: vec![delta(A, 0xFFFF)],
            values: vec![(0, 1)],
            floors: vec![s(A, floor)],
            ..Sketch::default()
        };
        if !log {
            sketch.held.append(&mut sketch.log);
            sketch.values.clear();
        }
        code_of(&sketch)
    };
    assert_eq!((image(0xFFFE, true), image(0xFFFE, false)), (0, 2));
    assert_eq!((image(0xFFFF, true), image(0xFFFF, false)), (2, 2));
    assert_eq!((image(0xFFFD, true), image(0xFFFD, false)), (2, 0));
}

#[test]
fn floors_of_one_line() {
    for (first, second) in [(2, 2), (2, 3), (3, 2), (1, 2), (2, 1)] {
        let twice = changed(|sketch| sketch.floors = vec![s(A, first), s(A, second)]);
        assert_eq!(code_of(&twice), 2, "A{first} and A{second}");
    }
    let twice = changed(|sketch| sketch.floors = vec![s(A, 2), s(B, 5), s(B, 6)]);
    assert_eq!(code_of(&twice), 2);
}

#[test]
fn floors_out_of_order() {
    let swapped = changed(|sketch| sketch.floors.swap(0, 1));
    assert_eq!(code_of(&swapped), 2);
    let mut last = [0xFF; 12];
    last[9] = 0xFE;
    let lines = [[0; 12], s(A, 2), s(B, 5), last];
    let mut floors = lines.to_vec();
    floors[0][11] = 1;
    assert_eq!(
        code_of(&changed(|sketch| sketch.floors = floors.clone())),
        0
    );
    floors.swap(0, 3);
    assert_eq!(
        code_of(&changed(|sketch| sketch.floors = floors.clone())),
        2
    );
}

#[test]
fn a_floor_of_number_0() {
    for (number, expected) in [(0, 2), (1, 0), (0xFFFF, 0)] {
        let other = changed(|sketch| sketch.floors[1] = s(B, number));
        assert_eq!(code_of(&other), expected, "number {number}");
    }
}

/// So many floors of lines of their own, with nothing else, or with 64 of the longest messages.
fn many(count: u8) -> Sketch {
    let floors = (0..count).map(|last| s(0x80 + last, 1)).collect();
    Sketch {
        floors,
        group: 1,
        ..Sketch::default()
    }
}

#[test]
fn thirty_two_floors_and_thirty_three() {
    for (count, expected) in [(1, 0), (2, 0), (31, 0), (32, 0), (33, 2), (34, 2), (64, 2)] {
        assert_eq!(code_of(&many(count)), expected, "{count} floors");
    }
    let needs: Vec<Sequence> = (0x30..0x38).map(|last| s(last, 1)).collect();
    let long = |number| delta(A, number).naming(&needs).commands(&[set(1, 1); 8]);
    let mut full = many(32);
    full.held = (1..=64).map(long).collect();
    let image = full.image();
    // 544, 32 floors of 12 bytes, 64 messages of 200.
    assert_eq!(image[8..10], [0x35, 0xA0]);
    assert_eq!(setpoint(&image, 0), (0, 0));
    full.floors.push(s(0xF0, 1));
    assert_eq!(setpoint(&full.image(), 0), (2, 0));
}

/// The fullest image, written by deliver: the 64th of the longest messages comes, to be held, as
/// the last of the log, or as its first, for which all others wait.
#[test]
fn the_fullest_image() {
    let long = |last: u8, number| {
        let needs: Vec<Sequence> = (last..last + 8).map(|last| s(last, 1)).collect();
        let commands = [add(1, -1), add(2, 1)].repeat(4);
        delta(A, number).naming(&needs).commands(&commands)
    };
    let with = |log: &[Draft], held: &[Draft]| {
        let sum = 4 * log.len() as i32;
        Sketch {
            log: log.to_vec(),
            held: held.to_vec(),
            values: vec![(1, -sum), (2, sum)],
            ..many(32)
        }
    };
    // The needs of the first are missing, those of the others are the last eight floors.
    let held: Vec<Draft> = (1..=64).map(|number| long(0x30, number)).collect();
    let log: Vec<Draft> = (1..=64).map(|number| long(0x98, number)).collect();
    for (before, last, after) in [
        (with(&[], &held[..63]), &held[63], with(&[], &held)),
        (with(&log[..63], &[]), &log[63], with(&log, &[])),
        (with(&[], &log[1..]), &log[0], with(&log, &[])),
    ] {
        let mut station = Station {
            image: before.image(),
        };
        assert_eq!(station.code(&last.bytes()), 0);
        assert!(station.image == after.image());
        // 544, 32 floors of 12 bytes, 64 messages of 200.
        assert_eq!(station.image[8..10], [0x35, 0xA0]);
        assert_eq!(station.code(&long(0x30, 65).bytes()), 8);
    }
}

/// A count that is far off, with nothing there.
#[test]
fn counts_of_floors_that_lead_past_the_end() {
    for count in [1_u16, 32, 33, 1_320, 5_416, 5_417, 0x7FFF, 0x8000, 0xFFFF] {
        let mut wrong = Station::new().image;
        wrong[10..12].copy_from_slice(&count.to_be_bytes());
        assert_eq!(code(&wrong), 2, "{count} floors");
        let first = 544_u16.wrapping_add(count.wrapping_mul(12)).to_be_bytes();
        wrong[6..8].copy_from_slice(&first);
        wrong[8..10].copy_from_slice(&first);
        assert_eq!(code(&wrong), 2, "{count} floors, offsets to match");
    }
}

/// The base value and its setpoint, which no command changes, alike.
#[test]
fn base_values_at_their_limits() {
    let values = [
        (0, 0),
        (1, 0),
        (-1, 0),
        (1_000_000, 0),
        (-1_000_000, 0),
        (1_000_001, 2),
        (-1_000_001, 2),
        (i32::MAX, 2),
        (i32::MIN, 2),
    ];
    for tag in [1, 31, 63] {
        for (value, expected) in values {
            let other = changed(|sketch| {
                sketch.base.push((tag, value));
                sketch.values.push((tag, value));
            });
            assert_eq!(code_of(&other), expected, "tag {tag} value {value}");
        }
    }
    // Out of range, and set by the log: the setpoints do not show it.
    for (value, expected) in values {
        let other = changed(|sketch| sketch.base.push((0, value)));
        assert_eq!(code_of(&other), expected, "tag 0 value {value}");
    }
}

#[test]
fn block_and_group_at_their_limits() {
    for number in [0, 1, 0xFFFF, 0x1_0000, LIMIT - 1, LIMIT] {
        assert_eq!(code_of(&changed(|sketch| sketch.block = number)), 0);
        let mut other = changed(|sketch| sketch.group = number);
        assert_eq!(setpoint(&other.image(), 3), (0, 1480), "group {number}");
        other.log.clear();
        other.held.clear();
        other.values = other.base.clone();
        assert_eq!(setpoint(&other.image(), 3), (0, 1500), "group {number}");
    }
    for number in [LIMIT + 1, 0xFFFF_FFFF] {
        assert_eq!(code_of(&changed(|sketch| sketch.block = number)), 2);
        assert_eq!(code_of(&changed(|sketch| sketch.group = number)), 2);
    }
}

/// With no floor, base values, block and group are zero. With one, each may be zero.
#[test]
fn no_floor_and_something_purged() {
    let none = Sketch {
        log: vec![delta(C, 1)],
        values: vec![(0, 1)],
        ..Sketch::default()
    };
    let one = Sketch {
        floors: vec![s(A, 2)],
        ..none.clone()
    };
    assert_eq!((code_of(&none), code_of(&one)), (0, 0));
    for (sketch, expected) in [(none, 2), (one, 0)] {
        let with = |change: &dyn Fn(&mut Sketch)| {
            let mut other = sketch.clone();
            change(&mut other);
            code_of(&other)
        };
        assert_eq!(with(&|other| other.block = 1), expected);
        assert_eq!(with(&|other| other.group = 1), expected);
        // Tag 0 is set by C1, tag 63 is not.
        assert_eq!(with(&|other| other.base = vec![(0, 5)]), expected);
        let last = |other: &mut Sketch| {
            other.base = vec![(63, -5)];
            other.values.push((63, -5));
        };
        assert_eq!(with(&last), expected);
    }
}

/// The setpoints are those of the log run from the base values, and from no others.
#[test]
fn setpoints_of_the_base_values() {
    for (value, expected) in [(1480, 0), (-20, 2), (1500, 2), (1520, 2)] {
        let other = changed(|sketch| sketch.values[1] = (3, value));
        assert_eq!(code_of(&other), expected, "{value}");
    }
    // An addition is stopped from there.
    let mut stopped = sketch();
    stopped.log[0] = delta(A, 3).commands(&[add(3, 20), add(3, -20)]);
    stopped.base[0] = (3, 999_990);
    stopped.values[1] = (3, 999_980);
    assert_eq!(code_of(&stopped), 0);
}

/// The order of the log is that of effective blocks which are not below the purged one.
#[test]
fn the_order_of_an_image_with_a_purged_block() {
    let with = |block, log: [u8; 2]| {
        let one = |letter| match letter {
            A => delta(A, 1).priority(3, 1),
            _ => delta(B, 1).priority(2, 0),
        };
        code_of(&Sketch {
            log: log.map(one).to_vec(),
            values: vec![(0, 1)],
            floors: vec![s(C, 1)],
            block,
            ..Sketch::default()
        })
    };
    // Below 3 the lower block is first; at 3 both are 3, and A has the greater priority.
    for block in [0, 1, 2] {
        assert_eq!((with(block, [B, A]), with(block, [A, B])), (0, 2));
    }
    for block in [3, 4, LIMIT] {
        assert_eq!((with(block, [B, A]), with(block, [A, B])), (2, 0));
    }
}

#[test]
fn tails_behind_floors() {
    let right = sketch().image();
    let end = 568 + 3 * 48;
    for at in [end, end + 1, end + 11, end + 12, 9_000, IMAGE - 1] {
        let mut wrong = right.clone();
        wrong[at] = 1;
        assert_eq!(code(&wrong), 2, "byte {at}");
    }
    // The offset of messages, the bytes used, the number of floors, by one floor more or less.
    for (at, add) in [(7, 12), (7, 244), (9, 12), (9, 244), (11, 1), (11, 255)] {
        let mut wrong = right.clone();
        wrong[at] = wrong[at].wrapping_add(add);
        assert_eq!(code(&wrong), 2, "byte {at} by {add}");
    }
}
