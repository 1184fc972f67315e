//! Steps of 80 bytes: kind, count of pairs, sequence, and what each pair says. Bytes and
//! values are written out from the paper.

#![deny(warnings)]

mod common;

use bivamolune_tests::boundary::Calls;
use bivamolune_tests::view::{step, steps as steps_of, Kind};
use bivamolune_tests::wire::{add, command, raise, set, Command, Draft};
use common::{a1, b1, delta, steps, Station, A, B, C, STEP, STEPS, SUBJECT};

/// What the step buffers hold before a call.
const FILL: u8 = 0xEE;

/// The bytes of a step buffer after an accepted delivery, up to its steps' end, and the
/// answer. All beyond them is as it was.
fn delivered(station: &mut Station, draft: &Draft, size: usize) -> (u32, Vec<u8>) {
    let mut buffer = vec![FILL; size];
    let answer = SUBJECT.deliver(&mut station.image, &draft.bytes(), &mut buffer);
    assert_eq!(answer % 256, 0, "{draft:?}");
    let end = STEP * (answer / 256 % 256 + answer / 65_536) as usize;
    assert!(buffer[end..].iter().all(|byte| *byte == FILL));
    buffer.truncate(end);
    (answer, buffer)
}

/// The only step of a new station's first delta, which has these commands.
fn only_step(commands: &[Command]) -> Vec<u8> {
    let draft = delta(A, 1).commands(commands);
    let (answer, step) = delivered(&mut Station::new(), &draft, STEPS);
    assert_eq!(answer, 65_536);
    step
}

/// The unused pairs of a step with one pair.
const SEVEN_UNUSED: [u8; 56] = [0; 56];

#[test]
fn the_steps_of_b1_then_a1_byte_by_byte() {
    let mut station = Station::new();
    let mut expected = vec![2, 0, 0, 1, 0, 0, 0, 0, 0, 0x0B, 0, 0, 0, 1, 0, 1];
    expected.extend([0, 0, 0, 3, 0xFF, 0xFF, 0xFF, 0xEC]);
    expected.extend(SEVEN_UNUSED);
    assert_eq!(delivered(&mut station, &b1(), STEPS), (65_536, expected));

    let mut expected = vec![1, 0, 0, 1, 0, 0, 0, 0, 0, 0x0B, 0, 0, 0, 1, 0, 1];
    expected.extend([0, 0, 0, 3, 0, 0, 0, 0]);
    expected.extend(SEVEN_UNUSED);
    expected.extend([2, 0, 0, 1, 0, 0, 0, 0, 0, 0x0A, 0, 0, 0, 1, 0, 1]);
    expected.extend([0, 0, 0, 3, 0, 0, 0x05, 0xDC]);
    expected.extend(SEVEN_UNUSED);
    expected.extend([2, 0, 0, 1, 0, 0, 0, 0, 0, 0x0B, 0, 0, 0, 1, 0, 1]);
    expected.extend([0, 0, 0, 3, 0, 0, 0x05, 0xC8]);
    expected.extend(SEVEN_UNUSED);
    assert_eq!(expected.len(), 240);
    let answer = 256 + 2 * 65_536;
    assert_eq!(delivered(&mut station, &a1(), STEPS), (answer, expected));
}

#[test]
fn the_pairs_of_b1_then_a1() {
    let mut station = Station::new();
    assert_eq!(station.pairs(&b1()), ["+B1 3=-20"]);
    let all = ["-B1 3=0", "+A1 3=1500", "+B1 3=1480"];
    assert_eq!(station.pairs(&a1()), all);
}

/// What was there before comes back, not what subtracting would give.
#[test]
fn a_stopped_sum_is_restored() {
    let three = [set(5, 999_990), add(5, 20), add(5, -20)];
    let mut station = Station::with(&[delta(A, 1).commands(&[set(5, 77)])]);
    let given = "+B1 5=999990 5=1000000 5=999980";
    assert_eq!(station.pairs(&delta(B, 1).commands(&three)), [given]);
    let between = delta(A, 2).commands(&[set(6, 1)]);
    let all = ["-B1 5=1000000 5=999990 5=77", "+A2 6=1", given];
    assert_eq!(station.pairs(&between), all);
    assert_eq!((station.value(5), station.value(6)), (999_980, 1));
}

#[test]
fn a_sum_stopped_below_is_restored() {
    let two = [add(9, -1_000_000), add(9, -7)];
    let mut station = Station::with(&[delta(B, 1).commands(&[set(9, -3)])]);
    let given = "+C1 9=-1000000 9=-1000000";
    assert_eq!(station.pairs(&delta(C, 1).commands(&two)), [given]);
    let first = delta(A, 1).commands(&[set(9, -50)]);
    let undone = ["-C1 9=-1000000 9=-3", "-B1 9=0"];
    let all = [&undone[..], &["+A1 9=-50", "+B1 9=-3", given]].concat();
    assert_eq!(station.pairs(&first), all);
}

#[test]
fn an_undo_lists_the_last_command_first() {
    let commands = [set(1, 10), set(2, 20), add(1, 5), raise(3, 30)];
    let mut station = Station::with(&[delta(A, 1).commands(&[set(1, 8), set(3, 9)])]);
    let given = "+B1 1=10 2=20 1=15 3=30";
    assert_eq!(station.pairs(&delta(B, 1).commands(&commands)), [given]);
    let restored = "-B1 3=9 1=10 2=0 1=8";
    let all = [restored, "+A2 2=4", given];
    assert_eq!(station.pairs(&delta(A, 2).commands(&[set(2, 4)])), all);
}

#[test]
fn a_tag_twice_in_one_delta() {
    let mut station = Station::with(&[delta(A, 1).commands(&[set(1, 5)])]);
    let twice = delta(B, 1).commands(&[set(1, 10), set(1, 20)]);
    assert_eq!(station.pairs(&twice), ["+B1 1=10 1=20"]);
    let all = ["-B1 1=10 1=5", "+A2 1=6", "+B1 1=10 1=20"];
    let next = delta(A, 2).commands(&[add(1, 1)]);
    assert_eq!(station.pairs(&next), all);
}

/// The value that a command finds is what the deltas before it leave, also after they are
/// new ones.
#[test]
fn an_undo_restores_what_its_last_execution_found() {
    let mut station = Station::with(&[b1()]);
    assert_eq!(station.pairs(&a1())[2], "+B1 3=1480");
    let next = delta(A, 2).commands(&[add(3, 100)]);
    let all = ["-B1 3=1500", "+A2 3=1600", "+B1 3=1580"];
    assert_eq!(station.pairs(&next), all);
}

#[test]
fn a_command_that_changes_nothing_has_its_pair() {
    let still = [
        set(4, 12),
        add(4, 0),
        raise(4, 11),
        raise(4, 12),
        raise(7, -1),
        set(8, 0),
        set(4, 12),
    ];
    let mut station = Station::with(&[delta(A, 1).commands(&[set(4, 12)])]);
    let given = "+B1 4=12 4=12 4=12 4=12 7=0 8=0 4=12";
    assert_eq!(station.pairs(&delta(B, 1).commands(&still)), [given]);
    let restored = "-B1 4=12 8=0 7=0 4=12 4=12 4=12 4=12";
    let all = [restored, "+A2 0=1", given];
    assert_eq!(station.pairs(&delta(A, 2)), all);
    let at_the_stop = [add(2, 1_000_000), add(2, 1)];
    let stopped = delta(C, 1).commands(&at_the_stop);
    assert_eq!(station.pairs(&stopped), ["+C1 2=1000000 2=1000000"]);
}

#[test]
fn what_was_held_is_listed_with_its_values() {
    let mut station = Station::new();
    let second = delta(A, 2).commands(&[add(3, 1), add(3, 1)]);
    assert_eq!(station.pairs(&second), [""; 0]);
    assert_eq!(station.pairs(&a1()), ["+A1 3=1500", "+A2 3=1501 3=1502"]);
}

#[test]
fn one_pair_and_seven_unused() {
    let mut expected = vec![2, 0, 0, 1, 0, 0, 0, 0, 0, 0x0A, 0, 0, 0, 1, 0, 1];
    expected.extend([0, 0, 0, 63, 0xFF, 0xF0, 0xBD, 0xC0]);
    expected.extend(SEVEN_UNUSED);
    assert_eq!(only_step(&[set(63, -1_000_000)]), expected);
}

#[test]
fn eight_pairs_and_none_unused() {
    let commands = [
        set(63, 1),
        add(62, -1),
        raise(0, 256),
        set(1, 1_000_000),
        add(63, 1),
        raise(2, -5),
        set(3, -65_536),
        set(4, 0),
    ];
    let mut expected = vec![2, 0, 0, 8, 0, 0, 0, 0, 0, 0x0A, 0, 0, 0, 1, 0, 1];
    expected.extend([0, 0, 0, 63, 0, 0, 0, 1]);
    expected.extend([0, 0, 0, 62, 0xFF, 0xFF, 0xFF, 0xFF]);
    expected.extend([0, 0, 0, 0, 0, 0, 1, 0]);
    expected.extend([0, 0, 0, 1, 0, 0x0F, 0x42, 0x40]);
    expected.extend([0, 0, 0, 63, 0, 0, 0, 2]);
    expected.extend([0, 0, 0, 2, 0, 0, 0, 0]);
    expected.extend([0, 0, 0, 3, 0xFF, 0xFF, 0, 0]);
    expected.extend([0, 0, 0, 4, 0, 0, 0, 0]);
    assert_eq!(expected.len(), 80);
    assert_eq!(only_step(&commands), expected);
}

/// One big-endian number in bytes 1-3, which is never above eight.
#[test]
fn the_count_of_pairs() {
    for count in 1..=8 {
        let step = only_step(&[set(5, 6); 8][..count]);
        assert_eq!(step[..4], [2, 0, 0, count as u8]);
    }
}

/// In a buffer of other bytes, for executions and undos.
#[test]
fn unused_pairs_are_zero() {
    for count in 1..=8 {
        let many = vec![set(40, -2); count];
        let mut station = Station::new();
        delivered(&mut station, &delta(B, 1).commands(&many), STEPS);
        let (_, buffer) = delivered(&mut station, &delta(A, 1), STEPS);
        let end = 16 + 8 * count;
        let (undo, last) = (&buffer[..80], &buffer[160..]);
        assert_eq!((undo[0], undo[3], undo[9]), (1, count as u8, 0x0B));
        assert_eq!((last[0], last[3], last[9]), (2, count as u8, 0x0B));
        for step in [undo, last] {
            assert!(step[16..end].iter().any(|byte| *byte != 0));
            assert!(step[end..].iter().all(|byte| *byte == 0));
        }
    }
}

#[test]
fn values_are_two_s_complement() {
    for (value, bytes) in [
        (-1, [0xFF, 0xFF, 0xFF, 0xFF]),
        (-20, [0xFF, 0xFF, 0xFF, 0xEC]),
        (-256, [0xFF, 0xFF, 0xFF, 0x00]),
        (-1_000_000, [0xFF, 0xF0, 0xBD, 0xC0]),
        (1_000_000, [0x00, 0x0F, 0x42, 0x40]),
        (0, [0, 0, 0, 0]),
    ] {
        assert_eq!(only_step(&[set(0, value)])[20..24], bytes, "{value}");
    }
}

#[test]
fn each_tag_has_four_bytes() {
    for tag in 0..64 {
        let step = only_step(&[command(1, tag, 1)]);
        assert_eq!(step[16..24], [0, 0, 0, tag, 0, 0, 0, 1]);
    }
}

/// 63 deltas of B that each add one to eight tags, and then A1, which adds one before them.
#[test]
fn one_hundred_and_twenty_seven_steps_of_eight_pairs() {
    let ones = [0, 1, 2, 3, 60, 61, 62, 63].map(|tag| add(tag, 1));
    let of = |letter, number| delta(letter, number).commands(&ones);
    let pairs = |value: u16| -> String {
        let tags = [0, 1, 2, 3, 60, 61, 62, 63].iter();
        tags.map(|tag| format!(" {tag}={value}")).collect()
    };
    // An undo lists the tags from the last.
    let restored = |value: u16| -> String {
        let tags = [63, 62, 61, 60, 3, 2, 1, 0].iter();
        tags.map(|tag| format!(" {tag}={value}")).collect()
    };
    let lone: Vec<Draft> = (1..=63).map(|number| of(B, number)).collect();
    let mut station = Station::with(&lone);
    let undos = (1..=63).rev().map(|k| format!("-B{k}{}", restored(k - 1)));
    let executions = (1..=63).map(|k| format!("+B{k}{}", pairs(k + 1)));
    let first = format!("+A1{}", pairs(1));
    let all: Vec<String> = undos.chain([first]).chain(executions).collect();
    assert_eq!(all.len(), 127);
    assert_eq!(station.clone().pairs(&of(A, 1)), all);
    // The last step ends where the least buffer ends; a larger one keeps what is beyond.
    for size in [10_160, 10_161, 10_240] {
        let (_, steps) = delivered(&mut station.clone(), &of(A, 1), size);
        assert_eq!(steps.len(), 10_160);
        assert_eq!(steps[10_152..], [0, 0, 0, 63, 0, 0, 0, 64]);
    }
    let short = station.deliver_into(&of(A, 1).bytes(), 10_159);
    assert_eq!(short, steps(1, ""));
}

/// The reader of steps that other tests use, on steps that are written out.
#[test]
fn the_reader_of_steps_itself() {
    let mut right = vec![1, 0, 0, 2, 0, 0, 0, 0, 0, 0x0C, 0, 0, 0, 1, 0, 9];
    right.extend([0, 0, 0, 63, 0xFF, 0xFF, 0xFF, 0xFE, 0, 0, 0, 0, 0, 0, 1, 1]);
    right.extend([0; 48]);
    let read = step(&right).expect("a step");
    assert_eq!((read.kind, &read.sequence[..]), (Kind::Undo, &right[4..16]));
    assert_eq!(read.pairs, [(63, -2), (0, 257)]);
    // Kind, count and tag out of their ranges, and an unused pair that is not zero.
    let wrong = [(0, 0), (0, 3), (1, 1), (2, 1), (3, 0), (3, 9), (3, 1)];
    for (at, byte) in wrong.into_iter().chain([(19, 64), (18, 1), (79, 1)]) {
        let mut changed = right.clone();
        changed[at] = byte;
        assert_eq!(step(&changed), None, "byte {at}");
    }
    assert_eq!(step(&right[..79]), None);
    let two = [&right[..], &[2], &right[1..]].concat();
    let kinds = |undos, executions| {
        let read = steps_of(&two, undos, executions)?;
        Some(read.iter().map(|step| step.kind).collect::<Vec<_>>())
    };
    assert_eq!(kinds(0, 0), Some(vec![]));
    assert_eq!(kinds(1, 1), Some(vec![Kind::Undo, Kind::Execute]));
    assert_eq!(kinds(1, 0), Some(vec![Kind::Undo]));
    for (undos, executions) in [(2, 0), (0, 2), (0, 1), (1, 2)] {
        assert_eq!(kinds(undos, executions), None);
    }
}
