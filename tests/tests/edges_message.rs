//! Codes 3 to 8 of deliver, just inside and just outside each condition.

#![deny(warnings)]

mod common;

use bivamolune_tests::wire::{add, command, line, raise, sequence, set, Draft, Sequence};
use common::{a1, delta, steps, Station, A, B, C};

const LIMIT: u32 = 2_147_483_647;

/// The code of a message on an empty station.
fn code(message: &[u8]) -> u32 {
    Station::new().code(message)
}

/// The code of a draft on an empty station.
fn draft_code(draft: &Draft) -> u32 {
    code(&draft.bytes())
}

fn s(letter: u8, number: u16) -> Sequence {
    sequence(line(letter), number)
}

/// A5 with block 1 and priority 0 that names B1 and C1: 80 bytes.
fn a5() -> Draft {
    delta(A, 5)
        .priority(1, 0)
        .naming(&[s(B, 1), s(C, 1)])
        .commands(&[set(1, 2), add(3, 4)])
}

/// What the paper says of A5 with one header byte set to a value.
fn expected(at: usize, value: u8) -> u32 {
    match (at, value) {
        (0, 1) | (1, 1) => 0,
        // Without the flag, A5's block 1 is nonzero.
        (1, 0) => 6,
        (2, 2) | (3, 2) | (4, 0) | (5, 80) | (6, 0) | (7, 40) | (8, 0) | (9, 64) => 0,
        (10 | 11 | 36..=39, 0) => 0,
        (0..=11 | 36..=39, _) => 3,
        (23, 0) => 4,
        (24 | 28 | 32, 0x80..) => 6,
        (31, 0) => 6,
        _ => 0,
    }
}

#[test]
fn each_header_byte_with_each_value() {
    let right = a5().bytes();
    assert_eq!(right.len(), 80);
    let empty = Station::new();
    for at in 0..40 {
        for value in 0..=255 {
            let mut message = right.clone();
            message[at] = value;
            let code = empty.clone().code(&message);
            assert_eq!(code, expected(at, value), "byte {at} set to {value}");
        }
    }
}

#[test]
fn a_message_cut_or_extended() {
    let right = a5().bytes();
    for length in 0..80 {
        assert_eq!(code(&right[..length]), 3, "cut to {length}");
    }
    for extra in [1, 8, 12, 120, 121] {
        let mut longer = right.clone();
        longer.resize(80 + extra, 0);
        assert_eq!(code(&longer), 3, "extended by {extra}");
    }
    assert_eq!(code(&right), 0);
}

#[test]
fn the_shortest_and_the_longest() {
    let shortest = a1().bytes();
    assert_eq!((shortest.len(), code(&shortest)), (48, 0));
    assert_eq!(code(&shortest[..47]), 3);
    let mut longest = longest().bytes();
    assert_eq!((longest.len(), code(&longest)), (200, 0));
    longest.push(0);
    assert_eq!((longest.len(), code(&longest)), (201, 3));
}

/// Eight dependencies and eight commands.
fn longest() -> Draft {
    let named: Vec<Sequence> = (0x10..0x18).map(|last| s(last, 1)).collect();
    delta(A, 1).naming(&named).commands(&[set(0, 1); 8])
}

#[test]
fn counts_of_dependencies_and_commands() {
    let named: Vec<Sequence> = (0x10..0x19).map(|last| s(last, 1)).collect();
    assert_eq!(draft_code(&delta(A, 1).naming(&named[..8])), 0);
    assert_eq!(draft_code(&delta(A, 1).naming(&named)), 3);
    assert_eq!(draft_code(&delta(A, 1).commands(&[])), 3);
    assert_eq!(draft_code(&delta(A, 1).commands(&[set(0, 1); 8])), 0);
    assert_eq!(draft_code(&delta(A, 1).commands(&[set(0, 1); 9])), 3);
}

#[test]
fn sequence_numbers() {
    assert_eq!(draft_code(&delta(A, 0x0001)), 0);
    assert_eq!(draft_code(&delta(A, 0xFFFF)), 0);
    assert_eq!(draft_code(&delta(A, 0x0000)), 4);
    assert_eq!(draft_code(&delta(A, 1).naming(&[s(B, 1)])), 0);
    assert_eq!(draft_code(&delta(A, 1).naming(&[s(B, 0)])), 4);
    assert_eq!(draft_code(&delta(A, 1).naming(&[s(A, 0)])), 4);
    assert_eq!(draft_code(&delta(A, 1).naming(&[s(B, 1), s(C, 0)])), 4);
    // A line may be all zeros or all ones; only the number counts.
    assert_eq!(draft_code(&Draft::new([0; 10], 1)), 0);
    assert_eq!(draft_code(&Draft::new([0xFF; 10], 0xFFFF)), 0);
}

#[test]
fn dependencies() {
    let naming = |named: &[Sequence]| draft_code(&delta(B, 3).naming(named));
    assert_eq!(naming(&[s(A, 1), s(C, 1)]), 0);
    assert_eq!(naming(&[s(A, 1), s(A, 2)]), 0);
    assert_eq!(naming(&[s(A, 2), s(A, 1)]), 5);
    assert_eq!(naming(&[s(C, 1), s(A, 1)]), 5);
    assert_eq!(naming(&[s(A, 1), s(A, 1)]), 5);
    assert_eq!(naming(&[s(A, 1), s(C, 2), s(C, 1)]), 5);
    assert_eq!(naming(&[s(B, 3)]), 5);
    assert_eq!(naming(&[s(B, 2)]), 5);
    assert_eq!(naming(&[s(A, 1), s(B, 2), s(C, 1)]), 5);
    assert_eq!(naming(&[s(B, 1)]), 0);
    assert_eq!(naming(&[s(B, 4)]), 0);
    assert_eq!(naming(&[s(A, 2), s(A, 3)]), 0);
    // Number 0001 has no predecessor.
    assert_eq!(draft_code(&delta(B, 1).naming(&[s(B, 0xFFFF)])), 0);
}

#[test]
fn sequences_compare_as_unsigned_bytes() {
    let low = sequence([0x7F, 0, 0, 0, 0, 0, 0, 0, 0, 0], 0xFFFF);
    let high = sequence([0x80, 0, 0, 0, 0, 0, 0, 0, 0, 0], 1);
    assert_eq!(draft_code(&delta(A, 1).naming(&[low, high])), 0);
    assert_eq!(draft_code(&delta(A, 1).naming(&[high, low])), 5);
    assert_eq!(
        draft_code(&delta(A, 1).naming(&[s(B, 0x7FFF), s(B, 0x8000)])),
        0
    );
    assert_eq!(
        draft_code(&delta(A, 1).naming(&[s(B, 0x8000), s(B, 0x7FFF)])),
        5
    );
    assert_eq!(
        draft_code(&delta(A, 1).naming(&[s(B, 0x00FF), s(B, 0x0100)])),
        0
    );
    assert_eq!(
        draft_code(&delta(A, 1).naming(&[s(B, 0x0100), s(B, 0x00FF)])),
        5
    );
}

#[test]
fn the_predecessor_borrows_over_a_byte() {
    assert_eq!(draft_code(&delta(A, 0x0100).naming(&[s(A, 0x00FF)])), 5);
    assert_eq!(draft_code(&delta(A, 0x0100).naming(&[s(A, 0x00FE)])), 0);
    assert_eq!(draft_code(&delta(A, 0x0100).naming(&[s(A, 0x01FF)])), 0);
}

#[test]
fn group_block_and_priority() {
    assert_eq!(draft_code(&delta(A, 1).group(0)), 0);
    assert_eq!(draft_code(&delta(A, 1).group(LIMIT)), 0);
    assert_eq!(draft_code(&delta(A, 1).group(LIMIT + 1)), 6);
    assert_eq!(draft_code(&delta(A, 1).group(u32::MAX)), 6);
    assert_eq!(draft_code(&delta(A, 1).priority(0, 0)), 6);
    assert_eq!(draft_code(&delta(A, 1).priority(1, 0)), 0);
    assert_eq!(draft_code(&delta(A, 1).priority(LIMIT, LIMIT)), 0);
    assert_eq!(draft_code(&delta(A, 1).priority(LIMIT + 1, 0)), 6);
    assert_eq!(draft_code(&delta(A, 1).priority(1, LIMIT + 1)), 6);
}

#[test]
fn block_and_priority_without_the_flag() {
    for at in 28..36 {
        let mut message = a1().bytes();
        message[at] = 1;
        assert_eq!(code(&message), 6, "byte {at}");
    }
}

#[test]
fn commands() {
    let with = |command| {
        let mut eight = [set(0, 1); 8];
        let first = draft_code(&delta(A, 1).commands(&[command]));
        eight[7] = command;
        let last = draft_code(&delta(A, 1).commands(&eight));
        (first, last)
    };
    for (operation, code) in [(0, 6), (1, 0), (2, 0), (3, 0), (4, 6), (255, 6)] {
        assert_eq!(with(command(operation, 0, 0)), (code, code));
    }
    for (tag, code) in [(0, 0), (63, 0), (64, 6), (255, 6)] {
        assert_eq!(with(set(tag, 0)), (code, code));
    }
    for value in [1_000_000, -1_000_000, 0] {
        assert_eq!(with(add(0, value)), (0, 0));
        assert_eq!(with(raise(0, value)), (0, 0));
    }
    for value in [1_000_001, -1_000_001, i32::MAX, i32::MIN] {
        assert_eq!(with(set(0, value)), (6, 6));
        assert_eq!(with(raise(0, value)), (6, 6));
    }
    assert_eq!(with([1, 0, 1, 0, 0, 0, 0, 0]), (6, 6));
    assert_eq!(with([1, 0, 0, 1, 0, 0, 0, 0]), (6, 6));
}

#[test]
fn the_lowest_code_is_answered() {
    // Own number 0000, dependencies equal, group too great.
    let mut draft = delta(A, 0).naming(&[s(B, 1), s(B, 1)]).group(LIMIT + 1);
    assert_eq!(draft_code(&draft), 4);
    let mut cut = draft.bytes();
    cut.pop();
    assert_eq!(code(&cut), 3);
    draft.number = 1;
    assert_eq!(draft_code(&draft), 5);
    draft.dependencies.pop();
    assert_eq!(draft_code(&draft), 6);
    draft.group = LIMIT;
    assert_eq!(draft_code(&draft), 0);
}

#[test]
fn a_wrong_message_under_a_used_sequence() {
    let mut station = Station::with(&[a1()]);
    assert_eq!(station.code(&a1().group(LIMIT + 1).bytes()), 6);
    assert_eq!(station.code(&a1().group(2).bytes()), 7);
    assert_eq!(station.code(&a1().priority(1, 0).bytes()), 7);
    assert_eq!(station.code(&a1().bytes()), 0);
}

/// The bytes of a longest message that may be others alone, under the same sequence: those of
/// group, block, priority and dependencies, and of each command the operation, the tag and the
/// value but for its first byte, which is the sign.
fn may_differ(at: usize) -> bool {
    let in_command = matches!((at - 24) % 8, 0 | 1 | 5..=7);
    matches!(at, 24..=35 | 40..=135) || (at >= 136 && in_command)
}

#[test]
fn a_conflict_in_any_byte() {
    let far = |place: u8| sequence([0x10 * place + 1; 10], 0x0101);
    let named: Vec<Sequence> = (1..=8).map(far).collect();
    let present = delta(A, 1).priority(0x0101, 5).naming(&named);
    let right = present.commands(&[set(8, 100); 8]).bytes();
    let (empty, mut station) = (Station::new(), Station::new());
    assert_eq!((right.len(), station.code(&right)), (200, 0));
    for at in 24..200 {
        let mut conflicts = 0;
        for bit in 0..8 {
            let mut other = right.clone();
            other[at] ^= 1 << bit;
            if empty.clone().code(&other) == 0 {
                assert_eq!(station.code(&other), 7, "byte {at} bit {bit}");
                conflicts += 1;
            }
        }
        assert_eq!(conflicts > 0, may_differ(at), "byte {at}");
    }
    assert_eq!(station.deliver_bytes(&right), steps(0, ""));
}

#[test]
fn a_held_sequence_is_present_too() {
    let mut station = Station::with(&[delta(A, 2)]);
    assert_eq!(station.code(&delta(A, 2).group(2).bytes()), 7);
    assert_eq!(station.deliver(&delta(A, 2)), steps(0, ""));
    assert_eq!((station.log_count(), station.held_count()), (0, 1));
}

#[test]
fn sixty_three_and_sixty_four_present() {
    let numbers: Vec<Draft> = (1..=63).map(|number| delta(B, number)).collect();
    let mut station = Station::with(&numbers);
    assert_eq!(station.log_count(), 63);
    assert_eq!(station.deliver(&delta(B, 64)), steps(0, "+B64"));
    assert_eq!(station.code(&delta(B, 65).bytes()), 8);
    assert_eq!(station.code(&delta(A, 1).bytes()), 8);
    assert_eq!(station.code(&delta(B, 64).group(2).bytes()), 7);
    assert_eq!(station.deliver(&delta(B, 64)), steps(0, ""));
    assert_eq!(station.deliver(&delta(B, 1)), steps(0, ""));
    assert_eq!(station.code(&delta(A, 0).bytes()), 4);
}

#[test]
fn held_deltas_fill_a_station() {
    let numbers: Vec<Draft> = (2..=64).map(|number| delta(B, number)).collect();
    let mut station = Station::with(&numbers);
    assert_eq!((station.log_count(), station.held_count()), (0, 63));
    assert_eq!(station.clone().deliver(&delta(A, 2)), steps(0, ""));
    let full = Station::with(&[numbers, vec![delta(A, 2)]].concat());
    assert_eq!((full.log_count(), full.held_count()), (0, 64));
    assert_eq!(full.clone().code(&delta(B, 1).bytes()), 8);
    // The one missing delta releases all 63.
    let (code, played) = station.deliver(&delta(B, 1));
    assert_eq!((code, played.split(' ').count()), (0, 64));
    assert_eq!((station.log_count(), station.held_count()), (64, 0));
}
