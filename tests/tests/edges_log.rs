//! The order of the log, the held deltas, the setpoints, log message and reader.

#![deny(warnings)]

mod common;

use bivamolune_tests::reference::reader::Reader;
use bivamolune_tests::reference::station;
use bivamolune_tests::wire::{add, line, raise, sequence, set, Draft, Sequence};
use common::{a1, b1, delta, log_message, log_message_code, setpoint, steps, Station, A, B, C, D};

fn s(letter: u8, number: u16) -> Sequence {
    sequence(line(letter), number)
}

fn log(drafts: &[Draft]) -> String {
    Station::with(drafts).log()
}

#[test]
fn group_before_sequence() {
    assert_eq!(log(&[delta(A, 1).group(2), delta(B, 1).group(1)]), "B1 A1");
    assert_eq!(log(&[delta(A, 1).group(0), delta(B, 1).group(0)]), "A1 B1");
    let wide = [delta(A, 1).group(0x0100), delta(B, 1).group(0x00FF)];
    assert_eq!(log(&wide), "B1 A1");
}

#[test]
fn sequence_is_compared_as_unsigned_bytes() {
    let low = Draft::new([0x7F, 0xFF, 0xFF, 0xFF, 0xFF, 0x0A, 0, 0, 0, 0], 1);
    let high = Draft::new([0x80, 0, 0, 0, 0, 0x0B, 0, 0, 0, 0], 1);
    assert_eq!(log(&[high, low]), "A1 B1");
    let creator_low = Draft::new([0, 0, 0, 0, 0, 0x0A, 0x7F, 0, 0, 0], 1);
    let creator_high = Draft::new([0, 0, 0, 0, 0, 0x0A, 0x80, 0, 0, 0], 1);
    let station = Station::with(&[creator_high, creator_low.clone()]);
    assert_eq!(log_message(&station.image, 0), creator_low.bytes());
}

#[test]
fn block_before_priority_and_priority_before_group() {
    let low = delta(A, 1).priority(2, 9).group(0);
    let first = delta(B, 1).priority(1, 0).group(9);
    assert_eq!(log(&[low.clone(), first.clone()]), "B1 A1");
    let greater = delta(C, 1).priority(1, 1).group(99);
    assert_eq!(log(&[low, first, greater]), "C1 B1 A1");
    let same = [
        delta(B, 1).priority(1, 4).group(3),
        delta(A, 1).priority(1, 4).group(3),
    ];
    assert_eq!(log(&same), "A1 B1");
    let groups = [
        delta(A, 1).priority(1, 4).group(3),
        delta(B, 1).priority(1, 4).group(2),
    ];
    assert_eq!(log(&groups), "B1 A1");
}

/// Two numbers side by side at each border of a byte, and at the limit.
const BORDERS: [(u32, u32); 4] = [
    (0x00FF, 0x0100),
    (0xFFFF, 0x1_0000),
    (0xFF_FFFF, 0x100_0000),
    (0x7FFF_FFFE, 0x7FFF_FFFF),
];

#[test]
fn group_block_and_priority_are_compared_by_all_their_bytes() {
    for (lower, upper) in BORDERS {
        let groups = [delta(A, 1).group(upper), delta(B, 1).group(lower)];
        assert_eq!(log(&groups), "B1 A1", "groups {lower} and {upper}");
        let blocks = [
            delta(A, 1).priority(upper, 0),
            delta(B, 1).priority(lower, 0),
        ];
        assert_eq!(log(&blocks), "B1 A1", "blocks {lower} and {upper}");
        let priorities = [
            delta(A, 1).priority(1, lower),
            delta(B, 1).priority(1, upper),
        ];
        assert_eq!(log(&priorities), "B1 A1", "priorities {lower} and {upper}");
    }
}

#[test]
fn priority_0_stands_before_none() {
    // C2 has no priority and effective block 1 through C1.
    let drafts = [
        delta(C, 1).priority(1, 5).group(0),
        delta(C, 2).group(0),
        delta(D, 1).priority(1, 0).group(9),
    ];
    assert_eq!(log(&drafts), "C1 D1 C2");
}

#[test]
fn the_effective_block_comes_through_dependencies() {
    // B1 names C1 of block 2 and D1 names B1: both wait for 20.1, the last of block 2.
    let drafts = [
        delta(C, 1).priority(2, 1),
        delta(B, 1).naming(&[s(C, 1)]),
        delta(D, 1).naming(&[s(B, 1)]).group(0),
        delta(0x20, 1).priority(2, 0).group(50),
        delta(A, 1).priority(1, 0),
    ];
    assert_eq!(log(&drafts), "A1 C1 20.1 B1 D1");
    // The block comes two steps far: B1's own block is 1, and D1 waits for 20.1 still.
    let far = [
        delta(C, 1).priority(2, 1),
        delta(B, 1).priority(1, 0).naming(&[s(C, 1)]),
        delta(D, 1).naming(&[s(B, 1)]).group(0),
        delta(0x20, 1).priority(2, 0).group(50),
    ];
    assert_eq!(log(&far), "C1 B1 20.1 D1");
}

#[test]
fn the_effective_block_comes_through_the_predecessor() {
    // C2 has no block of its own, and waits for D1 of block 2.
    let drafts = [
        delta(C, 1).priority(2, 1),
        delta(C, 2).group(0),
        delta(C, 3).group(0),
        delta(D, 1).priority(2, 0),
    ];
    assert_eq!(log(&drafts), "C1 D1 C2 C3");
}

#[test]
fn the_effective_block_is_the_greatest_of_several_needs() {
    // D1 needs B1 of block 1 and C1 of block 3: A1 of block 3 stands before it.
    let drafts = [
        delta(B, 1).priority(1, 0),
        delta(C, 1).priority(3, 5),
        delta(D, 1).naming(&[s(B, 1), s(C, 1)]),
        delta(A, 1).priority(3, 0),
    ];
    assert_eq!(log(&drafts), "B1 C1 A1 D1");
}

/// Whichever of nine needs has block 3, C2 stands behind D1, which comes in block 3 after it.
#[test]
fn the_effective_block_comes_through_each_of_nine_needs() {
    let named: Vec<Sequence> = (0x10..0x18).map(|last| s(last, 1)).collect();
    let mut needs: Vec<Draft> = (0x10..0x18).map(|last| delta(last, 1)).collect();
    needs.push(delta(C, 1));
    for place in 0..needs.len() {
        let mut all = needs.clone();
        all[place].explicit = Some((3, 5));
        all.extend([delta(C, 2).naming(&named), delta(D, 1).priority(3, 0)]);
        let log = log(&all);
        assert!(log.ends_with(" D1 C2"), "need {place}: {log}");
    }
}

#[test]
fn all_needs_stand_before() {
    // D1 names A1 and C1; B1 and C1 come after A1.
    let drafts = [
        delta(D, 1).group(0).naming(&[s(A, 1), s(C, 1)]),
        delta(A, 1),
        delta(B, 1),
        delta(C, 1),
    ];
    assert_eq!(log(&drafts), "A1 B1 C1 D1");
    // Without C1 it is held, though A1 is there.
    let station = Station::with(&drafts[..3]);
    assert_eq!(
        (station.log(), station.held()),
        ("A1 B1".into(), "D1".into())
    );
}

#[test]
fn an_own_block_below_that_of_a_need() {
    // A2's own block is 1, its effective block 5: D1 of block 5 and priority 1 stands
    // before it, by priority 1 against 0.
    let drafts = [
        delta(A, 1).priority(5, 2),
        delta(A, 2).priority(1, 0),
        delta(B, 1).priority(4, 0),
        delta(C, 1).priority(5, 3),
        delta(D, 1).priority(5, 1),
    ];
    assert_eq!(log(&drafts), "B1 C1 A1 D1 A2");
}

#[test]
fn an_own_block_above_that_of_a_need() {
    // A2's own block 5 is above that of A1: C1 of block 4 stands between.
    let drafts = [
        delta(A, 1).priority(3, 0),
        delta(A, 2).priority(5, 9),
        delta(C, 1).priority(4, 0),
    ];
    assert_eq!(log(&drafts), "A1 C1 A2");
}

#[test]
fn needs_stand_before_though_their_key_is_higher() {
    // A1 has the lowest key but names C1.
    let drafts = [
        delta(A, 1).naming(&[s(C, 1)]),
        delta(B, 1),
        delta(C, 1).group(2),
        delta(D, 1).group(3),
    ];
    assert_eq!(log(&drafts), "B1 C1 A1 D1");
}

#[test]
fn unrelated_deltas_do_not_wait_behind_a_held_one() {
    let mut station = Station::with(&[delta(A, 2)]);
    assert_eq!(station.deliver(&delta(B, 1)), steps(0, "+B1"));
    assert_eq!((station.log(), station.held()), ("B1".into(), "A2".into()));
}

#[test]
fn number_0001_has_no_predecessor() {
    let station = Station::with(&[delta(A, 1), delta(B, 2)]);
    assert_eq!((station.log(), station.held()), ("A1".into(), "B2".into()));
    // Nor is FFFF its predecessor.
    let named = delta(C, 1).naming(&[s(C, 0xFFFF)]);
    assert_eq!(Station::with(&[named]).held(), "C1");
}

#[test]
fn what_follows_a_held_delta_is_held() {
    let names_held = delta(C, 1).naming(&[s(A, 2)]);
    let mut station = Station::with(&[delta(A, 2), names_held, delta(C, 2)]);
    assert_eq!(
        (station.log(), station.held()),
        ("".into(), "A2 C1 C2".into())
    );
    assert_eq!(station.deliver(&delta(A, 1)), steps(0, "+A1 +A2 +C1 +C2"));
}

#[test]
fn a_ring_stays_held_when_all_else_comes() {
    let ring = [
        delta(A, 1).naming(&[s(C, 2)]),
        delta(B, 1).naming(&[s(A, 1)]),
        delta(C, 2).naming(&[s(B, 1)]),
    ];
    let mut station = Station::with(&ring);
    assert_eq!(station.deliver(&delta(C, 1)), steps(0, "+C1"));
    assert_eq!(station.held(), "A1 B1 C2");
    // A1 naming A2 is a ring through the predecessor.
    let own = Station::with(&[delta(A, 1).naming(&[s(A, 2)]), delta(A, 2)]);
    assert_eq!((own.log_count(), own.held_count()), (0, 2));
}

#[test]
fn a_common_start_is_kept() {
    let mut station = Station::with(&[delta(A, 1), delta(C, 1), delta(D, 1)]);
    assert_eq!(
        station.deliver(&delta(B, 1)),
        steps(0, "-D1 -C1 +B1 +C1 +D1")
    );
    assert_eq!(station.deliver(&delta(0x20, 1)), steps(0, "+20.1"));
}

#[test]
fn operations() {
    let value = |commands: &[_]| Station::with(&[delta(A, 1).commands(commands)]).value(9);
    assert_eq!(value(&[set(9, -7)]), -7);
    assert_eq!(value(&[set(9, 5), set(9, -7)]), -7);
    assert_eq!(value(&[add(9, 5), add(9, -7)]), -2);
    assert_eq!(value(&[raise(9, -7)]), 0);
    assert_eq!(value(&[raise(9, 7), raise(9, 6)]), 7);
    assert_eq!(value(&[set(9, -7), raise(9, -6)]), -6);
    assert_eq!(value(&[set(8, 4)]), 0);
    assert_eq!(value(&[add(9, 999_999), add(9, 1)]), 1_000_000);
    assert_eq!(value(&[add(9, 1_000_000), add(9, 1_000_000)]), 1_000_000);
    assert_eq!(value(&[add(9, -1_000_000), add(9, -1)]), -1_000_000);
    assert_eq!(
        value(&[add(9, -1_000_000), add(9, -1), add(9, 1)]),
        -999_999
    );
}

#[test]
fn a_stopped_sum_is_not_undone_by_subtracting() {
    let high = delta(B, 1).commands(&[set(4, 1_000_000)]);
    let more = delta(C, 1).commands(&[add(4, 10)]);
    let mut station = Station::with(&[high, more]);
    assert_eq!(station.value(4), 1_000_000);
    // D1 names B1 and stands before C1 by its group.
    let between = delta(D, 1)
        .group(0)
        .naming(&[s(B, 1)])
        .commands(&[add(4, -30)]);
    assert_eq!(station.deliver(&between), steps(0, "-C1 +D1 +C1"));
    assert_eq!(station.value(4), 999_980);
}

#[test]
fn held_deltas_do_not_run() {
    let station = Station::with(&[a1(), delta(B, 2).commands(&[set(3, 9)])]);
    assert_eq!(station.value(3), 1500);
    assert_eq!(setpoint(&station.image, 3), (0, 1500));
}

#[test]
fn log_message_and_setpoint() {
    let station = Station::with(&[b1(), a1(), delta(C, 2)]);
    assert_eq!(log_message(&station.image, 0), a1().bytes());
    assert_eq!(log_message(&station.image, 1), b1().bytes());
    assert_eq!(log_message_code(&station.image, 1), 0);
    for place in [2, 3, 64, usize::MAX] {
        assert_eq!(log_message_code(&station.image, place), 12);
        assert!(log_message(&station.image, place).is_empty());
    }
    assert_eq!(setpoint(&station.image, 3), (0, 1480));
    assert_eq!(setpoint(&station.image, 63), (0, 0));
    for tag in [64, 255, usize::MAX] {
        assert_eq!(setpoint(&station.image, tag), (12, 0));
    }
}

#[test]
fn the_part_lies_in_the_image() {
    let station = Station::with(&[b1(), a1()]);
    let part = log_message(&station.image, 1).as_ptr_range();
    let expected = station.image[592..640].as_ptr_range();
    assert_eq!(part, expected);
}

/// Of the second implementation, whose part and code are two functions.
#[test]
fn the_part_is_empty_exactly_where_the_code_is_1_2_or_12() {
    let right = Station::with(&[a1(), b1(), delta(C, 2)]).image;
    let mut wrong = right.clone();
    wrong[287] ^= 1;
    let far = usize::MAX;
    let calls = [
        (&right[..], 0, 0, a1().bytes()),
        (&right[..], 1, 0, b1().bytes()),
        (&right[..], 2, 12, vec![]),
        (&right[..], far, 12, vec![]),
        (&wrong[..], 0, 2, vec![]),
        (&wrong[..], far, 2, vec![]),
        (&right[1..], 0, 1, vec![]),
        (&[], 0, 1, vec![]),
    ];
    for (image, place, code, part) in calls {
        assert_eq!(station::log_message_code(image, place), code);
        assert_eq!(station::log_message(image, place), part);
    }
}

#[test]
fn the_reader_stops_before_the_held() {
    let station = Station::with(&[b1(), a1(), delta(C, 2)]);
    let mut reader = Reader::new(&station.image);
    assert_eq!(reader.next_message(), a1().bytes());
    assert_eq!(reader.next_message(), b1().bytes());
    for _ in 0..3 {
        assert!(reader.next_message().is_empty());
    }
    assert!(Reader::new(&Station::new().image).next_message().is_empty());
}

#[test]
fn a_buffer_that_is_no_image_gives_nothing() {
    let mut station = Station::with(&[a1(), b1()]);
    let whole = station.image.clone();
    let mut reader = Reader::new(&whole);
    assert_eq!(reader.next_message(), a1().bytes());
    // One setpoint is off; the messages are all there.
    station.image[287] ^= 1;
    assert_eq!(log_message_code(&station.image, 0), 2);
    assert!(log_message(&station.image, 0).is_empty());
    assert_eq!(setpoint(&station.image, 3), (2, 0));
    let mut reader = Reader::new(&station.image);
    assert!(reader.next_message().is_empty() && reader.next_message().is_empty());
    // Code 2 comes before 12.
    assert_eq!(log_message_code(&station.image, 99), 2);
    assert_eq!(setpoint(&station.image, 99), (2, 0));
}
