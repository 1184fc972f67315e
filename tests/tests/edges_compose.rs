//! Compose, just inside and just outside each condition.

#![deny(warnings)]

mod common;

use bivamolune_tests::reference::compose::Request;
use bivamolune_tests::wire::{add, line, raise, sequence, set, Draft, Line, Sequence};
use common::{delta, plain_request, steps, Station, A, B, C, D};

const LIMIT: u32 = 2_147_483_647;

fn s(letter: u8, number: u16) -> Sequence {
    sequence(line(letter), number)
}

/// The code and the message of composing on a line with this flag and priority.
fn compose(station: &Station, line: Line, flag: u32, priority: u32) -> (u32, Vec<u8>) {
    station.compose(&Request {
        priority_flag: flag,
        priority,
        ..plain_request(&line)
    })
}

#[test]
fn flag_and_priority() {
    let station = Station::new();
    let code = |flag, priority| compose(&station, line(A), flag, priority).0;
    assert_eq!((code(0, 0), code(1, 0)), (0, 0));
    assert_eq!((code(0, 1), code(0, LIMIT), code(0, u32::MAX)), (6, 6, 6));
    assert_eq!((code(1, 1), code(1, LIMIT), code(1, LIMIT + 1)), (0, 0, 6));
    assert_eq!(
        (code(2, 0), code(2, 1), code(256, 0), code(u32::MAX, 0)),
        (6, 6, 6, 6)
    );
    assert_eq!(code(0x0100_0001, 0), 6);
}

#[test]
fn on_an_empty_log() {
    let station = Station::new();
    let plain = compose(&station, line(A), 0, 0);
    assert_eq!(plain, (0, delta(A, 1).group(1).bytes()));
    let explicit = compose(&station, line(A), 1, LIMIT);
    assert_eq!(
        explicit,
        (0, delta(A, 1).group(1).priority(1, LIMIT).bytes())
    );
    let zero = compose(&station, line(A), 1, 0);
    assert_eq!(zero, (0, delta(A, 1).group(1).priority(1, 0).bytes()));
}

#[test]
fn on_an_empty_log_beside_held_deltas() {
    let held = delta(B, 2).group(77).priority(LIMIT, 5);
    let station = Station::with(&[held]);
    let expected = delta(A, 1).group(1).priority(1, 3);
    assert_eq!(compose(&station, line(A), 1, 3), (0, expected.bytes()));
    assert_eq!(station.compose_code(line(B)), 9);
}

#[test]
fn commands_go_as_handed_over() {
    let station = Station::new();
    let commands = [set(63, 1_000_000), add(0, -1_000_000), raise(7, 0)];
    let line = line(A);
    let request = Request {
        commands: &commands.concat(),
        ..plain_request(&line)
    };
    let expected = delta(A, 1).commands(&commands);
    assert_eq!(station.compose(&request), (0, expected.bytes()));
}

#[test]
fn wrong_commands() {
    let station = Station::new();
    let wrong = [
        [0, 0, 0, 0, 0, 0, 0, 1],
        [4, 0, 0, 0, 0, 0, 0, 1],
        [1, 64, 0, 0, 0, 0, 0, 1],
        [1, 0, 1, 0, 0, 0, 0, 1],
        [1, 0, 0, 1, 0, 0, 0, 1],
        set(0, 1_000_001),
        set(0, -1_000_001),
        [1, 0, 0, 0, 0x80, 0, 0, 0],
    ];
    for command in wrong {
        let commands = [set(0, 1), command].concat();
        let request = Request {
            commands: &commands,
            ..plain_request(&[3; 10])
        };
        assert_eq!(station.compose(&request).0, 6, "{command:?}");
    }
}

#[test]
fn the_predecessor_is_not_named() {
    let station = Station::with(&[delta(A, 1), delta(A, 2)]);
    let (code, message) = compose(&station, line(A), 0, 0);
    assert_eq!((code, message), (0, delta(A, 3).group(1).bytes()));
    let station = Station::with(&[delta(A, 1), delta(B, 1).naming(&[s(A, 1)])]);
    let expected = delta(A, 2).group(2).naming(&[s(B, 1)]);
    assert_eq!(compose(&station, line(A), 0, 0), (0, expected.bytes()));
}

#[test]
fn dependencies_ascend_whatever_the_log_order() {
    let early = delta(C, 1).group(1);
    let late = delta(B, 1).group(9);
    let station = Station::with(&[early, late]);
    assert_eq!(station.log(), "C1 B1");
    let expected = delta(D, 1).group(9).naming(&[s(B, 1), s(C, 1)]);
    assert_eq!(compose(&station, line(D), 0, 0), (0, expected.bytes()));
}

#[test]
fn groups_follow_the_last_delta_and_the_highest_group() {
    // The last delta is in block 1 and group 0; the highest group is 5.
    let last = delta(A, 1).group(0).priority(1, 0);
    let station = Station::with(&[delta(C, 1).group(5), last]);
    assert_eq!(station.log(), "C1 A1");
    let names = [s(A, 1), s(C, 1)];
    let expected = delta(B, 1).group(5).naming(&names);
    assert_eq!(compose(&station, line(B), 0, 0), (0, expected.bytes()));
    let low: Line = [0; 10];
    let expected = Draft::new(low, 1).group(6).naming(&names);
    assert_eq!(compose(&station, low, 0, 0), (0, expected.bytes()));
}

#[test]
fn group_0_in_the_log() {
    let station = Station::with(&[delta(B, 1).group(0)]);
    let above = delta(C, 1).group(0).naming(&[s(B, 1)]);
    assert_eq!(compose(&station, line(C), 0, 0), (0, above.bytes()));
    let below = delta(A, 1).group(1).naming(&[s(B, 1)]);
    assert_eq!(compose(&station, line(A), 0, 0), (0, below.bytes()));
}

#[test]
fn the_last_group() {
    let station = Station::with(&[delta(B, 1).group(LIMIT)]);
    assert_eq!(station.compose_code(line(A)), 10);
    let expected = delta(C, 1).group(LIMIT).naming(&[s(B, 1)]);
    assert_eq!(compose(&station, line(C), 0, 0), (0, expected.bytes()));
    let station = Station::with(&[delta(B, 1).group(LIMIT - 1)]);
    let expected = delta(A, 1).group(LIMIT).naming(&[s(B, 1)]);
    assert_eq!(compose(&station, line(A), 0, 0), (0, expected.bytes()));
}

#[test]
fn the_last_block() {
    let station = Station::with(&[delta(A, 1).priority(LIMIT - 1, 0)]);
    let expected = delta(A, 2).priority(LIMIT, 4);
    assert_eq!(compose(&station, line(A), 1, 4), (0, expected.bytes()));
    let station = Station::with(&[delta(A, 1).priority(LIMIT, 0)]);
    assert_eq!(compose(&station, line(A), 1, 4).0, 10);
    assert_eq!(compose(&station, line(A), 0, 0), (0, delta(A, 2).bytes()));
}

/// Each effective block is the own block of a delta of the log, as needs are in the log
/// too. So the highest effective block is the highest own one, wherever that stands.
#[test]
fn the_highest_block_counts_and_not_that_of_the_last() {
    let station = Station::with(&[delta(A, 1).priority(7, 0), delta(A, 2).priority(3, 0)]);
    assert_eq!(station.log(), "A1 A2");
    let expected = delta(A, 3).priority(8, 0);
    assert_eq!(compose(&station, line(A), 1, 0), (0, expected.bytes()));
    // The last delta has no block of its own.
    let station = Station::with(&[delta(A, 1).priority(7, 0), delta(A, 2)]);
    assert_eq!(compose(&station, line(A), 1, 0), (0, expected.bytes()));
}

#[test]
fn a_held_number_ffff() {
    // A log of at most 64 deltas has no number above 64, so FFFF can only be held.
    let station = Station::with(&[delta(A, 1), delta(A, 0xFFFF)]);
    assert_eq!(
        (station.log(), station.held()),
        ("A1".into(), "A65535".into())
    );
    assert_eq!(station.compose_code(line(A)), 9);
    assert_eq!(station.compose_code(line(B)), 0);
}

#[test]
fn number_64_and_the_65th() {
    let drafts: Vec<Draft> = (1..=63).map(|number| delta(A, number)).collect();
    let mut station = Station::with(&drafts);
    let (code, message) = compose(&station, line(A), 0, 0);
    assert_eq!((code, &message), (0, &delta(A, 64).bytes()));
    assert_eq!(station.deliver_bytes(&message), steps(0, "+A64"));
    // Composing asks for no room; delivering does.
    let (code, message) = compose(&station, line(A), 0, 0);
    assert_eq!((code, &message), (0, &delta(A, 65).bytes()));
    assert_eq!(station.deliver_bytes(&message), steps(8, ""));
}

#[test]
fn eight_and_nine_dependencies_less_the_predecessor() {
    let nine: Vec<Draft> = (0x10..0x19).map(|last| delta(last, 1)).collect();
    let ten: Vec<Draft> = (0x10..0x1A).map(|last| delta(last, 1)).collect();
    let named: Vec<Sequence> = (0x11..0x19).map(|last| s(last, 1)).collect();
    let expected = delta(0x10, 2).group(2).naming(&named);
    let composed = compose(&Station::with(&nine), line(0x10), 0, 0);
    assert_eq!(composed, (0, expected.bytes()));
    assert_eq!(Station::with(&ten).compose_code(line(0x10)), 11);
    assert_eq!(Station::with(&nine).compose_code(line(0x19)), 11);
}

#[test]
fn held_deltas_are_not_named_and_do_not_use() {
    // B2 and C9 are held; C9 names A1.
    let held = delta(C, 9).naming(&[s(A, 1)]);
    let station = Station::with(&[delta(A, 1), held, delta(B, 2)]);
    let expected = delta(D, 1).naming(&[s(A, 1)]);
    assert_eq!(compose(&station, line(D), 0, 0), (0, expected.bytes()));
}

#[test]
fn held_deltas_count_for_neither_group_nor_block() {
    let held = delta(C, 9).group(50).priority(9, 0);
    let station = Station::with(&[delta(A, 1).priority(2, 0), held]);
    let expected = delta(D, 1).priority(3, 7).naming(&[s(A, 1)]);
    assert_eq!(compose(&station, line(D), 1, 7), (0, expected.bytes()));
}

#[test]
fn a_composed_delta_releases_held_ones_after_itself() {
    let waiting = delta(A, 1).group(0).naming(&[s(D, 1)]);
    let mut station = Station::with(&[delta(B, 1), delta(C, 1), waiting]);
    let (code, message) = compose(&station, line(D), 0, 0);
    assert_eq!(code, 0);
    assert_eq!(station.deliver_bytes(&message), steps(0, "+D1 +A1"));
}

#[test]
fn the_lowest_code_is_answered() {
    // Ten lone lines, one of them held, the group at its limit.
    let mut drafts: Vec<Draft> = (0x10..0x1A).map(|last| delta(last, 1)).collect();
    drafts.push(delta(0x30, 1).group(LIMIT));
    drafts.push(delta(A, 3));
    let station = Station::with(&drafts);
    let request = Request {
        line: &line(A),
        commands: &[0; 7],
        priority_flag: 2,
        priority: 1,
    };
    assert_eq!(station.compose(&request).0, 3);
    assert_eq!(
        station
            .compose(&Request {
                commands: &[0; 8],
                ..request
            })
            .0,
        6
    );
    assert_eq!(station.compose_code(line(A)), 9);
    assert_eq!(station.compose_code(line(B)), 10);
    assert_eq!(station.compose_code(line(0x31)), 11);
}
