//! Every example of the paper. The expected values are the paper's.

#![deny(warnings)]

mod common;

use bivamolune_tests::reference::compose::Request;
use bivamolune_tests::wire::{add, line, sequence, set};
use common::{a1, b1, delta, plain_request, steps, Station, A, B, C, IMAGE};

/// A1 as the paper prints it.
const A1: [u8; 48] = [
    0x01, 0x00, 0x00, 0x01, 0x00, 0x30, 0x00, 0x28, 0x00, 0x28, 0x00, 0x00, //
    0x00, 0x00, 0x00, 0x00, 0x00, 0x0A, 0x00, 0x00, 0x00, 0x01, 0x00, 0x01, //
    0x00, 0x00, 0x00, 0x01, 0x00, 0x00, 0x00, 0x00, 0x00, 0x00, 0x00, 0x00, //
    0x00, 0x00, 0x00, 0x00, 0x01, 0x03, 0x00, 0x00, 0x00, 0x00, 0x05, 0xDC,
];

#[test]
fn a1_on_the_wire() {
    assert_eq!(a1().bytes(), A1);
}

#[test]
fn no_deltas() {
    let station = Station::new();
    let mut expected = vec![0; IMAGE];
    expected[4..10].copy_from_slice(&[0x00, 0x20, 0x02, 0x20, 0x02, 0x20]);
    expected[12..16].copy_from_slice(&[0x02, 0x20, 0x01, 0x20]);
    assert!(station.image == expected);
}

#[test]
fn a1_alone() {
    let mut station = Station::new();
    assert_eq!(station.deliver_bytes(&A1), steps(0, "+A1"));
    let mut expected = vec![0; IMAGE];
    expected[..10].copy_from_slice(&[0, 1, 0, 0, 0x00, 0x20, 0x02, 0x20, 0x02, 0x50]);
    expected[12..16].copy_from_slice(&[0x02, 0x20, 0x01, 0x20]);
    expected[44..48].copy_from_slice(&[0, 0, 0x05, 0xDC]);
    expected[544..592].copy_from_slice(&A1);
    assert!(station.image == expected);
    assert_eq!((station.log().as_str(), station.value(3)), ("A1", 1500));
}

#[test]
fn a_successor_waits() {
    let mut station = Station::new();
    assert_eq!(station.deliver(&delta(A, 2)), steps(0, ""));
    assert_eq!(
        (station.log().as_str(), station.held().as_str()),
        ("", "A2")
    );
    assert_eq!(station.deliver(&a1()), steps(0, "+A1 +A2"));
    assert_eq!(
        (station.log().as_str(), station.held().as_str()),
        ("A1 A2", "")
    );
}

#[test]
fn an_earlier_delta_undoes() {
    let mut station = Station::new();
    assert_eq!(station.deliver(&b1()), steps(0, "+B1"));
    assert_eq!(station.value(3), -20);
    assert_eq!(station.deliver(&a1()), steps(0, "-B1 +A1 +B1"));
    assert_eq!((station.log().as_str(), station.value(3)), ("A1 B1", 1480));
}

#[test]
fn a_sum_is_stopped() {
    let three = [set(5, 999_990), add(5, 20), add(5, -20)];
    let in_one = Station::with(&[delta(A, 1).commands(&three)]);
    assert_eq!(in_one.value(5), 999_980);
    let in_three = Station::with(&[
        delta(A, 1).commands(&three[..1]),
        delta(A, 2).commands(&three[1..2]),
        delta(A, 3).commands(&three[2..]),
    ]);
    assert_eq!(in_three.value(5), 999_980);
}

#[test]
fn priorities_in_one_block() {
    let b = delta(B, 1).priority(1, 5);
    let c = delta(C, 1).priority(1, 7);
    let mut station = Station::with(&[b, c, a1()]);
    assert_eq!(station.log(), "A1 C1 B1");
    assert_eq!(station.deliver(&delta(C, 2)), steps(0, "+C2"));
    assert_eq!(station.log(), "A1 C1 B1 C2");
}

#[test]
fn a_ring_is_held() {
    let a = delta(A, 1).naming(&[sequence(line(B), 1)]);
    let b = delta(B, 1).naming(&[sequence(line(A), 1)]);
    let mut station = Station::new();
    assert_eq!(station.deliver(&a), steps(0, ""));
    assert_eq!(station.deliver(&b), steps(0, ""));
    assert_eq!((station.log_count(), station.held_count()), (0, 2));
    assert_eq!(station.held(), "A1 B1");
}

#[test]
fn a1_again() {
    let mut station = Station::with(&[a1()]);
    let before = station.image.clone();
    assert_eq!(station.deliver(&a1()), steps(0, ""));
    assert!(station.image == before);
}

#[test]
fn composing_on_a_after_b1() {
    let station = Station::with(&[b1()]);
    let expected = delta(A, 1).group(2).naming(&[sequence(line(B), 1)]);
    let composed = station.compose(&plain_request(&line(A)));
    assert_eq!(composed, (0, expected.bytes()));
}

#[test]
fn composing_on_b_after_a1() {
    let station = Station::with(&[a1()]);
    let expected = delta(B, 1).group(1).naming(&[sequence(line(A), 1)]);
    let composed = station.compose(&plain_request(&line(B)));
    assert_eq!(composed, (0, expected.bytes()));
}

#[test]
fn a_composed_message_byte_by_byte() {
    let station = Station::with(&[a1()]);
    let request = Request {
        line: &line(B),
        commands: &[2, 3, 0, 0, 0xFF, 0xFF, 0xFF, 0xEC],
        priority_flag: 1,
        priority: 9,
    };
    let mut expected = vec![1, 1, 1, 1, 0, 60, 0, 40, 0, 52, 0, 0];
    expected.extend([0, 0, 0, 0, 0, 0x0B, 0, 0, 0, 1, 0, 1]);
    expected.extend([0, 0, 0, 1, 0, 0, 0, 1, 0, 0, 0, 9, 0, 0, 0, 0]);
    expected.extend([0, 0, 0, 0, 0, 0x0A, 0, 0, 0, 1, 0, 1]);
    expected.extend([2, 3, 0, 0, 0xFF, 0xFF, 0xFF, 0xEC]);
    assert_eq!(station.compose(&request), (0, expected));
}

#[test]
fn a_ninth_line_names_eight() {
    let lines = [0x10, 0x11, 0x12, 0x13, 0x14, 0x15, 0x16, 0x17];
    let drafts = lines.map(|last| delta(last, 1));
    let mut station = Station::with(&drafts);
    let named = lines.map(|last| sequence(line(last), 1));
    let expected = delta(0x18, 1).group(1).naming(&named);
    let (code, message) = station.compose(&plain_request(&line(0x18)));
    assert_eq!((code, &message), (0, &expected.bytes()));
    assert_eq!(station.deliver_bytes(&message), steps(0, "+18.1"));
}
