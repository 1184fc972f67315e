//! Every row of the code table with the row's own small input.

#![deny(warnings)]

mod common;

use bivamolune_tests::boundary::Calls;
use bivamolune_tests::reference::compose::Request;
use bivamolune_tests::reference::reader::Reader;
use bivamolune_tests::wire::{line, sequence, set};
use common::text::{read, read_into, refusal, write, write_into, ONE, ONE_TEXT};
use common::{
    a1, delta, log_message, log_message_code, plain_request, setpoint, Station, A, D, IMAGE,
    MESSAGE, PATTERN, STEPS, SUBJECT,
};

#[test]
fn row_1_an_image_of_16383() {
    let mut short = vec![PATTERN; IMAGE - 1];
    let mut steps = vec![PATTERN; STEPS];
    let mut message = vec![PATTERN; MESSAGE];
    assert_eq!(SUBJECT.empty(&mut short), 1);
    assert_eq!(SUBJECT.deliver(&mut short, &a1().bytes(), &mut steps), 1);
    assert_eq!(SUBJECT.purge(&mut short, 0), 1);
    let request = plain_request(&[0, 0, 0, 0, 0, 10, 0, 0, 0, 1]);
    assert_eq!(SUBJECT.compose(&short, &request, &mut message), 1);
    assert_eq!(log_message_code(&short, 0), 1);
    assert!(log_message(&short, 0).is_empty());
    assert_eq!(setpoint(&short, 0), (1, 0));
    assert!(Reader::new(&short).next_message().is_empty());
    for buffer in [short, steps, message] {
        assert!(buffer.iter().all(|byte| *byte == PATTERN));
    }
}

#[test]
fn row_2_a_count_without_a_message() {
    let mut station = Station::new();
    station.image[1] = 1;
    assert_eq!(station.code(&a1().bytes()), 2);
    assert_eq!(station.compose_code(line(A)), 2);
    assert_eq!(station.purge(0), 2);
    assert_eq!(log_message_code(&station.image, 0), 2);
    assert!(log_message(&station.image, 0).is_empty());
    assert_eq!(setpoint(&station.image, 0), (2, 0));
    assert!(Reader::new(&station.image).next_message().is_empty());
    // Empty does not ask what the buffer held.
    assert_eq!(SUBJECT.empty(&mut station.image), 0);
    assert!(station.image == Station::new().image);
}

#[test]
fn row_3_a_message_of_47() {
    let mut station = Station::new();
    assert_eq!(station.code(&a1().bytes()[..47]), 3);
    let short = Request {
        commands: &[1, 0, 0, 0, 0, 0, 0],
        ..plain_request(&[0; 10])
    };
    assert_eq!(station.compose(&short).0, 3);
}

#[test]
fn row_4_a0() {
    assert_eq!(Station::new().code(&delta(A, 0).bytes()), 4);
}

#[test]
fn row_5_a2_naming_a1() {
    let a2 = delta(A, 2).naming(&[sequence(line(A), 1)]);
    assert_eq!(Station::new().code(&a2.bytes()), 5);
}

#[test]
fn row_6_tag_64() {
    let station = Station::new();
    let draft = delta(A, 1).commands(&[set(64, 0)]);
    assert_eq!(station.clone().code(&draft.bytes()), 6);
    let request = Request {
        commands: &set(64, 0),
        ..plain_request(&[0; 10])
    };
    assert_eq!(station.compose(&request).0, 6);
}

#[test]
fn row_7_a1_twice_with_two_values() {
    let mut station = Station::with(&[delta(A, 1).commands(&[set(0, 1)])]);
    assert_eq!(station.code(&delta(A, 1).commands(&[set(0, 2)]).bytes()), 7);
}

#[test]
fn row_8_a_65th_delta() {
    let drafts: Vec<_> = (1..=64).map(|number| delta(A, number)).collect();
    let mut station = Station::with(&drafts);
    assert_eq!((station.log_count(), station.held_count()), (64, 0));
    assert_eq!(station.code(&delta(A, 65).bytes()), 8);
}

#[test]
fn row_9_a3_alone() {
    let station = Station::with(&[delta(A, 3)]);
    assert_eq!(station.compose_code(line(A)), 9);
    assert_eq!(station.compose_code(line(D)), 0);
}

#[test]
fn row_10_after_the_last_block() {
    let station = Station::with(&[delta(A, 1).priority(2_147_483_647, 0)]);
    let line = line(A);
    let request = Request {
        priority_flag: 1,
        ..plain_request(&line)
    };
    assert_eq!(station.compose(&request).0, 10);
    assert_eq!(station.compose_code(line), 0);
}

#[test]
fn row_11_a_tenth_line() {
    let drafts: Vec<_> = (0x10..0x19).map(|last| delta(last, 1)).collect();
    assert_eq!(Station::with(&drafts).compose_code(line(0x19)), 11);
    assert_eq!(Station::with(&drafts[1..]).compose_code(line(0x19)), 0);
}

#[test]
fn row_12_place_0_of_an_empty_log() {
    let station = Station::new();
    assert_eq!(log_message_code(&station.image, 0), 12);
    assert!(log_message(&station.image, 0).is_empty());
    assert_eq!(setpoint(&station.image, 64), (12, 0));
    assert_eq!(setpoint(&station.image, 63), (0, 0));
}

/// Change request 2 has no table; its conditions, each with one input.
#[test]
fn codes_13_and_14_and_1_of_texts() {
    assert_eq!(read(b"0102030405060708090a0B0C"), refusal(13));
    assert_eq!(read(b"0102030405060708090A0B0"), refusal(13));
    assert_eq!(read(b"0102030405060708090A0B0C,"), refusal(13));
    assert_eq!(write(&ONE[..11]), refusal(13));
    assert_eq!(read(b"0102030405060708090A0000"), refusal(14));
    assert_eq!(write(&[1, 2, 3, 4, 5, 6, 7, 8, 9, 10, 0, 0]), refusal(14));
    assert_eq!(read_into(ONE_TEXT.as_bytes(), 95), refusal(1));
    assert_eq!(write_into(&ONE, 198), refusal(1));
}

/// Change request 4 has no table either; its two conditions, each with one input.
#[test]
fn codes_15_and_16_of_a_purge() {
    let mut station = Station::with(&[a1()]);
    assert_eq!(station.purge(2), 15);
    assert_eq!(station.purge(1), 0);
    assert_eq!(station.purge(1), 15);
    let lines: Vec<_> = (1..=33).map(|last| delta(last, 1)).collect();
    let mut station = Station::with(&lines);
    assert_eq!(station.purge(33), 16);
    assert_eq!(station.purge(32), 0);
    assert_eq!(station.purge(1), 16);
}
