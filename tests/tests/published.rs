//! The published ordering example, MS-GRVDYNM section 4.5, replayed by composing at
//! stations A, B and C in the order of its section 3.1.1. Groups, dependencies and
//! the final order are those of the publication.

#![deny(warnings)]

mod common;

use std::collections::BTreeSet;

use bivamolune_tests::call::hex;
use bivamolune_tests::reference::compose::Request;
use bivamolune_tests::wire::Line;
use common::text::{read, write};
use common::{messages, plain_request, u16_at, u32_at, Station};

const A: Line = [0xE9, 0x64, 0x14, 0x19, 0xD1, 0x8C, 0x02, 0xB9, 0x49, 0x5F];
const B: Line = [0x64, 0x01, 0xC3, 0x7E, 0xFB, 0x36, 0x6A, 0x87, 0xF4, 0x21];
const C: Line = [0xE2, 0xD2, 0x0D, 0xF7, 0xD8, 0x5D, 0x3E, 0x41, 0x9C, 0xCD];

/// A composed message as group, sequence and the set of its dependencies.
fn fields(message: &[u8]) -> (u32, String, BTreeSet<String>) {
    let end = 40 + 12 * usize::from(message[2]);
    assert_eq!(u16_at(message, 8), end);
    let named = message[40..end].chunks(12).map(hex).collect();
    (u32_at(message, 24), hex(&message[12..24]), named)
}

/// Composes at a station, delivers there, and checks what was composed.
fn create(station: &mut Station, line: Line, group: u32, seq: &str, dep_seq: &[&str]) -> Vec<u8> {
    let message = create_with(station, &plain_request(&line));
    let named = dep_seq.iter().map(|s| s.to_string()).collect();
    assert_eq!(fields(&message), (group, seq.to_string(), named));
    assert_eq!(
        (message[1], u32_at(&message, 28), u32_at(&message, 32)),
        (0, 0, 0)
    );
    message
}

/// Creates a delta of priority 1, and checks its block and its dependencies.
fn create_explicit(station: &mut Station, line: Line, block: u32, dep_seq: &[&str]) -> Vec<u8> {
    let request = Request {
        priority_flag: 1,
        priority: 1,
        ..plain_request(&line)
    };
    let message = create_with(station, &request);
    let named = dep_seq.iter().map(|s| s.to_string()).collect();
    assert_eq!(fields(&message).2, named);
    assert_eq!(
        (message[1], u32_at(&message, 28), u32_at(&message, 32)),
        (1, block, 1)
    );
    message
}

/// Composes and delivers at the station itself.
fn create_with(station: &mut Station, request: &Request) -> Vec<u8> {
    let (code, message) = station.compose(request);
    assert_eq!(code, 0);
    receive(station, &message);
    message
}

fn receive(station: &mut Station, message: &[u8]) {
    assert_eq!(station.code(message), 0);
}

/// "A1 is not the first delta generated in the space": the ten deltas before it, known
/// to all three. C's second is their only end, and the highest group is 3.
fn history() -> Station {
    let mut all = Station::new();
    for line in [A, A, A, A, A, B, A, B, C, C] {
        create_with(&mut all, &plain_request(&line));
    }
    all
}

/// The log past the ten deltas of the history.
fn rest(station: &Station) -> Vec<String> {
    let rest = messages(&station.image, 10, station.log_count() - 10);
    rest.iter().map(|message| hex(&message[12..24])).collect()
}

const A1: &str = "E9641419D18C02B9495F0007";
const A2: &str = "E9641419D18C02B9495F0008";
const A3: &str = "E9641419D18C02B9495F0009";
const B1: &str = "6401C37EFB366A87F4210003";
const B2: &str = "6401C37EFB366A87F4210004";
const C0: &str = "E2D20DF7D85D3E419CCD0002";
const C1: &str = "E2D20DF7D85D3E419CCD0003";

/// The stations of A, B and C when C is to create C1, and A2, which B lacks.
struct Space {
    a: Station,
    b: Station,
    c: Station,
    a2: Vec<u8>,
}

/// What both orderings begin with: A1, A2 and B1.
fn up_to_c1() -> Space {
    let (mut a, mut b, mut c) = (history(), history(), history());
    let a1 = create(&mut a, A, 3, A1, &[C0]);
    receive(&mut b, &a1);
    receive(&mut c, &a1);
    let a2 = create(&mut a, A, 3, A2, &[]);
    receive(&mut c, &a2);
    let b1 = create(&mut b, B, 4, B1, &[A1]);
    receive(&mut a, &b1);
    receive(&mut c, &b1);
    Space { a, b, c, a2 }
}

#[test]
fn simple_delta_ordering() {
    let mut at = up_to_c1();
    let c1 = create(&mut at.c, C, 4, C1, &[A2, B1]);
    receive(&mut at.a, &c1);
    let b2 = create(&mut at.b, B, 4, B2, &[]);
    let a3 = create(&mut at.a, A, 4, A3, &[C1]);
    // Now each receives what it lacks.
    receive(&mut at.a, &b2);
    for message in [&a3, &c1, &at.a2] {
        receive(&mut at.b, message);
    }
    for message in [&a3, &b2] {
        receive(&mut at.c, message);
    }
    for station in [&at.a, &at.b, &at.c] {
        assert_eq!(rest(station), [A1, A2, B1, B2, C1, A3]);
        assert_eq!(station.held_count(), 0);
    }
    assert!(at.a.image == at.b.image && at.b.image == at.c.image);
}

/// Section 4.6 gives C1 and A3 a priority and puts B2 past C1. There the two papers
/// part: here B2, which needs nothing with priority, is in block 0 and stays before.
#[test]
fn priority_delta_ordering_by_our_blocks() {
    let mut at = up_to_c1();
    let c1 = create_explicit(&mut at.c, C, 1, &[A2, B1]);
    receive(&mut at.a, &c1);
    let b2 = create(&mut at.b, B, 4, B2, &[]);
    let a3 = create_explicit(&mut at.a, A, 2, &[C1]);
    assert_eq!(rest(&at.a), [A1, A2, B1, C1, A3]);
    receive(&mut at.a, &b2);
    for message in [&c1, &a3, &at.a2] {
        receive(&mut at.b, message);
    }
    assert_eq!(rest(&at.a), [A1, A2, B1, B2, C1, A3]);
    assert!(at.a.image == at.b.image);
}

/// The DepSeq attributes of the publication's examples, as they are printed there. That of
/// C1 is not ascending.
const DEP_SEQ: [&str; 12] = [
    "6B16C44E97E73F6CF9E50001",
    "187019C3E236699D23110002",
    "6B16C44E97E73F6CF9E50002",
    "6B16C44E97E7011B33C40001",
    "E2D20DF7D85D3E419CCD0002",
    "E9641419D18C02B9495F0007",
    "E9641419D18C02B9495F0008,6401C37EFB366A87F4210003",
    "E2D20DF7D85D3E419CCD0003",
    "E2D20DF7D85D27460B3E0002",
    "E9641419D18C367218970007",
    "E9641419D18C367218970008,6401C37EFB36712340A30003",
    "E2D20DF7D85D27460B3E0003",
];

#[test]
fn published_dep_seq_is_read_and_written_back() {
    for text in DEP_SEQ {
        let (code, sequences) = read(text.as_bytes());
        assert_eq!(code, 0, "{text}");
        let fields: Vec<String> = sequences.chunks(12).map(hex).collect();
        assert_eq!(fields.join(","), text);
        assert_eq!(write(&sequences), (0, text.as_bytes().to_vec()));
    }
}

/// The bytes of C1's DepSeq: A2, then B1.
#[test]
fn published_dep_seq_in_bytes() {
    let expected = [&A[..], &[0, 8], &B[..], &[0, 3]].concat();
    assert_eq!(read(DEP_SEQ[6].as_bytes()), (0, expected.clone()));
    assert_eq!(write(&expected), (0, DEP_SEQ[6].as_bytes().to_vec()));
}
