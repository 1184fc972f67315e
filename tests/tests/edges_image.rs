//! Code 2: what is an image and what is not.

#![deny(warnings)]

mod common;

use bivamolune_tests::wire::{add, line, sequence, set, Draft};
use common::{a1, b1, delta, setpoint, Station, A, B, C, D, IMAGE};

/// Log A1 B1, held C3 and D2.
fn station() -> Station {
    Station::with(&[a1(), b1(), delta(D, 2), delta(C, 3)])
}

/// The code of an image as deliver (of a new delta) and as compose see it.
fn codes(image: &[u8]) -> (u32, u32) {
    let mut station = Station {
        image: image.to_vec(),
    };
    let compose = station.compose_code(line(0x20));
    assert_eq!(setpoint(image, 0).0, compose);
    (station.code(&delta(0x21, 1).bytes()), compose)
}

/// An image written by hand: counts, setpoints as (tag, value), messages.
fn image(log: usize, held: usize, values: &[(usize, i32)], messages: &[Draft]) -> Vec<u8> {
    let mut image = vec![0; IMAGE];
    let bytes: Vec<u8> = messages.iter().flat_map(Draft::bytes).collect();
    let used = 544 + bytes.len();
    for (place, number) in [log, held, 32, 544, used, 0, 544, 288]
        .into_iter()
        .enumerate()
    {
        image[2 * place..2 * place + 2].copy_from_slice(&(number as u16).to_be_bytes());
    }
    for (tag, value) in values {
        image[32 + 4 * tag..36 + 4 * tag].copy_from_slice(&value.to_be_bytes());
    }
    image[544..used].copy_from_slice(&bytes);
    image
}

#[test]
fn the_image_of_four_deltas() {
    let messages = [a1(), b1(), delta(C, 3), delta(D, 2)];
    let expected = image(2, 2, &[(3, 1480)], &messages);
    assert!(station().image == expected);
    assert_eq!(codes(&expected), (0, 0));
    assert_eq!(expected[8..10], [0x02, 0xE0]);
}

#[test]
fn each_bit_of_header_setpoints_base_values_and_tail() {
    let right = station().image;
    let used = 544 + 4 * 48;
    let tail = [used, used + 1, used + 47, 9_000, IMAGE - 1];
    for at in (0..544).chain(tail) {
        for bit in 0..8 {
            let mut wrong = right.clone();
            wrong[at] ^= 1 << bit;
            assert_eq!(codes(&wrong), (2, 2), "byte {at} bit {bit}");
        }
    }
}

// Four images with counts and messages that do not belong together. The values are those that
// the log leaves as it is written, so that each is wrong by its own rule alone.

#[test]
fn a_log_in_another_order() {
    let swapped = [b1(), a1(), delta(C, 3), delta(D, 2)];
    assert_eq!(codes(&image(2, 2, &[(3, 1500)], &swapped)), (2, 2));
}

#[test]
fn held_ones_in_another_order() {
    let swapped = [a1(), b1(), delta(D, 2), delta(C, 3)];
    assert_eq!(codes(&image(2, 2, &[(3, 1480)], &swapped)), (2, 2));
}

#[test]
fn a_delta_in_the_log_whose_predecessor_is_missing() {
    let messages = [a1(), b1(), delta(C, 3), delta(D, 2)];
    let values = [(0, 1), (3, 1480)];
    assert_eq!(codes(&image(3, 1, &values, &messages)), (2, 2));
}

#[test]
fn an_executable_delta_among_the_held() {
    let messages = [a1(), b1(), delta(C, 3), delta(D, 2)];
    assert_eq!(codes(&image(1, 3, &[(3, 1500)], &messages)), (2, 2));
}

#[test]
fn a_sequence_twice() {
    let same = [delta(C, 3), delta(C, 3)];
    assert_eq!(codes(&image(0, 2, &[], &same)), (2, 2));
    let other = [delta(C, 3), delta(C, 3).group(2)];
    assert_eq!(codes(&image(0, 2, &[], &other)), (2, 2));
    assert_eq!(codes(&image(0, 1, &[], &other[..1])), (0, 0));
}

#[test]
fn sixty_four_and_sixty_five() {
    let numbers: Vec<Draft> = (1..=65).map(|number| delta(A, number)).collect();
    let full = image(64, 0, &[(0, 1)], &numbers[..64]);
    assert_eq!(codes(&full), (8, 0));
    let over = image(65, 0, &[(0, 1)], &numbers);
    assert_eq!(codes(&over), (2, 2));
    let held = image(0, 64, &[], &numbers[1..]);
    assert_eq!(codes(&held).0, 8);
    let held_over: Vec<Draft> = (2..=66).map(|number| delta(A, number)).collect();
    assert_eq!(codes(&image(0, 65, &[], &held_over)), (2, 2));
}

#[test]
fn sixty_four_longest_messages() {
    let needs: Vec<_> = (0x30..0x38).map(|last| sequence(line(last), 1)).collect();
    let commands = [add(1, -1_000_000), add(2, 1_000_000)].repeat(4);
    let long = |number| delta(A, number).naming(&needs).commands(&commands);
    let all: Vec<Draft> = (1..=64).map(long).collect();
    let station = Station::with(&all);
    assert_eq!(station.image[..10], [0, 0, 0, 64, 0, 32, 2, 32, 0x34, 0x20]);
    assert!(station.image == image(0, 64, &[], &all));
}

#[test]
fn deltas_that_fail_3_to_6() {
    assert_eq!(codes(&image(0, 1, &[], &[delta(A, 2)])), (0, 0));
    let wrong = [
        delta(A, 0),
        delta(A, 2).naming(&[sequence(line(B), 0)]),
        delta(A, 2).naming(&[sequence(line(A), 1)]),
        delta(A, 2).naming(&[sequence(line(A), 2)]),
        delta(A, 2).group(0x8000_0000),
        delta(A, 2).priority(0, 0),
        delta(A, 2).commands(&[]),
        delta(A, 2).commands(&[set(64, 0)]),
        delta(A, 2).commands(&[set(0, 1_000_001)]),
        delta(A, 2).commands(&[set(0, 1); 9]),
    ];
    for draft in wrong {
        let held = image(0, 1, &[], std::slice::from_ref(&draft));
        assert_eq!(codes(&held), (2, 2), "{draft:?}");
    }
}

#[test]
fn a_ring_and_a_missing_need_in_the_log() {
    let a = delta(A, 1).naming(&[sequence(line(B), 1)]);
    let b = delta(B, 1).naming(&[sequence(line(A), 1)]);
    let ring = [a.clone(), b];
    assert_eq!(codes(&image(2, 0, &[(0, 1)], &ring)), (2, 2));
    assert_eq!(codes(&image(0, 2, &[], &ring)), (0, 0));
    assert_eq!(
        codes(&image(1, 0, &[(0, 1)], std::slice::from_ref(&a))),
        (2, 2)
    );
    assert_eq!(codes(&image(0, 1, &[], &[a])), (0, 0));
}

#[test]
fn counts_that_overflow() {
    for (log, held) in [
        (65_535, 1),
        (1, 65_535),
        (65_535, 65_535),
        (64, 1),
        (32_768, 32_768),
    ] {
        let mut wrong = Station::new().image;
        wrong[..2].copy_from_slice(&(log as u16).to_be_bytes());
        wrong[2..4].copy_from_slice(&(held as u16).to_be_bytes());
        assert_eq!(codes(&wrong), (2, 2));
    }
}

#[test]
fn a_length_field_that_runs_past_the_end() {
    for length in [0, 1, 5, 47, 49, 200, 15_840, 15_841, 65_535] {
        let mut wrong = Station::with(&[a1()]).image;
        wrong[548..550].copy_from_slice(&(length as u16).to_be_bytes());
        assert_eq!(codes(&wrong), (2, 2), "length {length}");
    }
}

#[test]
fn buffers_of_one_byte() {
    for byte in [0x00, 0x01, 0x30, 0x80, 0xFF] {
        assert_eq!(codes(&vec![byte; IMAGE]), (2, 2), "all {byte:02X}");
    }
}

#[test]
fn a_message_changed_in_place_may_be_an_image_still() {
    let mut other = Station::with(&[a1()]).image;
    // The group of a lone delta does not show anywhere else.
    other[544 + 27] = 9;
    assert_eq!(codes(&other), (0, 0));
    // Its value does, at the setpoint.
    other[544 + 47] = 0;
    assert_eq!(codes(&other), (2, 2));
    other[47] = 0;
    assert_eq!(codes(&other), (0, 0));
}
