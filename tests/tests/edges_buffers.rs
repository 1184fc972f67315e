//! Sizes of buffers, just inside and just outside, and the bytes past the written part.

#![deny(warnings)]

mod common;

use bivamolune_tests::boundary::Calls;
use bivamolune_tests::reference::compose::Request;
use bivamolune_tests::reference::reader::Reader;
use bivamolune_tests::wire::{line, Draft};
use common::text::{read_into, refusal, some_sequences, some_text, write_into};
use common::{
    a1, b1, delta, log_message, log_message_code, plain_request, setpoint, steps, Station, A, B,
    IMAGE, MESSAGE, PATTERN, STEPS, SUBJECT,
};

#[test]
fn image_sizes() {
    for (size, code) in [(0, 1), (16_383, 1), (16_384, 0), (16_385, 1), (32_768, 1)] {
        let mut image = vec![PATTERN; size];
        assert_eq!(SUBJECT.empty(&mut image), code, "empty on {size}");
        let mut image = Station::new().image;
        image.resize(size, 0);
        let before = image.clone();
        let mut buffer = vec![PATTERN; STEPS];
        let answer = SUBJECT.deliver(&mut image, &a1().bytes(), &mut buffer);
        assert_eq!(answer % 256, code, "deliver on {size}");
        assert_eq!(image == before, code == 1);
        let mut message = vec![PATTERN; MESSAGE];
        let line = line(A);
        let answer = SUBJECT.compose(&before, &plain_request(&line), &mut message);
        assert_eq!(answer % 256, code, "compose on {size}");
    }
}

#[test]
fn a_refused_empty_writes_nothing() {
    for size in [0, 16, 32, 272, 544, 16_383, 16_385] {
        let mut image = vec![PATTERN; size];
        assert_eq!(SUBJECT.empty(&mut image), 1);
        assert!(image.iter().all(|byte| *byte == PATTERN));
    }
}

/// Bytes of no image, the image of no deltas, and images of a log and of held deltas.
#[test]
fn empty_writes_whatever_the_buffer_held() {
    let mut expected = vec![0; IMAGE];
    expected[..16].copy_from_slice(&[0, 0, 0, 0, 0, 32, 2, 32, 2, 32, 0, 0, 2, 32, 1, 32]);
    let lone: Vec<Draft> = (1..=64).map(|last| delta(last, 1)).collect();
    for held in [
        vec![0; IMAGE],
        vec![0xFF; IMAGE],
        expected.clone(),
        Station::with(&[a1()]).image,
        Station::with(&[delta(A, 2)]).image,
        Station::with(&lone).image,
    ] {
        let mut image = held;
        assert_eq!(SUBJECT.empty(&mut image), 0);
        assert!(image == expected);
    }
}

#[test]
fn image_sizes_of_the_calls_that_read() {
    let image = Station::with(&[a1()]).image;
    for (size, code) in [(0, 1), (16_383, 1), (16_384, 0), (16_385, 1)] {
        let mut image = image.clone();
        image.resize(size, 0);
        let value = if code == 0 { 1500 } else { 0 };
        let length = if code == 0 { 48 } else { 0 };
        assert_eq!(setpoint(&image, 3), (code, value));
        assert_eq!(log_message_code(&image, 0), code);
        assert_eq!(log_message(&image, 0).len(), length);
        assert_eq!(Reader::new(&image).next_message().len(), length);
    }
}

#[test]
fn step_buffer_sizes() {
    for (size, expected) in [
        (0, 1),
        (80, 1),
        (2_032, 1),
        (10_159, 1),
        (10_160, 0),
        (10_161, 0),
        (40_000, 0),
    ] {
        let mut station = Station::new();
        let (code, _) = station.deliver_into(&a1().bytes(), size);
        assert_eq!(code, expected, "step buffer of {size}");
        assert_eq!(station.log_count(), 1 - expected as usize);
    }
}

#[test]
fn a_repeat_still_asks_for_a_step_buffer() {
    let mut station = Station::with(&[a1()]);
    assert_eq!(station.deliver_into(&a1().bytes(), 10_159).0, 1);
    assert_eq!(station.deliver_into(&a1().bytes(), 10_160).0, 0);
}

#[test]
fn bytes_past_the_steps_stay() {
    for (byte, size) in [
        (0x00, STEPS),
        (0xFF, STEPS),
        (0x02, STEPS + 5),
        (0x01, 40_000),
    ] {
        let mut image = Station::with(&[b1()]).image;
        let mut buffer = vec![byte; size];
        let answer = SUBJECT.deliver(&mut image, &a1().bytes(), &mut buffer);
        assert_eq!(answer, 256 + 2 * 65_536);
        assert!(buffer[240..].iter().all(|left| *left == byte));
        // A delta that is held writes no step, nor does a repeat or a refusal.
        let mut untouched = vec![byte; size];
        for draft in [delta(A, 9), a1(), a1().group(2), delta(A, 0)] {
            SUBJECT.deliver(&mut image, &draft.bytes(), &mut untouched);
            assert!(untouched.iter().all(|left| *left == byte), "{draft:?}");
        }
    }
}

#[test]
fn bytes_past_the_message_stay() {
    let (station, line) = (Station::with(&[b1()]), line(A));
    for (byte, size) in [(0x00, MESSAGE), (0xFF, MESSAGE), (0x01, MESSAGE + 99)] {
        let mut buffer = vec![byte; size];
        let answer = SUBJECT.compose(&station.image, &plain_request(&line), &mut buffer);
        assert_eq!(answer, 256 * 60);
        assert!(buffer[60..].iter().all(|left| *left == byte));
        let mut untouched = vec![byte; size];
        let wrong = Request {
            priority_flag: 2,
            ..plain_request(&line)
        };
        assert_eq!(SUBJECT.compose(&station.image, &wrong, &mut untouched), 6);
        assert!(untouched.iter().all(|left| *left == byte));
    }
}

#[test]
fn message_buffer_sizes() {
    let station = Station::new();
    let line = line(A);
    for (size, expected) in [(0, 1), (48, 1), (199, 1), (200, 0), (201, 0), (4_000, 0)] {
        let (code, message) = station.compose_into(&plain_request(&line), size);
        assert_eq!(code, expected, "message buffer of {size}");
        assert_eq!(message.len(), if expected == 0 { 48 } else { 0 });
    }
}

#[test]
fn line_sizes() {
    let station = Station::new();
    for (size, expected) in [(0, 1), (9, 1), (10, 0), (11, 1), (12, 1)] {
        let line = vec![7; size];
        let (code, _) = station.compose(&plain_request(&line));
        assert_eq!(code, expected, "line of {size}");
    }
}

#[test]
fn command_sizes() {
    let station = Station::new();
    let one = [1, 0, 0, 0, 0, 0, 0, 1];
    let nine = one.repeat(9);
    let sizes = [(0, 3), (1, 3), (7, 3), (8, 0), (9, 3), (15, 3), (16, 0)];
    for (size, expected) in sizes
        .into_iter()
        .chain([(63, 3), (64, 0), (65, 3), (72, 3)])
    {
        let request = Request {
            commands: &nine[..size],
            ..plain_request(&[7; 10])
        };
        let (code, message) = station.compose(&request);
        assert_eq!(code, expected, "commands of {size}");
        assert_eq!(message.len(), if expected == 0 { 40 + size } else { 0 });
    }
}

/// A request with everything wrong but the size of its line.
const WRONG: Request = Request {
    line: &[7; 10],
    commands: &[],
    priority_flag: 2,
    priority: u32::MAX,
};

#[test]
fn sizes_come_before_everything_else() {
    let mut station = Station::new();
    station.image[31] = 1;
    assert_eq!(station.deliver_into(&[], 10_159).0, 1);
    assert_eq!(station.deliver_into(&[], 10_160).0, 2);
    let short_line = Request {
        line: &[7; 9],
        ..WRONG
    };
    assert_eq!(station.compose(&short_line).0, 1);
    assert_eq!(station.compose_into(&WRONG, 199).0, 1);
    assert_eq!(station.compose(&WRONG).0, 2);
    station.image[31] = 0;
    assert_eq!(station.compose(&WRONG).0, 3);
    assert_eq!(station.deliver_into(&[], 10_160).0, 3);
}

#[test]
fn one_hundred_and_twenty_seven_steps() {
    let lone: Vec<Draft> = (1..=63).map(|number| delta(B, number)).collect();
    let mut station = Station::with(&lone);
    let undos = (1..=63).rev().map(|number| format!("-B{number}"));
    let executions = (1..=63).map(|number| format!("+B{number}"));
    let all: Vec<String> = undos.chain(["+A1".to_string()]).chain(executions).collect();
    assert_eq!(all.len(), 127);
    assert_eq!(station.deliver(&a1()), steps(0, &all.join(" ")));
}

/// Every size up to the least and past it, for one sequence as for eight: what is needed is
/// room for eight, whatever the text has.
#[test]
fn sequence_buffer_sizes() {
    for size in (0..=130).chain([199, 200, 4_096]) {
        for count in [1, 2, 7, 8] {
            let expected = match size < 96 {
                true => refusal(1),
                false => (0, some_sequences(count)),
            };
            assert_eq!(read_into(&some_text(count), size), expected, "{size}");
        }
    }
}

#[test]
fn text_buffer_sizes() {
    for size in (0..=260).chain([4_096]) {
        for count in [1, 2, 7, 8] {
            let expected = match size < 199 {
                true => refusal(1),
                false => (0, some_text(count)),
            };
            assert_eq!(write_into(&some_sequences(count), size), expected, "{size}");
        }
    }
}

/// The buffers of the two are not asked for the size of the other's.
#[test]
fn the_two_least_sizes_differ() {
    assert_eq!(read_into(&some_text(8), 198).0, 0);
    assert_eq!(write_into(&some_sequences(1), 96).0, 1);
}

/// The byte past the text is no NUL, nor is any other touched.
#[test]
fn bytes_past_a_text_stay() {
    for byte in [0x00, 0x2C, 0x30, 0xFF] {
        for (count, length) in [(1, 24), (2, 49), (8, 199)] {
            let mut text = vec![byte; 300];
            let answer = SUBJECT.write_sequences(&some_sequences(count), &mut text);
            assert_eq!(answer, 256 * length);
            assert!(text[length as usize..].iter().all(|left| *left == byte));
            let mut sequences = vec![byte; 300];
            let answer = SUBJECT.read_sequences(&some_text(count), &mut sequences);
            assert_eq!(answer, 256 * 12 * count as u32);
            assert!(sequences[12 * count..].iter().all(|left| *left == byte));
        }
    }
}
