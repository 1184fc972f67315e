//! The listing program, run as a program: the second implementation's and, with the feature
//! `library-listing`, the proved one.

#![deny(warnings)]

mod common;
#[path = "common/program.rs"]
mod program;

use std::collections::BTreeMap;
use std::fs;
use std::path::Path;
use std::process::{Output, Stdio};

use bivamolune_tests::generate::stream;
use bivamolune_tests::reference;
use bivamolune_tests::wire::{line, sequence, set, Draft};
use common::{a1, b1, delta, A, B};
use program::pace::Pace;
use program::{broken_off, crashed, directory, programs, unready, write_only, Program};

/// What each program prints for an input, which is what the function of the package gives.
fn listing(input: &[u8]) -> String {
    for program in programs() {
        let agrees = program.agrees(input);
        agrees.unwrap_or_else(|error| panic!("{program:?}: {error}"));
    }
    reference::listing::listing(input)
}

/// Runs a program over the streams of seeds.
fn check_streams(program: &Program, seeds: std::ops::Range<u64>) {
    for seed in seeds {
        if let Err(error) = program.agrees(&stream(seed)) {
            panic!("{program:?}, stream {seed}: {error}");
        }
    }
}

/// The messages end to end.
fn input(drafts: &[Draft]) -> Vec<u8> {
    drafts.iter().flat_map(Draft::bytes).collect()
}

#[test]
fn the_example() {
    let expected = "1 0 0 1\n2 0 1 2\nlog 2 held 0\n";
    assert_eq!(listing(&input(&[b1(), a1()])), expected);
}

/// The sample that is shipped: the remark is held, displays and burner are executed at once,
/// and the late message undoes three and executes all five.
#[test]
fn the_shipped_sample() {
    let samples = Path::new(env!("CARGO_MANIFEST_DIR")).join("../samples");
    let deltas = fs::read(samples.join("plant-fault.deltas")).expect("the sample is there");
    let lines = fs::read_to_string(samples.join("plant-fault.txt")).expect("its lines are there");
    let expected = "1 0 0 0\n2 0 0 1\n3 0 0 1\n4 0 0 1\n5 0 3 5\nlog 5 held 0\n";
    assert_eq!(lines, expected);
    assert_eq!(listing(&deltas), expected);
}

#[test]
fn no_input() {
    assert_eq!(listing(&[]), "log 0 held 0\n");
}

#[test]
fn refusals_inside_a_cut_do_not_end_reading() {
    let zero = delta(A, 0);
    let own = delta(A, 2).naming(&[sequence(line(A), 1)]);
    let tag = delta(B, 1).commands(&[set(64, 0)]);
    let other = a1().group(2);
    let mut bytes = input(&[zero, own, tag, a1(), other, a1()]);
    // A wrong kind under a right length.
    let mut kind = b1().bytes();
    kind[0] = 2;
    bytes.extend(kind);
    bytes.extend(b1().bytes());
    let expected = "1 4 0 0\n2 5 0 0\n3 6 0 0\n4 0 0 1\n5 7 0 0\n6 0 0 0\n\
                    7 3 0 0\n8 0 0 1\nlog 2 held 0\n";
    assert_eq!(listing(&bytes), expected);
}

#[test]
fn held_ones_are_counted() {
    let expected = "1 0 0 0\n2 0 0 1\nlog 1 held 1\n";
    assert_eq!(listing(&input(&[delta(A, 2), b1()])), expected);
}

#[test]
fn cuts_outside_48_to_200() {
    for length in [0_u16, 1, 47, 201, 0x3000, 0xFFFF] {
        let mut bytes = input(&[a1(), b1()]);
        bytes.extend(delta(A, 2).bytes());
        bytes[52..54].copy_from_slice(&length.to_be_bytes());
        bytes.resize(70_000, 0);
        assert_eq!(
            listing(&bytes),
            "1 0 0 1\n2 3 0 0\nlog 1 held 0\n",
            "{length}"
        );
    }
}

#[test]
fn cuts_of_48_and_200() {
    let needs: Vec<_> = (0x10..0x18).map(|last| sequence(line(last), 1)).collect();
    let long = delta(A, 1).naming(&needs).commands(&[set(0, 1); 8]);
    assert_eq!(long.bytes().len(), 200);
    let expected = "1 0 0 0\n2 0 0 1\nlog 1 held 1\n";
    assert_eq!(listing(&input(&[long, b1()])), expected);
    // A cut of 49 is delivered, refused by code 3, and does not end reading.
    let mut odd = a1().bytes();
    odd[5] = 49;
    odd.push(0);
    odd.extend(b1().bytes());
    assert_eq!(listing(&odd), "1 3 0 0\n2 0 0 1\nlog 1 held 0\n");
}

#[test]
fn a_cut_past_the_end() {
    let bytes = input(&[a1(), b1()]);
    assert_eq!(listing(&bytes[..95]), "1 0 0 1\n2 3 0 0\nlog 1 held 0\n");
    assert_eq!(listing(&bytes[..96]), "1 0 0 1\n2 0 0 1\nlog 2 held 0\n");
}

#[test]
fn a_rest_of_one_to_six_bytes() {
    let bytes = input(&[a1(), b1()]);
    for rest in 1..=6 {
        let expected = "1 0 0 1\n2 3 0 0\nlog 1 held 0\n";
        assert_eq!(listing(&bytes[..48 + rest]), expected, "a rest of {rest}");
    }
    assert_eq!(listing(&[1]), "1 3 0 0\nlog 0 held 0\n");
}

#[test]
fn sixty_thousand_bytes() {
    // 1250 messages of 48 bytes are 60,000 bytes.
    let mut bytes = a1().bytes().repeat(1_250);
    assert_eq!(bytes.len(), 60_000);
    let mut expected = "1 0 0 1\n".to_string();
    for number in 2..=1_250 {
        expected += &format!("{number} 0 0 0\n");
    }
    let with_last = |last: &str| expected.clone() + last;
    assert_eq!(listing(&bytes), with_last("log 1 held 0\n"));
    // What lies beyond is dropped, be it a message, a part of one, or much more.
    bytes.extend(b1().bytes());
    assert_eq!(listing(&bytes[..60_001]), with_last("log 1 held 0\n"));
    assert_eq!(listing(&bytes), with_last("log 1 held 0\n"));
    bytes.resize(500_000, 1);
    assert_eq!(listing(&bytes), with_last("log 1 held 0\n"));
}

#[test]
fn a_message_across_the_sixty_thousandth_byte() {
    // One message of 60 bytes and 1249 of 48: the last is cut 12 bytes short.
    let first = b1().naming(&[sequence(line(A), 1)]);
    assert_eq!(first.bytes().len(), 60);
    let mut bytes = first.bytes();
    bytes.extend(a1().bytes().repeat(1_249));
    assert_eq!(bytes.len(), 60_012);
    let printed = listing(&bytes);
    let lines: Vec<&str> = printed.lines().collect();
    assert_eq!(lines.len(), 1_251);
    assert_eq!(lines[..3], ["1 0 0 0", "2 0 0 2", "3 0 0 0"]);
    assert_eq!(lines[1_249..], ["1250 3 0 0", "log 2 held 0"]);
}

#[test]
fn a_full_station() {
    let drafts: Vec<Draft> = (1..=65).map(|number| delta(A, number)).collect();
    let printed = listing(&input(&drafts));
    let lines: Vec<&str> = printed.lines().collect();
    assert_eq!(lines[63..], ["64 0 0 1", "65 8 0 0", "log 64 held 0"]);
}

/// Each read brings one byte.
#[test]
fn a_byte_at_a_time() {
    let bytes = input(&[b1(), a1(), delta(A, 3)]);
    for program in programs() {
        let printed = program.list_at(Pace::Awaited, &bytes, 1);
        let expected = "1 0 0 1\n2 0 1 2\n3 0 0 0\nlog 2 held 1\n";
        assert_eq!(printed.as_deref(), Ok(expected), "{program:?}");
    }
}

/// A read that is interrupted is made again: before the first byte, within a message, between
/// two, at the end, and past the 60,000th byte.
#[test]
fn an_interrupted_read() {
    let bytes = input(&[b1(), a1(), delta(A, 3)]);
    for program in programs() {
        let printed = program.list_at(Pace::Interrupted, &bytes, 16);
        let expected = "1 0 0 1\n2 0 1 2\n3 0 0 0\nlog 2 held 1\n";
        assert_eq!(printed.as_deref(), Ok(expected), "{program:?}");
        let long = a1().bytes().repeat(2_000);
        let printed = program.list_at(Pace::Interrupted, &long, 15_000);
        assert_eq!(
            printed,
            Ok(reference::listing::listing(&long)),
            "{program:?}"
        );
    }
}

/// What lies beyond 60,000 bytes is read to the last byte.
#[test]
fn every_byte_is_read() {
    for size in [
        0, 1, 59_999, 60_000, 60_001, 64_095, 64_096, 64_097, 300_000,
    ] {
        let bytes: Vec<u8> = a1().bytes().into_iter().cycle().take(size).collect();
        for program in programs() {
            let printed = program.list_at(Pace::AtOnce, &bytes, size.max(1));
            assert_eq!(
                printed,
                Ok(reference::listing::listing(&bytes)),
                "{program:?}, {size}"
            );
        }
    }
}

#[test]
fn pieces_past_the_sixty_thousandth_byte() {
    let bytes = a1().bytes().repeat(2_000);
    for program in programs() {
        let printed = program.list_pieces(&bytes, 7_001).expect("it lists");
        assert_eq!(printed.lines().count(), 1_251);
        assert!(printed.ends_with("\n1250 0 0 0\nlog 1 held 0\n"));
    }
}

/// Nobody reads what it prints: it ends, not as if all were well, and by no crash.
#[test]
fn a_closed_output() {
    let bytes = input(&[b1(), a1()]);
    for program in programs() {
        let status = program.end_unread(&bytes);
        assert!(
            !status.success() && !crashed(status),
            "{program:?}: {status}"
        );
        let status = program.end_unread_without_signal(&bytes);
        assert!(status.code().is_some(), "{program:?}: {status}");
    }
}

/// Whether a failure of reading is told: these lines, and something on standard error. How
/// the program then ends is left open, but it is no crash.
fn tells_failure(output: &Output, lines: &str) -> bool {
    let listed = output.stdout == lines.as_bytes();
    listed && !output.stderr.is_empty() && output.status.code().is_some()
}

/// Where no byte can be read, the last line is printed, and standard error says why.
#[test]
fn a_read_that_fails() {
    let inputs: [fn() -> Stdio; 4] = [directory, write_only, unready, || broken_off(&[])];
    for (program, input) in programs()
        .iter()
        .flat_map(|p| inputs.map(|input| (p, input)))
    {
        let output = program.output_from(input());
        assert!(
            tells_failure(&output, "log 0 held 0\n"),
            "{program:?}: {output:?}"
        );
    }
}

/// What was read before a failure is listed; a message that the failure cuts is a cut past
/// the end.
#[test]
fn a_read_that_fails_behind_some_messages() {
    let bytes = input(&[b1(), a1()]);
    for program in programs() {
        let output = program.output_from(broken_off(&bytes));
        let lines = "1 0 0 1\n2 0 1 2\nlog 2 held 0\n";
        assert!(tells_failure(&output, lines), "{program:?}: {output:?}");
        let output = program.output_from(broken_off(&bytes[..95]));
        let lines = "1 0 0 1\n2 3 0 0\nlog 1 held 0\n";
        assert!(tells_failure(&output, lines), "{program:?}: {output:?}");
    }
}

/// What lies beyond 60,000 bytes is dropped: where it cannot be read, all is listed. Whether
/// that failure is told is left open.
#[test]
fn a_read_that_fails_past_the_sixty_thousandth_byte() {
    let bytes = a1().bytes().repeat(1_251);
    for program in programs() {
        let output = program.output_from(broken_off(&bytes));
        assert_eq!(output.stdout, listing(&bytes).as_bytes(), "{program:?}");
        assert!(output.status.code().is_some(), "{program:?}: {output:?}");
    }
}

/// With standard input closed the last line is printed as well. That it is closed, a program
/// in Rust is not told: the runtime puts an empty file in its place.
#[test]
fn a_closed_input() {
    for program in programs() {
        let output = program.output_from_closed();
        assert_eq!(output.stdout, b"log 0 held 0\n", "{program:?}");
        assert!(output.status.code().is_some(), "{program:?}: {output:?}");
    }
}

#[cfg(feature = "library-listing")]
#[test]
fn a_closed_input_is_told() {
    let output = program::proved("listing").output_from_closed();
    assert!(tells_failure(&output, "log 0 held 0\n"), "{output:?}");
}

/// Programs that print nothing, their input, or do not end well are told apart.
#[test]
fn a_wrong_program_is_found() {
    let wrong = |script: &str| Program::script(script).agrees(b"log 0 held 0\n");
    let wanted = "line 1: None, and wanted is Some(\"1 3 0 0\")";
    assert_eq!(wrong("cat >/dev/null"), Err(wanted.to_string()));
    let wanted = "line 1: Some(\"log 0 held 0\"), and wanted is Some(\"1 3 0 0\")";
    assert_eq!(wrong("cat"), Err(wanted.to_string()));
    let ended = wrong("cat >/dev/null; exit 1").unwrap_err();
    assert!(ended.starts_with("it ended with"), "{ended}");
}

/// So are those that leave a part of their input unread.
#[test]
fn a_program_that_stops_reading_is_found() {
    let stops = |read: Result<String, String>| {
        let error = read.unwrap_err();
        assert!(error.starts_with("it did not read all"), "{error}");
    };
    stops(Program::script("true").list(&[0; 100_000]));
    let five = Program::script("dd bs=1 count=5");
    assert!(five.list_at(Pace::AtOnce, &[0; 5], 5).is_ok());
    for pace in [Pace::AtOnce, Pace::Awaited, Pace::Interrupted] {
        stops(five.list_at(pace, &[0; 6], 6));
        stops(five.list_at(pace, &[0; 6], 1));
    }
}

/// A read that is interrupted does fail: `od` gives up there, as C's standard functions do.
#[test]
fn interruptions_are_real() {
    let od = Program::at("od");
    assert!(od.list_at(Pace::Awaited, b"abc", 1).is_ok());
    assert!(od.list_at(Pace::Interrupted, b"abc", 1).is_err());
    assert!(od.list_at(Pace::Interrupted, b"", 1).is_err());
}

/// The streams are what they are for: each code that a delivery may print, ends by a wrong
/// cut, by a rest and by the end, and more than the program takes.
#[test]
fn streams_meet_what_they_are_for() {
    let mut seen: BTreeMap<String, usize> = BTreeMap::new();
    let mut mark =
        |what: &str, is: bool| *seen.entry(what.to_string()).or_default() += usize::from(is);
    for seed in 0..1_000 {
        let bytes = stream(seed);
        let printed = reference::listing::listing(&bytes);
        let lines: Vec<Vec<&str>> = printed.lines().map(|l| l.split(' ').collect()).collect();
        let (last, before) = lines.split_last().expect("a last line");
        for code in ["0", "3", "4", "5", "6", "7", "8"] {
            mark(
                &format!("code {code}"),
                before.iter().any(|line| line[1] == code),
            );
        }
        mark("too long", bytes.len() > 60_000);
        mark("no line", before.is_empty());
        mark("held", last[3] != "0");
        mark("undone", before.iter().any(|line| line[2] != "0"));
        mark(
            "refused last",
            before.last().map_or(false, |line| line[1] == "3"),
        );
    }
    println!("{seen:?}");
    assert_eq!(seen.len(), 12);
    assert!(seen.values().all(|count| *count >= 5), "{seen:?}");
}

#[test]
fn some_streams() {
    for program in programs() {
        check_streams(&program, 0..300);
    }
}

#[cfg(feature = "library-listing")]
#[test]
fn ten_thousand_streams() {
    check_streams(&program::proved("listing"), 300..10_300);
}
