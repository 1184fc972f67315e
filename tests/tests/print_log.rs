//! The program that prints a log, run as a program: the second implementation's and, with
//! the feature `library-print-log`, the proved one.

#![deny(warnings)]

mod common;
#[path = "common/program.rs"]
mod program;

use std::collections::BTreeMap;
use std::process::Output;

use bivamolune_tests::faulty::{Printer, PRINT_FAULTS};
use bivamolune_tests::generate::{damaged_image, image_input};
use bivamolune_tests::random::Random;
use bivamolune_tests::reference;
use bivamolune_tests::view::{messages, u16_at};
use bivamolune_tests::wire::{add, line, raise, sequence, set, Draft, Sequence};
use common::{a1, b1, delta, Station, A, C, IMAGE};
use program::pace::Pace;
use program::{broken_off, crashed, difference, directory, unready, write_only, Program};

/// The second implementation's program and, with the feature, the proved one.
fn programs() -> Vec<Program> {
    vec![
        Program::at(env!("CARGO_BIN_EXE_print_log")),
        #[cfg(feature = "library-print-log")]
        program::proved("print_log"),
    ]
}

/// What a program prints for an input in pieces.
fn run(program: &Program, input: &[u8], size: usize) -> Result<String, String> {
    printed_by(program.output(input, size)?)
}

/// The same, with each piece handed over at this pace.
fn run_at(program: &Program, pace: Pace, input: &[u8], size: usize) -> Result<String, String> {
    printed_by(program.output_at(pace, input, size)?)
}

/// A program must end well and say nothing beside; after a refusal that is left open, but a
/// crash is an error.
fn printed_by(output: Output) -> Result<String, String> {
    let well = output.status.success() && output.stderr.is_empty();
    let refuses = [b"1\n", b"2\n"].iter().any(|code| output.stdout == *code);
    if well || refuses && output.status.code().is_some() {
        return String::from_utf8(output.stdout).map_err(|error| error.to_string());
    }
    Err(format!("it ended so: {output:?}"))
}

/// Whether a text is what the second implementation prints for an input.
fn agrees(printed: &str, input: &[u8]) -> Result<(), String> {
    let wanted = reference::print_log::print_log(input);
    match printed == wanted {
        true => Ok(()),
        false => Err(difference(printed, &wanted)),
    }
}

/// Runs a program and compares.
fn check(program: &Program, input: &[u8]) -> Result<(), String> {
    agrees(&run(program, input, input.len().max(1))?, input)
}

/// What each program prints for an input, which is what the function of the package gives.
fn print_log(input: &[u8]) -> String {
    for program in programs() {
        check(&program, input).unwrap_or_else(|error| panic!("{program:?}: {error}"));
    }
    reference::print_log::print_log(input)
}

/// What is printed for the image of these deltas.
fn printed(drafts: &[Draft]) -> String {
    print_log(&Station::with(drafts).image)
}

#[test]
fn the_example() {
    let first = "0 544 48 00000000000A000000010001 3 1500\n";
    let second = "1 592 48 00000000000B000000010001 3 -20\n";
    assert_eq!(printed(&[a1()]), first);
    assert_eq!(printed(&[a1(), b1()]), format!("{first}{second}"));
    assert_eq!(printed(&[b1(), a1()]), format!("{first}{second}"));
}

#[test]
fn no_deltas() {
    assert_eq!(printed(&[]), "");
}

#[test]
fn held_ones_are_not_printed() {
    assert_eq!(printed(&[delta(A, 2)]), "");
    let expected = "0 544 48 00000000000B000000010001 3 -20\n";
    assert_eq!(printed(&[delta(A, 2), b1()]), expected);
    let ring = [
        a1().naming(&[sequence(line(C), 1)]),
        delta(C, 1).naming(&[sequence(line(A), 1)]),
    ];
    assert_eq!(printed(&ring), "");
}

/// The log's order, not that of the sequences: blocks, then the greater priority.
#[test]
fn the_order_of_the_log() {
    let b1 = b1().priority(1, 5);
    let c1 = delta(C, 1)
        .commands(&[set(0, 0), set(63, 1)])
        .priority(1, 7);
    let expected = "0 544 48 00000000000A000000010001 3 1500\n\
                    1 592 56 00000000000C000000010001 0 0 63 1\n\
                    2 648 48 00000000000B000000010001 3 -20\n\
                    3 696 48 00000000000C000000010002 0 1\n";
    assert_eq!(printed(&[b1, c1, a1(), delta(C, 2)]), expected);
}

/// Every command, in the order of the message, with its own value: not that of the tag after
/// it, and also where the tag stands twice.
#[test]
fn eight_commands() {
    let commands = [
        set(5, 999_990),
        add(5, 20),
        add(5, -20),
        raise(5, -1_000_000),
        set(63, 1_000_000),
        set(0, 0),
        raise(9, -1),
        add(10, 100),
    ];
    let expected = "0 544 104 00000000000A000000010001 \
                    5 999990 5 20 5 -20 5 -1000000 63 1000000 0 0 9 -1 10 100\n";
    assert_eq!(printed(&[delta(A, 1).commands(&commands)]), expected);
}

#[test]
fn values_in_decimal() {
    let values = [
        0, 1, -1, 9, -9, 10, -10, 99, 100, -100, 255, 256, -256, 1_000, 32_767, -32_768, 65_536,
        99_999, 100_000, -100_000, 999_999, -999_999, 1_000_000, -1_000_000,
    ];
    for value in values {
        let expected = format!("0 544 48 00000000000A000000010001 7 {value}\n");
        let draft = delta(A, 1).commands(&[set(7, value)]);
        assert_eq!(printed(&[draft]), expected);
    }
}

#[test]
fn every_tag() {
    for tag in 0..64 {
        let expected = format!("0 544 48 00000000000A000000010001 {tag} -1\n");
        let draft = delta(A, 1).commands(&[add(tag, -1)]);
        assert_eq!(printed(&[draft]), expected);
    }
}

/// All sixteen digits, in both places of a byte.
#[test]
fn sequences_as_text() {
    let lines = [
        (
            [0x01, 0x23, 0x45, 0x67, 0x89, 0xAB, 0xCD, 0xEF, 0x10, 0x32],
            "0123456789ABCDEF1032",
        ),
        (
            [0x54, 0x76, 0x98, 0xBA, 0xDC, 0xFE, 0xE9, 0x64, 0x14, 0x19],
            "547698BADCFEE9641419",
        ),
        ([0; 10], "00000000000000000000"),
        ([0xFF; 10], "FFFFFFFFFFFFFFFFFFFF"),
    ];
    for (line, digits) in lines {
        let expected = format!("0 544 48 {digits}0001 0 1\n");
        assert_eq!(printed(&[Draft::new(line, 1)]), expected);
    }
}

/// A delta of each of eight lines, and their sequences.
fn eight_lines() -> (Vec<Draft>, Vec<Sequence>) {
    let drafts: Vec<Draft> = (0x10..0x18).map(|last| delta(last, 1)).collect();
    let sequences = drafts.iter().map(Draft::sequence).collect();
    (drafts, sequences)
}

/// The commands start past the dependencies, which are not printed, nor are block, priority
/// and group.
#[test]
fn eight_dependencies() {
    let (mut drafts, needs) = eight_lines();
    let last = delta(A, 1).naming(&needs).commands(&[set(1, -2); 8]);
    drafts.push(
        last.group(2_147_483_647)
            .priority(2_147_483_647, 2_147_483_647),
    );
    let expected = "8 928 200 00000000000A000000010001 1 -2 1 -2 1 -2 1 -2 1 -2 1 -2 1 -2 1 -2";
    assert_eq!(printed(&drafts).lines().last(), Some(expected));
}

/// A log of 64, one line each; the last place and the last number, 0040 hexadecimal.
#[test]
fn a_full_log() {
    let drafts: Vec<Draft> = (1..=64).map(|number| delta(A, number)).collect();
    let printed = printed(&drafts);
    let lines: Vec<&str> = printed.lines().collect();
    assert_eq!(lines.len(), 64);
    assert_eq!(lines[0], "0 544 48 00000000000A000000010001 0 1");
    assert_eq!(lines[1], "1 592 48 00000000000A000000010002 0 1");
    assert_eq!(lines[9], "9 976 48 00000000000A00000001000A 0 1");
    assert_eq!(lines[10], "10 1024 48 00000000000A00000001000B 0 1");
    assert_eq!(lines[63], "63 3568 48 00000000000A000000010040 0 1");
}

/// The longest log: eight deltas of 104 bytes, then 56 of 200 that name them.
#[test]
fn the_longest_log() {
    let (mut drafts, needs) = eight_lines();
    drafts.extend((0x18..0x50).map(|last| delta(last, 1).naming(&needs)));
    let long = drafts
        .into_iter()
        .map(|draft| draft.commands(&[add(63, -1_000_000); 8]));
    let printed = printed(&long.collect::<Vec<_>>());
    let commands = " 63 -1000000".repeat(8);
    let starts = printed.lines().map(|line| line.strip_suffix(&commands));
    let starts: Vec<&str> = starts.collect::<Option<_>>().expect("all commands");
    assert_eq!(starts.len(), 64);
    assert_eq!(starts[0], "0 544 104 000000000010000000010001");
    assert_eq!(starts[7], "7 1272 104 000000000017000000010001");
    assert_eq!(starts[8], "8 1376 200 000000000018000000010001");
    assert_eq!(starts[9], "9 1576 200 000000000019000000010001");
    assert_eq!(starts[63], "63 12376 200 00000000004F000000010001");
}

#[test]
fn wrong_sizes_are_refused_by_1() {
    let image = Station::with(&[a1(), b1()]).image;
    for size in [
        0, 1, 16, 32, 272, 544, 16_383, 16_385, 32_768, 40_000, 500_000,
    ] {
        let input: Vec<u8> = image.iter().copied().cycle().take(size).collect();
        assert_eq!(print_log(&input), "1\n", "{size} bytes");
        assert_eq!(print_log(&vec![0; size]), "1\n", "{size} zeros");
    }
}

/// The table's small input, L = 1 and no message, and a byte of each part of an image.
#[test]
fn no_image_is_refused_by_2() {
    let mut none = Station::new().image;
    none[1] = 1;
    assert_eq!(print_log(&none), "2\n");
    for byte in [0, 1, 0xFF] {
        assert_eq!(print_log(&[byte; IMAGE]), "2\n", "all {byte}");
    }
    let right = Station::with(&[a1(), b1(), delta(A, 3)]).image;
    for at in [
        0, 1, 3, 5, 7, 9, 11, 13, 15, 16, 19, 20, 23, 24, 31, 32, 47, 287, 288, 543, 544, 549, 567,
        591, 688, 16_383,
    ] {
        let mut wrong = right.clone();
        wrong[at] ^= 1;
        assert_eq!(print_log(&wrong), "2\n", "byte {at}");
    }
}

/// Each read brings one byte, of an image and of more than the program takes.
#[test]
fn a_byte_at_a_time() {
    let mut image = Station::with(&[a1()]).image;
    let expected = "0 544 48 00000000000A000000010001 3 1500\n";
    for program in programs() {
        let found = run_at(&program, Pace::Awaited, &image, 1);
        assert_eq!(found.as_deref(), Ok(expected), "{program:?}");
    }
    image.extend([0; 4]);
    for program in programs() {
        let found = run_at(&program, Pace::Awaited, &image, 1);
        assert_eq!(found.as_deref(), Ok("1\n"), "{program:?}");
    }
}

/// A read that is interrupted is made again: before the first byte, within the image, at its
/// end, and past the 16,385th byte.
#[test]
fn an_interrupted_read() {
    let image = Station::with(&[a1()]).image;
    let expected = "0 544 48 00000000000A000000010001 3 1500\n";
    for program in programs() {
        let found = run_at(&program, Pace::Interrupted, &image, 4_096);
        assert_eq!(found.as_deref(), Ok(expected), "{program:?}");
        let found = run_at(&program, Pace::Interrupted, &[0; 40_000], 5_000);
        assert_eq!(found.as_deref(), Ok("1\n"), "{program:?}");
    }
}

/// What lies beyond an image is read to the last byte.
#[test]
fn every_byte_is_read() {
    for size in [
        0, 1, 16_383, 16_385, 16_386, 20_480, 20_481, 20_482, 300_000,
    ] {
        for program in programs() {
            let found = run_at(&program, Pace::AtOnce, &vec![0; size], size.max(1));
            assert_eq!(found.as_deref(), Ok("1\n"), "{program:?}, {size}");
        }
    }
}

/// An input that does not fit a pipe is read to its end.
#[test]
fn a_long_input() {
    for program in programs() {
        let input = vec![0; 300_000];
        assert_eq!(
            run(&program, &input, 1_000).as_deref(),
            Ok("1\n"),
            "{program:?}"
        );
    }
}

/// Whether a failure of reading is told, and nothing is printed.
fn tells_failure(output: &Output) -> bool {
    output.stdout.is_empty() && !output.stderr.is_empty() && output.status.code().is_some()
}

/// Where a read fails, nothing is printed, also behind a whole image; standard error says why.
#[test]
fn a_read_that_fails() {
    let image = Station::with(&[a1()]).image;
    for program in programs() {
        for size in [0, 1, IMAGE - 1, IMAGE] {
            let output = program.output_from(broken_off(&image[..size]));
            assert!(tells_failure(&output), "{program:?}, {size}: {output:?}");
        }
        for input in [directory(), write_only(), unready()] {
            let output = program.output_from(input);
            assert!(tells_failure(&output), "{program:?}: {output:?}");
        }
    }
}

/// That standard input is closed, a program in Rust is not told; the proved one is.
#[cfg(feature = "library-print-log")]
#[test]
fn a_closed_input_is_told() {
    let output = program::proved("print_log").output_from_closed();
    assert!(tells_failure(&output), "{output:?}");
}

/// A write that fails is told on standard error, that of a log and that of a refusal.
#[test]
fn a_write_that_fails() {
    let image = Station::with(&[a1()]).image;
    for program in programs() {
        for input in [&image[..], &image[1..]] {
            let output = program.output_without_room(input).expect("all is read");
            assert!(!output.stderr.is_empty(), "{program:?}: {output:?}");
            assert!(output.status.code().is_some(), "{program:?}: {output:?}");
        }
    }
}

/// Nobody reads what it prints: it ends, not as if all were well, and by no crash.
#[test]
fn a_closed_output() {
    let image = Station::with(&[a1()]).image;
    for program in programs() {
        let status = program.end_unread(&image);
        assert!(
            !status.success() && !crashed(status),
            "{program:?}: {status}"
        );
        let status = program.end_unread_without_signal(&image);
        assert!(status.code().is_some(), "{program:?}: {status}");
    }
}

/// Programs that print nothing, their input, or do not end well are told apart; so are those
/// that leave a part of their input unread.
#[test]
fn a_wrong_program_is_found() {
    let image = Station::with(&[delta(A, 1)]).image;
    let wrong = |script: &str| check(&Program::script(script), &image).unwrap_err();
    let wanted = "Some(\"0 544 48 00000000000A000000010001 0 1\")";
    let nothing = format!("line 1: None, and wanted is {wanted}");
    assert_eq!(wrong("cat >/dev/null"), nothing);
    assert!(wrong("cat").ends_with(&format!("and wanted is {wanted}")));
    assert!(wrong("cat >/dev/null; exit 1").starts_with("it ended so"));
    let stops = check(&Program::script("true"), &[0; 100_000]).unwrap_err();
    assert!(stops.starts_with("it did not read all"), "{stops}");
}

/// Each wrong program is seen by the inputs that the proved one is run over. Without a fault
/// it is the same as the second implementation.
#[test]
fn every_fault_is_found() {
    let inputs: Vec<Vec<u8>> = (0..300).map(image_input).collect();
    for input in &inputs {
        assert_eq!(agrees(&Printer(None).print(input), input), Ok(()));
    }
    for fault in PRINT_FAULTS {
        let differs = |input: &&Vec<u8>| agrees(&Printer(Some(fault)).print(input), input).is_err();
        let found = inputs.iter().filter(differs).count();
        println!("{fault:?}: {found} of {}", inputs.len());
        assert!(found > 0, "{fault:?} was not found");
    }
}

/// What an input has that is printed, of all that there should be.
fn shapes(image: &[u8]) -> Vec<String> {
    let printed = reference::print_log::print_log(image);
    if printed == "1\n" || printed == "2\n" {
        return vec![format!(
            "refused by {}, {} bytes",
            printed.trim(),
            image.len()
        )];
    }
    let log = messages(image, 0, u16_at(image, 0));
    let any = |is: fn(&[u8]) -> bool| log.iter().any(|message| is(message));
    let has = |field: &str| printed.split(&[' ', '\n'][..]).any(|word| word == field);
    let shapes = [
        ("empty", log.is_empty() && u16_at(image, 2) == 0),
        ("64 printed", log.len() == 64),
        ("held", u16_at(image, 2) > 0),
        ("held alone", log.is_empty() && u16_at(image, 2) > 0),
        (
            "64 with held ones",
            u16_at(image, 2) > 0 && log.len() + u16_at(image, 2) == 64,
        ),
        ("priority", any(|message| message[1] == 1)),
        ("eight commands", any(|message| message[3] == 8)),
        ("eight dependencies", any(|message| message[2] == 8)),
        ("the longest message", any(|message| message.len() == 200)),
        ("the greatest value", has("1000000")),
        ("the least value", has("-1000000")),
    ];
    let shapes = shapes.iter().filter(|(_, is)| *is);
    shapes.map(|(name, _)| name.to_string()).collect()
}

/// The inputs are what they are for: every shape, both refusals, every wrong size.
#[test]
fn inputs_meet_what_they_are_for() {
    let mut seen: BTreeMap<String, usize> = BTreeMap::new();
    for shape in (0..2_000).flat_map(|seed| shapes(&image_input(seed))) {
        *seen.entry(shape).or_default() += 1;
    }
    println!("{seen:?}");
    assert_eq!(seen.len(), 11 + 8, "{seen:?}");
    assert!(seen.values().all(|count| *count >= 3), "{seen:?}");
}

/// Each kind of damage that the generator has is met, and makes an image that is refused.
#[test]
fn every_damage_is_met() {
    let mut refused: BTreeMap<String, usize> = BTreeMap::new();
    for seed in 0..1_000 {
        let (edit, image) = damaged_image(&mut Random::new(seed));
        let kind = format!("{edit:?}");
        let kind = kind.split('(').next().expect("a name").to_string();
        let is_refused = reference::print_log::print_log(&image) == "2\n";
        *refused.entry(kind).or_default() += usize::from(is_refused);
    }
    assert_eq!(refused.len(), 11, "{refused:?}");
    assert!(refused.values().all(|count| *count >= 3), "{refused:?}");
}

/// Runs a program over the inputs of seeds.
fn check_inputs(program: &Program, seeds: std::ops::Range<u64>) {
    for seed in seeds {
        if let Err(error) = check(program, &image_input(seed)) {
            panic!("{program:?}, input {seed}: {error}");
        }
    }
}

#[test]
fn some_inputs() {
    for program in programs() {
        check_inputs(&program, 0..300);
    }
}

#[cfg(feature = "library-print-log")]
#[test]
fn ten_thousand_inputs() {
    check_inputs(&program::proved("print_log"), 300..10_300);
}
