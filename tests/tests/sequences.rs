//! The program that prints sequences in their other form, run as a program: the second
//! implementation's and, with the feature `library-sequences`, the proved one.

#![deny(warnings)]

#[path = "common/program.rs"]
mod program;

use std::collections::BTreeMap;
use std::process::Output;

use bivamolune_tests::generate::either_form;
use bivamolune_tests::reference::sequences::other_form;
use program::pace::Pace;
use program::{broken_off, crashed, directory, unready, write_only, Program};

/// `0102030405060708090A0B0C` in bytes.
const ONE: [u8; 12] = [1, 2, 3, 4, 5, 6, 7, 8, 9, 10, 11, 12];
const ONE_TEXT: &str = "0102030405060708090A0B0C";

/// The second implementation's program and, with the feature, the proved one.
fn programs() -> Vec<Program> {
    vec![
        Program::at(env!("CARGO_BIN_EXE_sequences")),
        #[cfg(feature = "library-sequences")]
        program::proved("sequences"),
    ]
}

/// What a program prints for an input in pieces: the output, or the number of its refusal.
fn run(program: &Program, input: &[u8], size: usize) -> Result<Vec<u8>, String> {
    printed_by(program.output(input, size)?)
}

/// The same, with each piece handed over at this pace.
fn run_at(program: &Program, pace: Pace, input: &[u8], size: usize) -> Result<Vec<u8>, String> {
    printed_by(program.output_at(pace, input, size)?)
}

/// What is printed beside the output or the number of a refusal, and an end by a crash, are
/// errors; so is an end that is not well where there is no refusal.
fn printed_by(output: Output) -> Result<Vec<u8>, String> {
    let error = String::from_utf8_lossy(&output.stderr).into_owned();
    let refused = error.starts_with("refused: ");
    let well = output.status.success() && error.is_empty();
    let refuses = refused && output.stdout.is_empty() && output.status.code().is_some();
    match (well, refuses) {
        (true, _) => Ok(output.stdout),
        (_, true) => Err(error),
        _ => Err(format!(
            "{} after {:?}: {error}",
            output.status, output.stdout
        )),
    }
}

/// What the second implementation gives, in the same way.
fn wanted(input: &[u8]) -> Result<Vec<u8>, String> {
    other_form(input).map_err(|code| format!("refused: {}\n", code.number()))
}

/// What each program prints for an input, which is what the function of the package gives.
fn convert(input: &[u8]) -> Result<Vec<u8>, String> {
    for program in programs() {
        let printed = run(&program, input, input.len().max(1));
        assert_eq!(printed, wanted(input), "{program:?} of {input:?}");
    }
    wanted(input)
}

fn refused(code: u32) -> Result<Vec<u8>, String> {
    Err(format!("refused: {code}\n"))
}

fn printed(bytes: &[u8]) -> Result<Vec<u8>, String> {
    Ok(bytes.to_vec())
}

#[test]
fn a_text_is_printed_as_its_bytes_and_nothing_else() {
    assert_eq!(convert(ONE_TEXT.as_bytes()), printed(&ONE));
    let two = b"E9641419D18C02B9495F0008,6401C37EFB366A87F4210003";
    let bytes = [
        0xE9, 0x64, 0x14, 0x19, 0xD1, 0x8C, 0x02, 0xB9, 0x49, 0x5F, 0x00, 0x08, 0x64, 0x01, 0xC3,
        0x7E, 0xFB, 0x36, 0x6A, 0x87, 0xF4, 0x21, 0x00, 0x03,
    ];
    assert_eq!(convert(two), printed(&bytes));
    assert_eq!(convert(&bytes), printed(&[&two[..], b"\n"].concat()));
}

#[test]
fn bytes_are_printed_as_a_text_and_a_line_feed() {
    assert_eq!(convert(&ONE), printed(format!("{ONE_TEXT}\n").as_bytes()));
    let eight = format!("{}\n", [ONE_TEXT; 8].join(","));
    assert_eq!(convert(&ONE.repeat(8)), printed(eight.as_bytes()));
}

/// What the program prints is an input of it: for a text with a line feed the bytes come
/// back, and for bytes the text.
#[test]
fn there_and_back() {
    for count in 1..=8 {
        let bytes = ONE.repeat(count);
        let text = convert(&bytes).expect("a text");
        assert_eq!(text.len(), 25 * count);
        assert_eq!(convert(&text), printed(&bytes));
    }
}

#[test]
fn one_line_feed_at_the_end_is_dropped() {
    for count in 1..=8 {
        let text = [ONE_TEXT].repeat(count).join(",");
        let bytes = ONE.repeat(count);
        assert_eq!(convert(text.as_bytes()), printed(&bytes));
        assert_eq!(convert(format!("{text}\n").as_bytes()), printed(&bytes));
        assert_eq!(convert(format!("{text}\r\n").as_bytes()), refused(13));
        assert_eq!(convert(format!("{text}\n\n").as_bytes()), refused(13));
        assert_eq!(convert(format!("\n{text}").as_bytes()), refused(13));
    }
}

/// A sequence whose last byte is a line feed, 0A, keeps it: the whole input is written.
#[test]
fn bytes_that_end_in_a_line_feed() {
    let bytes = [1, 2, 3, 4, 5, 6, 7, 8, 9, 10, 0, 10];
    assert_eq!(convert(&bytes), printed(b"0102030405060708090A000A\n"));
    // With another line feed they are 13 bytes.
    assert_eq!(convert(&[&bytes[..], b"\n"].concat()), refused(13));
    // Number 0A0A, and all bytes line feeds.
    assert_eq!(convert(&[10; 12]), printed(b"0A0A0A0A0A0A0A0A0A0A0A0A\n"));
    // One byte beside is not printable, the first, or the one before the line feed.
    let text = b"1F204041505A607A7D7E410A\n";
    assert_eq!(convert(b"\x1F @APZ`z}~A\n"), printed(text));
    let text = b"41204041505A607A7D7E7F0A\n";
    assert_eq!(convert(b"A @APZ`z}~\x7F\n"), printed(text));
    let text = b"41204041505A607A7D7E000A\n";
    assert_eq!(convert(b"A @APZ`z}~\0\n"), printed(text));
}

/// Bytes of sequences that are all printable but for a line feed, the last byte of all, are a
/// line.
#[test]
fn printable_bytes_and_a_line_feed_are_a_line() {
    for count in 1..=8 {
        let mut bytes = vec![b'A'; 12 * count];
        bytes[12 * count - 1] = b'\n';
        assert_eq!(convert(&bytes), refused(13), "{count}");
    }
    assert_eq!(convert(b"A @APZ`z}~ \n"), refused(13));
    // A line feed in any other place is not printable.
    for place in 0..11 {
        let mut bytes = [b'A'; 12];
        bytes[place] = b'\n';
        let mut text = *b"414141414141414141414141\n";
        text[2 * place..][..2].copy_from_slice(b"0A");
        assert_eq!(convert(&bytes), printed(&text), "{place}");
    }
}

/// The bytes around the printable ones, the byte before and behind each edge first.
const AROUND: [(u8, &[u8; 2]); 11] = [
    (31, b"1F"),
    (127, b"7F"),
    (0, b"00"),
    (9, b"09"),
    (11, b"0B"),
    (13, b"0D"),
    (27, b"1B"),
    (128, b"80"),
    (160, b"A0"),
    (195, b"C3"),
    (255, b"FF"),
];

/// One byte that is not printable, in any place, and printable bytes are sequences; with 32
/// or 126 in that place they are a text, and no right one.
#[test]
fn printable_bytes_but_one() {
    for place in 0..12 {
        let mut bytes = [b'A'; 12];
        for (byte, digits) in AROUND {
            bytes[place] = byte;
            let mut text = *b"414141414141414141414141\n";
            text[2 * place..][..2].copy_from_slice(digits);
            assert_eq!(convert(&bytes), printed(&text), "{byte} at {place}");
        }
        for byte in [32, 126] {
            bytes[place] = byte;
            assert_eq!(convert(&bytes), refused(13), "{byte} at {place}");
        }
    }
}

/// Every byte among printable ones.
#[test]
fn every_byte_among_printable_ones() {
    for byte in 0..=255 {
        let bytes = [b'~', b' ', b'A', b'Z', byte, b'a', b'z', 48, 57, 44, 32, 32];
        let text = format!("7E20415A{byte:02X}617A30392C2020\n");
        let expected = match byte {
            32..=126 => refused(13),
            _ => printed(text.as_bytes()),
        };
        assert_eq!(convert(&bytes), expected, "{byte}");
    }
}

/// One printable byte, in any place, and bytes that are none are sequences.
#[test]
fn one_printable_byte() {
    let edges = [(31, b"1F"), (32, b"20"), (126, b"7E"), (127, b"7F")];
    for place in 0..12 {
        for (byte, digits) in edges {
            let mut bytes = [7; 12];
            bytes[place] = byte;
            let mut text = *b"070707070707070707070707\n";
            text[2 * place..][..2].copy_from_slice(digits);
            assert_eq!(convert(&bytes), printed(&text), "{byte} at {place}");
        }
    }
}

/// Of printable bytes the number is at least 2020. One of its bytes below, and they are
/// sequences.
#[test]
fn the_least_number_of_printable_bytes() {
    assert_eq!(convert(&[32; 12]), refused(13));
    assert_eq!(convert(b"AAAAAAAAAA  "), refused(13));
    let text = b"41414141414141414141201F\n";
    assert_eq!(convert(b"AAAAAAAAAA \x1F"), printed(text));
    let text = b"414141414141414141411F20\n";
    assert_eq!(convert(b"AAAAAAAAAA\x1F "), printed(text));
    // A number as stations give it, in two sequences; one of them is enough.
    let text = b"414141414141414141410001,414141414141414141414141\n";
    assert_eq!(convert(b"AAAAAAAAAA\0\x01AAAAAAAAAAAA"), printed(text));
    let text = b"414141414141414141414141,414141414141414141410001\n";
    assert_eq!(convert(b"AAAAAAAAAAAAAAAAAAAAAA\0\x01"), printed(text));
    // Number 0000 is not printable either, and is the writer's 14.
    assert_eq!(convert(b"AAAAAAAAAA\0\0"), refused(14));
    assert_eq!(convert(b"AAAAAAAAAA\0\0AAAAAAAAAAAA"), refused(14));
}

/// 24 printable bytes are a text of one sequence, right or not, and never those of two.
#[test]
fn a_text_of_one_and_not_the_bytes_of_two() {
    assert_eq!(
        convert(b"303132333435363738394142"),
        printed(b"0123456789AB")
    );
    // A text of number 0000 is a text, though its bytes could be written.
    assert_eq!(convert(b"303132333435363738390000"), refused(14));
    assert_eq!(convert(b"303132333435363738390000\n"), refused(14));
    // With a wrong character too, 13 goes first.
    assert_eq!(convert(b"30313233343536373839000O"), refused(13));
    assert_eq!(convert(b"x03132333435363738390000\n"), refused(13));
}

/// A mistyped text, with and without its line feed.
#[test]
fn a_mistyped_text_is_refused() {
    let mistyped = [
        // A small letter, a letter O, a blank, a comma, a tilde.
        "0102030405060708090a0B0C",
        "0102030405060708090A0B0O",
        "0102030405060708090A0B0 ",
        " 102030405060708090A0B0C",
        "010203040506,708090A0B0C",
        "~102030405060708090A0B0C",
        // A character too few, 23 and a line feed being 24 bytes, and one too many.
        "0102030405060708090A0B0",
        "0102030405060708090A0B0CD",
        // Of two: 48 characters with and without a comma, then a comma too many.
        "0102030405060708090A0B0C,0102030405060708090A0B0",
        "0102030405060708090A0B0C0102030405060708090A0B0C",
        "0102030405060708090A0B0C,,0102030405060708090A0B0C",
        // A half of one, three halves, and no more than a comma.
        "010203040506",
        "0102030405060708090A0B0C010203040506",
        "0102030405060708090A0B0C010203040506,",
        ",",
    ];
    for text in mistyped {
        assert_eq!(convert(text.as_bytes()), refused(13), "{text}");
        let line = format!("{text}\n");
        assert_eq!(
            convert(line.as_bytes()),
            refused(13),
            "{text} and a line feed"
        );
    }
}

/// A character that is not printable makes sequences of a text, if the length is theirs.
#[test]
fn a_text_with_a_character_that_is_not_printable() {
    let text = b"303130323033303430353036,303730383039304130423009\n";
    assert_eq!(convert(b"0102030405060708090A0B0\t"), printed(text));
    let text = b"1F3130323033303430353036,303730383039304130423043\n";
    assert_eq!(convert(b"\x1F102030405060708090A0B0C"), printed(text));
    let text = b"303130323033303430353036,7F3730383039304130423043\n";
    assert_eq!(convert(b"010203040506\x7F708090A0B0C"), printed(text));
    assert_eq!(convert(b"0102030405060708090A0B0\t\n"), refused(13));
    assert_eq!(convert(b"0102030405060708090A0B0C\t"), refused(13));
    assert_eq!(convert(b"0102030405060708090A0B0C\0"), refused(13));
}

/// A carriage return is not printable: no right text with one is read. With 22 characters
/// before it and the line feed there are 24 bytes, and these are two sequences.
#[test]
fn a_carriage_return() {
    assert_eq!(convert(b"0102030405060708090A0B0C\r\n"), refused(13));
    assert_eq!(convert(b"0102030405060708090A0B0C\r"), refused(13));
    assert_eq!(convert(b"0102030405060708090A0B0\r\n"), refused(13));
    assert_eq!(convert(b"\r\n"), refused(13));
    let text = b"303130323033303430353036,30373038303930413042300D\n";
    assert_eq!(convert(b"0102030405060708090A0B0\r"), printed(text));
    let text = b"303130323033303430353036,303730383039304130420D0A\n";
    assert_eq!(convert(b"0102030405060708090A0B\r\n"), printed(text));
}

#[test]
fn refusals() {
    assert_eq!(convert(b""), refused(13));
    assert_eq!(convert(b"\n"), refused(13));
    assert_eq!(convert(b"no sequence"), refused(13));
    assert_eq!(convert(&[7; 11]), refused(13));
    assert_eq!(convert(&[7; 13]), refused(13));
    assert_eq!(convert(&[7; 108]), refused(13));
    assert_eq!(convert(&[0; 12]), refused(14));
    assert_eq!(convert(&[&ONE[..], &[0; 12]].concat()), refused(14));
    let zero = b"0102030405060708090A0B0C,000000000000000000010000";
    assert_eq!(convert(zero), refused(14));
    assert_eq!(convert(&[&zero[..], b"\n"].concat()), refused(14));
    let nine = [ONE_TEXT; 9].join(",");
    assert_eq!(convert(nine.as_bytes()), refused(13));
    let nine = nine + "\n";
    assert_eq!(convert(nine.as_bytes()), refused(13));
}

/// Printable bytes of any length, those that sequences have among them, are refused by 13; but
/// 24 digits are a text.
#[test]
fn any_length_of_printable_bytes() {
    for length in (0..=108).chain([198, 199, 200, 255, 256, 257, 300]) {
        for byte in b" G~," {
            let mut bytes = vec![*byte; length];
            assert_eq!(convert(&bytes), refused(13), "{length} of {byte}");
            bytes.push(b'\n');
            assert_eq!(convert(&bytes), refused(13), "{length} of {byte}, a line");
        }
        let expected = match length {
            24 => printed(&[0x77; 12]),
            _ => refused(13),
        };
        assert_eq!(convert(&vec![b'7'; length]), expected, "{length} digits");
    }
}

/// Every length up to more than the program takes, of bytes that are not printable.
#[test]
fn every_length() {
    for length in 0..=300 {
        let bytes = vec![7; length];
        let right = length % 12 == 0 && (12..=96).contains(&length);
        let text = vec!["070707070707070707070707"; length / 12].join(",") + "\n";
        let expected = match right {
            true => printed(text.as_bytes()),
            false => refused(13),
        };
        assert_eq!(convert(&bytes), expected, "{length} bytes");
    }
}

/// A right text with much behind it is refused, and what is written to it is all read.
#[test]
fn a_long_input() {
    for length in [200, 255, 256, 257, 300, 512, 500_000] {
        let mut input = format!("{ONE_TEXT}\n").into_bytes();
        input.resize(length, b'\n');
        assert_eq!(convert(&input), refused(13), "{length} bytes");
        let mut input = [ONE_TEXT; 8].join(",").into_bytes();
        input.resize(length.max(201), 0);
        assert_eq!(convert(&input), refused(13), "{length} bytes");
    }
    // A writer that waits until all is taken.
    for program in programs() {
        let input = vec![b'0'; 300_000];
        assert_eq!(run(&program, &input, 1_000), refused(13), "{program:?}");
    }
}

/// Each read brings one byte, of either form and of more than the program takes.
#[test]
fn a_byte_at_a_time() {
    let eight = format!("{}\n", [ONE_TEXT; 8].join(","));
    let long = [b'0'; 260];
    for program in programs() {
        let bytes = run_at(&program, Pace::Awaited, eight.as_bytes(), 1);
        assert_eq!(bytes, printed(&ONE.repeat(8)), "{program:?}");
        let text = run_at(&program, Pace::Awaited, &ONE.repeat(8), 1);
        assert_eq!(text, printed(eight.as_bytes()), "{program:?}");
        let none = run_at(&program, Pace::Awaited, &long, 1);
        assert_eq!(none, refused(13), "{program:?}");
    }
}

/// A read that is interrupted is made again: before the first byte, within a sequence, at the
/// end, and past the 256th byte.
#[test]
fn an_interrupted_read() {
    for program in programs() {
        let bytes = run_at(&program, Pace::Interrupted, ONE_TEXT.as_bytes(), 5);
        assert_eq!(bytes, printed(&ONE), "{program:?}");
        let none = run_at(&program, Pace::Interrupted, &[b'0'; 1_024], 128);
        assert_eq!(none, refused(13), "{program:?}");
    }
}

/// What lies beyond 256 bytes is read to the last byte.
#[test]
fn every_byte_is_read() {
    for size in [0, 1, 255, 256, 257, 4_351, 4_352, 4_353, 300_000] {
        let bytes = vec![b'0'; size];
        for program in programs() {
            let found = run_at(&program, Pace::AtOnce, &bytes, size.max(1));
            assert_eq!(found, refused(13), "{program:?}, {size}");
        }
    }
}

/// Whether a failure of reading is told, and nothing is printed.
fn tells_failure(output: &Output) -> bool {
    let told = !output.stderr.is_empty() && !output.stderr.starts_with(b"refused");
    output.stdout.is_empty() && told && output.status.code().is_some()
}

/// Where a read fails, nothing is printed, also behind a whole text and behind the bytes of
/// sequences; standard error says why.
#[test]
fn a_read_that_fails() {
    for program in programs() {
        for input in [&b""[..], ONE_TEXT.as_bytes(), &ONE, &[b'0'; 255]] {
            let output = program.output_from(broken_off(input));
            assert!(tells_failure(&output), "{program:?}, {input:?}: {output:?}");
        }
        for input in [directory(), write_only(), unready()] {
            let output = program.output_from(input);
            assert!(tells_failure(&output), "{program:?}: {output:?}");
        }
    }
}

/// Nobody reads what it prints: it ends, not as if all were well, and by no crash.
#[test]
fn a_closed_output() {
    for program in programs() {
        for input in [&ONE[..], ONE_TEXT.as_bytes()] {
            let status = program.end_unread(input);
            assert!(
                !status.success() && !crashed(status),
                "{program:?}: {status}"
            );
            let status = program.end_unread_without_signal(input);
            assert!(status.code().is_some(), "{program:?}: {status}");
        }
    }
}

/// Programs that print nothing, their input, or do not end well are told apart; so are those
/// that leave a part of their input unread.
#[test]
fn a_wrong_program_is_found() {
    let text = ONE_TEXT.as_bytes();
    let wrong = |script: &str| run(&Program::script(script), text, text.len());
    assert_eq!(wrong("cat >/dev/null"), printed(b""));
    assert_eq!(wrong("cat"), printed(text));
    let ended = wrong("cat >/dev/null; exit 1").unwrap_err();
    assert!(!ended.starts_with("refused"), "{ended}");
    assert_eq!(wanted(text), printed(&ONE));
    let stops = run(&Program::script("true"), &[0; 100_000], 1_000).unwrap_err();
    assert!(stops.starts_with("it did not read all"), "{stops}");
}

/// Runs a program over the inputs of seeds.
fn check_inputs(program: &Program, seeds: std::ops::Range<u64>) {
    for seed in seeds {
        let input = either_form(seed);
        let found = run(program, &input, input.len().max(1));
        assert_eq!(found, wanted(&input), "{program:?}, input {seed}");
    }
}

/// The inputs are what they are for.
#[test]
fn inputs_meet_what_they_are_for() {
    let mut seen: BTreeMap<String, usize> = BTreeMap::new();
    for seed in 0..1_000 {
        let input = either_form(seed);
        let what = match other_form(&input) {
            Ok(printed) if printed.len() % 25 == 0 => "a text printed".to_string(),
            Ok(_) if input.ends_with(b"\n") => "a line read".to_string(),
            Ok(_) => "a text read".to_string(),
            Err(code) => format!("refused by {}", code.number()),
        };
        *seen.entry(what).or_default() += 1;
        let none = input.iter().filter(|byte| !(32..=126).contains(*byte));
        let what = match none.count() {
            _ if input.len() > 256 => "too long",
            0 if input.len() % 12 == 0 => "printable, of a length of sequences",
            1 if input.len() % 12 == 0 && input.ends_with(b"\n") => "the same, as a line",
            1 if input.len() % 12 == 0 => "the same, but for one byte",
            _ => "other",
        };
        *seen.entry(what.to_string()).or_default() += 1;
    }
    assert_eq!(seen.len(), 10, "{seen:?}");
    assert!(seen.values().all(|count| *count >= 5), "{seen:?}");
}

#[test]
fn some_inputs() {
    for program in programs() {
        check_inputs(&program, 0..300);
    }
}

#[cfg(feature = "library-sequences")]
#[test]
fn ten_thousand_inputs() {
    check_inputs(&program::proved("sequences"), 300..10_300);
}
