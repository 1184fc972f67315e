//! The differential runner: no difference where there is none, and every deliberate
//! fault found and shown by a short list of calls.

#![deny(warnings)]

mod common;

use std::process::{Command, Output};

use bivamolune_tests::boundary::{code, length, offset, value, Reference};
use bivamolune_tests::call::{Action, Call, Composing, Outcome, View, World};
use bivamolune_tests::differential::{compare, difference, report, report_of, shrink};
use bivamolune_tests::faulty::{Fault, Faulty, FAULTS};
use bivamolune_tests::generate::{case, is_with_floors, is_with_purges};
use bivamolune_tests::view::log;
use common::SUBJECT;

#[test]
fn the_subject_agrees_with_the_second_implementation() {
    for seed in 0..6_000 {
        let calls = case(seed);
        if compare(&Reference, &SUBJECT, &calls).is_some() {
            panic!("{}", report(&Reference, &SUBJECT, seed, &calls));
        }
    }
}

/// What a call only reads is looked at after it, as are the buffers that it may write.
#[test]
fn a_byte_of_any_buffer_is_a_difference() {
    let one = Outcome {
        answer: 256,
        image: vec![1; 3],
        buffer: vec![2; 3],
        message: vec![3; 3],
        line: vec![4; 3],
        commands: vec![5; 3],
        text: vec![6; 3],
    };
    assert_eq!(difference(&one, &one.clone()), None);
    let mut others = vec![one.clone(); 7];
    others[0].image[2] = 9;
    others[1].buffer[2] = 9;
    others[2].message[2] = 9;
    others[3].line[2] = 9;
    others[4].commands[2] = 9;
    others[5].text[2] = 9;
    others[6].answer = 9;
    let names = [
        "image", "buffer", "message", "line", "commands", "text", "answers",
    ];
    for (other, name) in others.iter().zip(names) {
        let found = difference(&one, other).expect("a difference");
        assert!(found.starts_with(name), "{found}");
    }
}

/// A call gets its arguments and leaves them to be compared.
#[test]
fn what_a_call_reads_is_in_its_outcome() {
    let composing = Composing::plain(&[7; 10], &[1, 2, 0, 0, 0, 0, 0, 3]);
    let mut world = World::default();
    let mut perform = |action| {
        let call = Call {
            view: View::Station,
            action,
        };
        let outcome = world.perform(&SUBJECT, &call);
        let before = world.image.clone();
        world.follow(&call, &outcome);
        (before, outcome)
    };
    perform(Action::Empty);
    let (image, composed) = perform(Action::Compose(composing.clone()));
    assert_eq!(composed.line, composing.line);
    assert_eq!(composed.commands, composing.commands);
    assert!(composed.image == image);
    let (_, delivered) = perform(Action::DeliverComposed { steps: 10_160 });
    assert_eq!(delivered.message[40..], composing.commands);
    let (image, found) = perform(Action::Setpoint(2));
    assert_eq!(value(found.answer), 3);
    assert!(found.image == image);
    let (image, found) = perform(Action::LogMessage(0));
    assert_eq!((offset(found.answer), length(found.answer)), (544, 48));
    assert!(found.image == image);
    let (image, refused) = perform(Action::Purge(2));
    assert_eq!(refused.answer, 15);
    assert!(refused.image == image);
    let (_, purged) = perform(Action::Purge(1));
    assert_eq!((purged.answer, &purged.image[..2]), (0, &[0, 0][..]));
    texts_are_in_their_outcome(&mut perform);
}

/// The same of the calls on texts, which leave the station as it is.
fn texts_are_in_their_outcome(perform: &mut dyn FnMut(Action) -> (Vec<u8>, Outcome)) {
    let (text, sequences) = (
        b"0102030405060708090A0B0C".to_vec(),
        (1..=12).collect::<Vec<u8>>(),
    );
    let reading = Action::ReadSequences {
        text: text.clone(),
        room: 97,
    };
    let (image, read) = perform(reading);
    assert_eq!((read.answer, &read.text), (12 * 256, &text));
    assert_eq!(
        (&read.buffer[..12], read.buffer.len()),
        (&sequences[..], 97)
    );
    let writing = Action::WriteSequences {
        sequences: sequences.clone(),
        room: 200,
    };
    let (same, written) = perform(writing);
    assert_eq!((written.answer, &written.text), (24 * 256, &sequences));
    assert_eq!(
        (&written.buffer[..24], written.buffer.len()),
        (&text[..], 200)
    );
    assert!(image == read.image && image == same && image == written.image);
}

/// Where the faults of floors begin among all.
const FLOORS: usize = 40;
/// Where the faults of texts begin.
const TEXTS: usize = 66;
/// Where the faults of the purge begin.
const PURGES: usize = 88;
/// Where the faults of late arrivals begin, up to the end.
const LATE: usize = 120;

/// The most calls that the shortest list for a fault has.
fn bound(fault: Fault) -> usize {
    match fault {
        // Empty, 63 deltas, and the one that is refused.
        Fault::FullAt63 => 65,
        // Empty, 64 deltas, and a conflict; an image with floors, 64 deltas, and a purged one.
        Fault::FullBeforeConflict | Fault::FullBelowFloor => 66,
        // Empty alone, or empty and the refused message.
        Fault::TailNotCleared | Fault::RangeBeforeDependencies => 2,
        // Empty, eight ends of the log with all they need, and compose.
        Fault::ComposeAtEight => 25,
        // Empty, over 32 messages, and a purge of them.
        Fault::FloorsOfMessages => 66,
        // Empty, 32 or 33 lines, and purges.
        Fault::FloorsBeforeCount
        | Fault::SixteenAt32
        | Fault::PurgeOfWhatFits
        | Fault::PurgeRefusalWrites => 40,
        // Empty, the nine that one delta needs, that one, and one beside it.
        Fault::EightHidePredecessor => 12,
        // Empty, and eleven deltas that the last one frees.
        Fault::PriorityHandedDown => 12,
        // A call on texts stands alone.
        fault if FAULTS[TEXTS..PURGES].contains(&fault) => 1,
        _ => 10,
    }
}

/// The first of the seeds that shows a fault, with its calls. One of floors shows only where
/// there are some, and one of the purge where there is one.
fn find(fault: Fault) -> (u64, Vec<Call>) {
    let of_floors = FAULTS[FLOORS..TEXTS].contains(&fault);
    let of_purges = FAULTS[PURGES..LATE].contains(&fault);
    let differs = |calls: &[Call]| compare(&Reference, &Faulty(fault), calls).is_some();
    let fits =
        |seed: &u64| (!of_floors || is_with_floors(*seed)) && (!of_purges || is_with_purges(*seed));
    let found = (0..6_000).filter(fits).find(|seed| differs(&case(*seed)));
    let seed = found.unwrap_or_else(|| panic!("{fault:?} was not found"));
    (seed, case(seed))
}

#[test]
fn every_fault_is_found_and_shown_shortly() {
    for fault in FAULTS {
        let (seed, calls) = find(fault);
        let short = shrink(&Reference, &Faulty(fault), &calls);
        let shown = report_of(&Reference, &Faulty(fault), seed, &short);
        println!(
            "{fault:?}: seed {seed}, {} calls, then {}",
            calls.len(),
            short.len()
        );
        assert!(short.len() <= bound(fault), "{fault:?}\n{shown}");
        assert!(compare(&Reference, &Faulty(fault), &short).is_some());
        assert!(shown.contains(&format!("seed {seed} differs")));
        assert!(shown.contains("difference: "));
    }
}

#[test]
fn no_call_of_a_short_list_can_be_dropped() {
    for fault in [Fault::KeyAlone, Fault::CountsOff, Fault::ComposeAtEight] {
        let (_, calls) = find(fault);
        let short = shrink(&Reference, &Faulty(fault), &calls);
        for place in 0..short.len() {
            let mut fewer = short.clone();
            fewer.remove(place);
            let found = compare(&Reference, &Faulty(fault), &fewer);
            assert_eq!(found, None, "{fault:?} without call {place}");
        }
    }
}

/// Steps that do not keep the order are found though the other side has the same ones, and shown
/// shortly.
#[test]
fn an_order_that_neither_keeps_is_found() {
    for fault in &FAULTS[LATE + 1..] {
        let wrong = Faulty(*fault);
        let breaks = |seed: &u64| compare(&wrong, &wrong, &case(*seed)).is_some();
        let seed = (0..100).find(breaks).expect("a seed that shows it");
        let shown = report(&wrong, &wrong, seed, &case(seed));
        assert!(shown.contains(&format!("seed {seed} differs; ")), "{shown}");
        assert!(
            shown.contains("    difference: order not kept: "),
            "{shown}"
        );
        assert!(shown.lines().count() <= 30, "{shown}");
    }
    let arrival = Faulty(Fault::TiesByArrival);
    assert!((0..100).all(|seed| compare(&arrival, &arrival, &case(seed)).is_none()));
}

/// Runs the program with these words. Without the library it asks for `--self`.
fn long_run(words: &[&str]) -> Output {
    let itself = !cfg!(feature = "link");
    Command::new(env!("CARGO_BIN_EXE_long_run"))
        .args(itself.then_some("--self"))
        .args(words)
        .output()
        .expect("the program runs")
}

/// How many deliveries of a seed undo something, by where the logs before and after part.
fn undoing(seed: u64) -> usize {
    let mut world = World::default();
    let mut count = 0;
    for call in case(seed) {
        let outcome = world.perform(&Reference, &call);
        if call.action.delivers() && code(outcome.answer) == 0 {
            let old = log(&world.view(&call.view));
            count += usize::from(!log(&outcome.image).starts_with(&old));
        }
        world.follow(&call, &outcome);
    }
    count
}

#[test]
fn the_program_counts_what_it_ran() {
    let output = long_run(&["--deliveries", "500", "--start", "9"]);
    let printed = String::from_utf8_lossy(&output.stdout);
    assert_eq!(output.status.code(), Some(0), "{printed}");
    assert!(printed.starts_with("no difference: "), "{printed}");
    assert!(
        printed.contains("cases from seed 9 in steps of 1, "),
        "{printed}"
    );
    let words: Vec<&str> = printed.split(' ').collect();
    let at = words
        .iter()
        .position(|word| *word == "deliveries,")
        .unwrap_or(0);
    let deliveries: usize = words[at - 1].parse().expect("a number");
    assert!(deliveries >= 500);
    let cases: u64 = words[2].parse().expect("a number");
    let undoing: usize = (9..9 + cases).map(undoing).sum();
    let undoing = format!(" deliveries, {undoing} of them with undos and the order kept, ");
    assert!(printed.contains(&undoing), "{printed}");
    for what in [" texts read, ", " texts written, "] {
        let (before, _) = printed.split_once(what).expect("texts are counted");
        let count = before.rsplit(' ').next().and_then(|word| word.parse().ok());
        assert!(count > Some(10), "{printed}");
    }
}

#[test]
fn the_program_takes_each_eighth_seed() {
    let output = long_run(&["--deliveries", "200", "--start", "204", "--every", "8"]);
    let printed = String::from_utf8_lossy(&output.stdout);
    assert!(
        printed.contains("cases from seed 204 in steps of 8, "),
        "{printed}"
    );
}

/// Each eighth seed from 202 on has purges, and the program counts them.
#[test]
fn the_program_runs_lists_with_purges_alone() {
    let output = long_run(&["--deliveries", "200", "--start", "202", "--every", "8"]);
    let printed = String::from_utf8_lossy(&output.stdout);
    let (before, _) = printed.split_once(" purges, ").expect("purges are counted");
    let count: Option<u64> = before.rsplit(' ').next().and_then(|word| word.parse().ok());
    assert!(count > Some(30), "{printed}");
    assert!((0..200).all(|seed| !is_with_purges(seed)));
    assert!((0..100).all(|place| is_with_purges(202 + 8 * place)));
}

#[test]
fn the_program_ends_with_an_error_on_a_difference() {
    let output = long_run(&["--deliveries", "100000", "--fault", "4"]);
    let printed = String::from_utf8_lossy(&output.stdout);
    assert_eq!(output.status.code(), Some(1), "{printed}");
    assert!(printed.contains(" differs; "), "{printed}");
    let (seed, _) = find(FAULTS[4]);
    let again = long_run(&["--seed", &seed.to_string(), "--fault", "4"]);
    assert_eq!(again.status.code(), Some(1));
    let shown = String::from_utf8_lossy(&again.stdout);
    assert!(shown.ends_with(printed.as_ref()), "{shown}");
}

#[test]
fn the_program_shows_one_seed() {
    let output = long_run(&["--seed", "3"]);
    let printed = String::from_utf8_lossy(&output.stdout);
    assert_eq!(output.status.code(), Some(0), "{printed}");
    assert!(
        printed.starts_with("0: Station Empty\n    one: code 0\n"),
        "{printed}"
    );
    let calls = case(3).len();
    assert!(printed.ends_with(&format!("seed 3: {calls} calls, no difference\n")));
    assert_eq!(long_run(&["--seed"]).status.code(), Some(2));
    assert_eq!(long_run(&["--nothing", "3"]).status.code(), Some(2));
}
