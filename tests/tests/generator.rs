//! The generator reaches what it is for: every code of every call, and hard logs.

#![deny(warnings)]

mod common;

use std::collections::{BTreeMap, BTreeSet};

use bivamolune_tests::boundary::{code, executions, length, undos, Calls, Reference};
use bivamolune_tests::call::{Action, Call, Composing, Outcome, View, World};
use bivamolune_tests::edit::Edit;
use bivamolune_tests::generate::{
    any_draft, any_sequences, case, conflicting_byte, damaged_message, drafts, nearly_right,
    nearly_right_sequences, nearly_right_text, LIMIT,
};
use bivamolune_tests::random::Random;
use bivamolune_tests::view::{floor_count, floors, steps, Step};
use common::{delta, messages, u16_at, u32_at, Station, A, B, C, D, IMAGE};

/// How often each (call, code) was answered, and each mark was seen.
#[derive(Default)]
struct Seen {
    codes: BTreeMap<(&'static str, u32), usize>,
    marks: BTreeMap<&'static str, usize>,
}

impl Seen {
    fn code(&mut self, call: &'static str, code: u32) {
        *self.codes.entry((call, code)).or_default() += 1;
    }

    fn mark(&mut self, name: &'static str, seen: bool) {
        *self.marks.entry(name).or_default() += usize::from(seen);
    }
}

fn name(action: &Action) -> &'static str {
    match action {
        Action::Empty => "empty",
        Action::Begin(_) => "begin",
        Action::Deliver { .. } | Action::DeliverComposed { .. } => "deliver",
        Action::Compose(_) => "compose",
        Action::Setpoint(_) => "setpoint",
        Action::LogMessage(_) => "log message",
        Action::Purge(_) => "purge",
        Action::ReadSequences { .. } => "read sequences",
        Action::WriteSequences { .. } => "write sequences",
    }
}

/// Runs a list and notes codes and marks.
fn run(seed: u64, seen: &mut Seen) {
    let mut world = World::default();
    for call in case(seed) {
        let view = world.view(&call.view);
        let outcome = world.perform(&Reference, &call);
        let answered = code(outcome.answer);
        seen.code(name(&call.action), answered);
        if call.view == View::Station && call.action.delivers() && answered == 0 {
            mark_delivery(seen, &outcome);
        }
        if let (Action::Compose(composing), 10) = (&call.action, answered) {
            mark_limit(seen, &view, composing);
        }
        mark_room(seen, &call.action, answered);
        mark_edit(seen, &call, answered);
        mark_reading(seen, &call.action, answered);
        mark_texts(seen, &call.action, &outcome);
        world.follow(&call, &outcome);
    }
}

/// Marks of an accepted delivery.
fn mark_delivery(seen: &mut Seen, outcome: &Outcome) {
    let (undone, executed) = (undos(outcome.answer), executions(outcome.answer));
    let (log, held) = (u16_at(&outcome.image, 0), u16_at(&outcome.image, 2));
    seen.mark("an undo", undone > 0);
    seen.mark("ten undos", undone >= 10);
    seen.mark("127 steps", undone + executed == 127);
    seen.mark("a release", executed > undone + 1);
    let steps = steps(&outcome.buffer, undone, executed).expect("undos, then executions");
    let any = |is: fn(&Step) -> bool| steps.iter().any(is);
    seen.mark("eight pairs", any(|step| step.pairs.len() == 8));
    seen.mark("one pair", any(|step| step.pairs.len() == 1));
    seen.mark("a tag twice", any(has_a_tag_twice));
    let still = |step: &Step| step.pairs.windows(2).any(|two| two[0] == two[1]);
    seen.mark("a value that stays", any(still));
    seen.mark("held", held > 0);
    seen.mark("full", log + held == 64);
    seen.mark("full log", log == 64);
    let stop = 1_000_000_i32.to_be_bytes();
    let values = &outcome.image[32..288];
    seen.mark("a stop", values.chunks(4).any(|value| value == stop));
    let all = messages(&outcome.image, 0, log + held);
    let named = |message: &Vec<u8>| message[2] > 0;
    let first = |message: &Vec<u8>| u16_at(message, 22) == 1;
    let lone = all[..log].iter().all(|m| first(m) && !named(m));
    seen.mark("63 lone lines", log == 63 && lone);
    seen.mark("00FF and 0100", crosses(&all));
}

/// Whether two pairs of a step have the same tag.
fn has_a_tag_twice(step: &Step) -> bool {
    let tags: BTreeSet<usize> = step.pairs.iter().map(|(tag, _)| *tag).collect();
    tags.len() < step.pairs.len()
}

/// Marks of a step buffer one byte off.
fn mark_room(seen: &mut Seen, action: &Action, answered: u32) {
    let room = |size| matches!(action, Action::Deliver { steps, .. } if *steps == size);
    seen.mark("10,159 refused", room(10_159) && answered == 1);
    seen.mark("10,161 taken", room(10_161) && answered == 0);
}

/// Whether a line has the numbers 00FF and 0100.
fn crosses(messages: &[Vec<u8>]) -> bool {
    let numbered = |number: usize| messages.iter().filter(move |m| u16_at(m, 22) == number);
    numbered(0x00FF).any(|low| numbered(0x0100).any(|high| low[12..22] == high[12..22]))
}

/// Which limit a compose refused by 10 would pass. That of the number is passed only where there
/// is a floor: else in a log of at most 64, needs before users, no number is above 64.
fn mark_limit(seen: &mut Seen, image: &[u8], composing: &Composing) {
    let log = messages(image, 0, u16_at(image, 0));
    let highest = |at: usize, purged: usize| {
        let of_log = log.iter().map(|m| u32_at(m, at)).max().unwrap_or(0);
        of_log.max(u32_at(image, purged))
    };
    let last_number =
        |sequence: &[u8]| sequence[..10] == composing.line[..] && sequence[10..12] == [0xFF, 0xFF];
    let by_number = floors(image).iter().any(|floor| last_number(floor))
        || log.iter().any(|message| last_number(&message[12..24]));
    assert!(floor_count(image) > 0 || log.iter().all(|m| u16_at(m, 22) <= 64));
    let by_block = composing.priority_flag == 1 && highest(28, 16) == LIMIT;
    let by_group =
        highest(24, 20) == LIMIT && log.last().map_or(true, |m| m[12..22] > composing.line[..]);
    assert!(by_number || by_block || by_group);
    seen.mark("10 by number alone", by_number && !by_block && !by_group);
    seen.mark("10 by block alone", by_block && !by_group && !by_number);
    seen.mark("10 by group alone", by_group && !by_block && !by_number);
}

/// Marks of a setpoint or a log message: far out, and far on in a log.
fn mark_reading(seen: &mut Seen, action: &Action, answered: u32) {
    let far = |place: u32| place == u32::MAX && answered == 12;
    seen.mark(
        "a far tag",
        matches!(action, Action::Setpoint(tag) if far(*tag)),
    );
    seen.mark(
        "a far place",
        matches!(action, Action::LogMessage(place) if far(*place)),
    );
    let late = matches!(action, Action::LogMessage(40..=63)) && answered == 0;
    seen.mark("a late place", late);
}

/// Marks of a call on texts: buffers one byte off, one sequence and eight, nine refused,
/// numbers 0000 before the last, and what only the form makes wrong.
fn mark_texts(seen: &mut Seen, action: &Action, outcome: &Outcome) {
    let answered = code(outcome.answer);
    let (from, least, length) = match action {
        Action::ReadSequences { text, .. } => (text, 96, length(outcome.answer)),
        Action::WriteSequences { sequences, .. } => (sequences, 199, sequences.len()),
        _ => return,
    };
    let room = outcome.buffer.len();
    let reads = least == 96;
    seen.mark("95 refused", room == 95 && answered == 1);
    seen.mark("97 taken", room == 97 && answered == 0);
    seen.mark("198 refused", room == 198 && answered == 1);
    seen.mark("200 taken", room == 200 && answered == 0);
    seen.mark("one sequence", answered == 0 && length == 12);
    seen.mark("eight sequences", answered == 0 && length == 96);
    seen.mark("nine to read", reads && from.len() == 224 && answered == 13);
    seen.mark(
        "nine to write",
        !reads && from.len() == 108 && answered == 13,
    );
    let early = reads && answered == 14 && !from.ends_with(b"0000");
    seen.mark("an early 0000", early);
    let small = from.to_ascii_uppercase() != *from && reads && answered == 13;
    seen.mark("a small letter", small);
    let ends_in_comma = reads && from.len() % 25 == 0 && from.ends_with(b",");
    seen.mark("a comma last", ends_in_comma && answered == 13);
    let of_form = reads && from.len() % 25 == 24 && from.len() < 200;
    seen.mark("13 at a right length", of_form && answered == 13);
}

/// Marks of a call on an edited copy.
fn mark_edit(seen: &mut Seen, call: &Call, answered: u32) {
    let edited = matches!(call.view, View::Edited(_));
    let last = matches!(call.view, View::Edited(Edit::Byte(16_383, 1..)));
    seen.mark("edited and refused", edited && answered == 2);
    seen.mark("edited and taken", edited && answered == 0);
    seen.mark("last byte edited and refused", last && answered == 2);
}

/// The histogram of codes is full: each call meets each code of its list and no other.
#[test]
fn every_code_of_every_call_and_hard_logs() {
    let mut seen = Seen::default();
    for seed in 0..3_000 {
        run(seed, &mut seen);
    }
    println!("{:?}\n{:?}", seen.codes, seen.marks);
    let lists: [(&str, &[u32]); 9] = [
        ("begin", &[0]),
        ("empty", &[0, 1]),
        ("deliver", &[0, 1, 2, 3, 4, 5, 6, 7, 8]),
        ("compose", &[0, 1, 2, 3, 6, 9, 10, 11]),
        ("purge", &[0, 1, 2, 15, 16]),
        ("log message", &[0, 1, 2, 12]),
        ("setpoint", &[0, 1, 2, 12]),
        ("read sequences", &[0, 1, 13, 14]),
        ("write sequences", &[0, 1, 13, 14]),
    ];
    let of = |(call, codes): (&'static str, &'static [u32])| codes.iter().map(move |c| (call, *c));
    let wanted: BTreeSet<_> = lists.into_iter().flat_map(of).collect();
    let answered: BTreeSet<_> = seen.codes.keys().copied().collect();
    assert_eq!(answered, wanted);
    for (call, count) in &seen.codes {
        assert!(*count >= 10, "{call:?} only {count} times");
    }
    assert_eq!(seen.marks.len(), 37);
    for (mark, count) in &seen.marks {
        assert!(*count >= 10, "{mark} only {count} times");
    }
}

#[test]
fn a_seed_gives_its_case_again() {
    for seed in [0, 1, 77, u64::MAX] {
        assert_eq!(case(seed), case(seed));
        assert_ne!(case(seed), case(seed.wrapping_add(1)));
    }
}

#[test]
fn drafts_are_right_and_differ() {
    for seed in 0..300 {
        let mut random = Random::new(seed);
        let count = random.within(1, 64);
        let all = drafts(&mut random, count);
        let sequences: BTreeSet<_> = all.iter().map(|draft| draft.sequence()).collect();
        assert_eq!((all.len(), sequences.len()), (count, count));
        Station::with(&all);
    }
}

#[test]
fn damaged_messages_meet_3_to_6() {
    let mut codes: BTreeMap<u32, usize> = BTreeMap::new();
    for seed in 0..2_000 {
        let mut random = Random::new(seed);
        let draft = drafts(&mut random, 1).remove(0);
        let message = damaged_message(&mut random, &draft);
        *codes.entry(Station::new().code(&message)).or_default() += 1;
    }
    for code in 3..=6 {
        let count = codes.get(&code).copied().unwrap_or(0);
        assert!(count > 100, "{codes:?}");
    }
}

/// Each message has one thing wrong, and put right by its draft it is accepted.
#[test]
fn nearly_right_messages_meet_the_code_they_are_made_for() {
    let mut codes: BTreeMap<u32, usize> = BTreeMap::new();
    for seed in 0..4_000 {
        let mut random = Random::new(seed);
        let draft = any_draft(&mut random);
        assert_eq!(Station::new().code(&draft.bytes()), 0, "{draft:?}");
        let (code, message) = nearly_right(&mut random, &draft);
        assert_eq!(Station::new().code(&message), code, "seed {seed} {draft:?}");
        *codes.entry(code).or_default() += 1;
    }
    assert_eq!(codes.keys().copied().collect::<Vec<_>>(), [3, 4, 5, 6]);
    assert!(codes.values().all(|count| *count > 500), "{codes:?}");
}

/// A conflict in one byte is a right message alone, and refused by 7 beside the other.
#[test]
fn conflicts_in_one_byte_are_right_messages() {
    for seed in 0..2_000 {
        let mut random = Random::new(seed);
        let draft = any_draft(&mut random);
        let (right, other) = (draft.bytes(), conflicting_byte(&mut random, &draft));
        let differing = right.iter().zip(&other).filter(|(a, b)| a != b).count();
        assert_eq!((other.len(), differing), (right.len(), 1), "seed {seed}");
        assert_eq!(Station::new().code(&other), 0, "seed {seed}");
        assert_eq!(Station::with(&[draft]).code(&other), 7, "seed {seed}");
    }
}

/// Sequences are right, and what has one thing wrong meets the code that it is made for.
#[test]
fn texts_meet_the_code_they_are_made_for() {
    let mut met: BTreeMap<(&str, u32), usize> = BTreeMap::new();
    for seed in 0..4_000 {
        let mut random = Random::new(seed);
        let right = any_sequences(&mut random);
        let answer = Reference.write_sequences(&right, &mut [0; 199]);
        assert_eq!(
            answer,
            256 * (25 * right.len() as u32 / 12 - 1),
            "seed {seed}"
        );
        let (code, text) = nearly_right_text(&mut random);
        assert_eq!(
            Reference.read_sequences(&text, &mut [0; 96]),
            code,
            "seed {seed}"
        );
        *met.entry(("read", code)).or_default() += 1;
        let (code, bytes) = nearly_right_sequences(&mut random);
        assert_eq!(
            Reference.write_sequences(&bytes, &mut [0; 199]),
            code,
            "seed {seed}"
        );
        *met.entry(("write", code)).or_default() += 1;
    }
    let kinds: Vec<_> = met.keys().copied().collect();
    assert_eq!(
        kinds,
        [("read", 13), ("read", 14), ("write", 13), ("write", 14)]
    );
    assert!(met.values().all(|count| *count > 500), "{met:?}");
}

#[test]
fn edits_do_what_they_say() {
    let station = Station::with(&[delta(A, 1), delta(B, 1), delta(C, 2)]);
    let edited = |edit: Edit| {
        let mut copy = station.clone();
        edit.apply(&mut copy.image);
        copy
    };
    assert_eq!(edited(Edit::Swap(0, 1)).log(), "B1 A1");
    assert_eq!(edited(Edit::Double(1)).log(), "A1 B1 B1");
    let other = delta(D, 2).naming(&[delta(A, 1).sequence()]).bytes();
    let instead = edited(Edit::Instead(2, other));
    assert_eq!(
        (instead.log(), instead.held()),
        ("A1 B1".into(), "D2".into())
    );
    assert_eq!(u16_at(&instead.image, 8), 544 + 48 + 48 + 60);
    assert_eq!(edited(Edit::Drop(2)).held_count(), 0);
    assert_eq!(edited(Edit::Drop(1)).log(), "A1");
    assert_eq!(edited(Edit::Border(true)).log(), "A1");
    assert_eq!(edited(Edit::Border(true)).held(), "B1 C2");
    assert_eq!(edited(Edit::Border(false)).log(), "A1 B1 C2");
    assert_eq!(edited(Edit::Fill(65)).held_count(), 63);
    assert_eq!(edited(Edit::Setpoint(64, -1)).value(0), 0);
    assert_eq!(edited(Edit::Tail(0, 3)).image[544 + 144], 3);
    assert_eq!(edited(Edit::Message(1, 48 + 27, 6)).image[544 + 48 + 27], 7);
    assert_eq!(edited(Edit::Header(2, 0xFFFF)).held_count(), 0);
    assert_eq!(edited(Edit::Bit(9)).log_count(), 0);
    assert_eq!(edited(Edit::Byte(9, 7)).image[9], 7);
    assert_eq!(edited(Edit::Byte(16_383, 7)).image[IMAGE - 1], 7);
    assert!(edited(Edit::Drop(2)).image == Station::with(&[delta(A, 1), delta(B, 1)]).image);
}
