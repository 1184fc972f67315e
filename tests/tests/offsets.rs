//! "A walk over the image's messages adds each length once and carries the offset as a
//! running value": at every place it is the offset of the first message plus the lengths of
//! all messages before the place, and past the last message the bytes used. "Callers are
//! given exactly what they were given before."

#![deny(warnings)]

mod common;
#[path = "common/digest.rs"]
mod digest;
#[path = "common/known.rs"]
mod known;

use std::collections::{BTreeMap, BTreeSet};

use bivamolune_tests::boundary::{length, offset, packed, Calls, Reference};
use bivamolune_tests::call::{Call, Outcome, View, World};
use bivamolune_tests::differential::{compare, difference, shrink};
use bivamolune_tests::faulty::{FaultyWalk, WalkFault, WALK_FAULTS};
use bivamolune_tests::generate::case;
use bivamolune_tests::reference::compose::Request;
use bivamolune_tests::reference::reader::Reader;
use common::u16_at;
use digest::{tallies, Kind, Tallies, Tally};
use known::{generated, shapes, Known, MESSAGES};

/// With a library feature the library, and the second implementation.
fn both() -> Vec<(&'static str, &'static dyn Calls)> {
    vec![
        #[cfg(feature = "link")]
        ("library", &common::SUBJECT),
        ("second implementation", &Reference),
    ]
}

/// The images of all shapes and of so many seeds, one at a time.
fn images(seeds: u64) -> impl Iterator<Item = Known> {
    let sets = shapes().into_iter().chain((0..seeds).map(generated));
    sets.map(|set| Known::delivered(&set))
}

/// The images that the tests below ask for are among them.
#[test]
fn the_images_are_of_every_shape() {
    let mut seen: BTreeMap<&str, usize> = BTreeMap::new();
    for known in images(300) {
        let (all, log) = (known.messages.len(), known.log);
        let lengths: Vec<usize> = known.messages.iter().map(Vec::len).collect();
        let of = |length: usize| all > 0 && lengths.iter().all(|own| *own == length);
        let mut mark = |name, is| *seen.entry(name).or_default() += usize::from(is);
        mark("no delta", all == 0);
        mark("one in the log", (all, log) == (1, 1));
        mark("one held", (all, log) == (1, 0));
        mark("64 in the log", log == 64);
        mark("64 held", all == 64 && log == 0);
        mark("64, some held", all == 64 && 0 < log && log < 64);
        mark("all of 48 bytes", of(48));
        mark("all of 200 bytes", of(200));
        mark(
            "48 and 200 bytes",
            lengths.contains(&48) && lengths.contains(&200),
        );
    }
    assert_eq!(seen.len(), 9);
    assert!(seen.values().all(|count| *count > 0), "{seen:?}");
}

/// The walk by hand: a running offset, to which each message's own length is added once.
#[test]
fn a_walk_by_hand_ends_at_the_bytes_used() {
    for known in images(300) {
        let mut at = MESSAGES;
        for (place, message) in known.messages.iter().enumerate() {
            assert_eq!(at, known.offset(place));
            let size = u16_at(&known.image, at + 4);
            assert_eq!(&known.image[at..at + size], message);
            at += size;
        }
        assert_eq!(at, known.offset(known.messages.len()));
        assert_eq!(at, u16_at(&known.image, 8), "bytes used");
    }
}

/// What is wrong with the places that an implementation gives of an image: each has the
/// offset of its place, and the length and the bytes of its message, and past the log there
/// is none.
fn wrong_place(calls: &dyn Calls, known: &Known) -> Option<String> {
    for (place, message) in known.messages[..known.log].iter().enumerate() {
        let answer = calls.log_message(&known.image, place as u32);
        let wanted = packed(256 * message.len() as u32, known.offset(place) as u32);
        let (at, size) = (offset(answer), length(answer));
        if answer != wanted || known.image[at..at + size] != message[..] {
            return Some(format!("place {place}: offset {at}, length {size}"));
        }
    }
    let past = known.log as u32..=known.messages.len() as u32;
    let mut past = past.chain([64, 65, u32::MAX]);
    let found = past.find(|place| calls.log_message(&known.image, *place) != 12);
    found.map(|place| format!("place {place}, of {}", known.log))
}

#[test]
fn a_place_has_the_offset_of_the_first_and_the_lengths_before_it() {
    for known in images(300) {
        for (name, calls) in both() {
            assert_eq!(wrong_place(calls, &known), None, "{name}");
        }
    }
}

/// The reader has no function at the boundary: this is the second implementation's.
#[test]
fn the_reader_stands_at_each_offset_and_stays_past_the_log() {
    for known in images(100) {
        let mut reader = Reader::new(&known.image);
        for (place, message) in known.messages[..known.log].iter().enumerate() {
            let there = &known.image[known.offset(place)..known.offset(place + 1)];
            let part = reader.next_message();
            assert_eq!(part.as_ptr_range(), there.as_ptr_range());
            assert_eq!(part, message);
        }
        for _ in 0..3 {
            assert!(reader.next_message().is_empty());
        }
    }
}

/// Answers 2 to every call that reads an image, and writes nothing.
struct NoImage;

impl Calls for NoImage {
    fn deliver(&self, _: &mut [u8], _: &[u8], _: &mut [u8]) -> u32 {
        2
    }

    fn compose(&self, _: &[u8], _: &Request, _: &mut [u8]) -> u32 {
        2
    }

    fn setpoint(&self, _: &[u8], _: u32) -> u64 {
        2
    }

    fn log_message(&self, _: &[u8], _: u32) -> u64 {
        2
    }
}

/// A call on a damaged copy of an image that is not answered by 2 alone.
///
/// No such copy is an image. A message whose length is not that of its counts is no delta,
/// and up to it all is as it was. With the lengths as they were, the messages are as many and
/// end where they did. Where all numbers fit, no or a ninth command is no delta's, an added
/// one has operation 0, and what is left out lies past the bytes used, where zeros belong.
fn not_refused(calls: &dyn Calls, known: &Known) -> Option<String> {
    let mut world = World::default();
    let mut refused: Vec<(Call, Outcome)> = Vec::new();
    for action in known.readings() {
        let view = View::Station;
        let call = Call { view, action };
        let outcome = world.perform(&NoImage, &call);
        refused.push((call, outcome));
    }
    for edits in known.wrong_numbers() {
        world.image = known.damaged(&edits);
        for (call, wanted) in &mut refused {
            wanted.image.clone_from(&world.image);
            let found = world.perform(calls, call);
            if found != *wanted {
                let what = difference(wanted, &found);
                return Some(format!("{edits:?} {:?}: {what:?}", call.action));
            }
        }
    }
    None
}

#[test]
fn a_wrong_length_count_offset_or_end_is_refused_by_2() {
    for known in images(20) {
        for (name, calls) in both() {
            assert_eq!(not_refused(calls, &known), None, "{name}");
        }
    }
}

/// The seeds of the digests.
const SEEDS: u64 = 200;

/// What was seen of each kind of call: how many there were, and their digest. These are of
/// the library of commit cdb21c0, before change request 3.
///
/// They are of calls on images alone, which change request 4 gave another layout: where nothing
/// was purged, callers are given the same but for that, and `digest` takes it back. Damaged
/// images have no such other form, so that their digests of then have no use any more.
///
/// They hang on the generator too. Whoever changes it takes the new lines, which the failing
/// test prints, from a library that is otherwise unchanged. A request that changes what
/// callers are given ends their use.
const BEFORE: [(&str, &str, usize, u64); 5] = [
    ("compose", "image", 1408, 0xC344969F14DF8D06),
    ("deliver", "image", 4596, 0xBA35BAD626F49CC2),
    ("log message", "image", 4183, 0x7B9683CAB1720634),
    ("other", "image", 818, 0xDA09B344CEDA8210),
    ("setpoint", "image", 3990, 0x6C294C7E938A028B),
];

/// The tallies of before, by kind.
fn before() -> Tallies {
    let tally = |(call, image, calls, digest)| ((call, image), Tally { calls, digest });
    BEFORE.map(tally).into()
}

/// The kinds in which tallies differ.
fn differing(found: &Tallies, wanted: &Tallies) -> Vec<Kind> {
    let kinds: BTreeSet<&Kind> = found.keys().chain(wanted.keys()).collect();
    let differ = |kind: &&Kind| found.get(kind) != wanted.get(kind);
    kinds.into_iter().filter(differ).copied().collect()
}

/// Tallies as the lines of the table above.
fn lines(tallies: &Tallies) -> String {
    let line = |((call, image), tally): (&Kind, &Tally)| {
        format!(
            "    ({call:?}, {image:?}, {}, {:#018X}),\n",
            tally.calls, tally.digest
        )
    };
    tallies.iter().map(line).collect()
}

#[test]
fn callers_are_given_what_they_were_given_before() {
    for (name, calls) in both() {
        let mut found = tallies(calls, 0..SEEDS);
        found.retain(|(_, image), _| *image == "image");
        let kinds = differing(&found, &before());
        assert!(
            kinds.is_empty(),
            "{name} differs in {kinds:?}\n{}",
            lines(&found)
        );
    }
}

/// Whether a fault shows in an image that is right; the others show in one that is not.
fn shows_in_an_image(fault: WalkFault) -> bool {
    use WalkFault::{FirstLengthAlways, FromHeader, LengthOfNext, LengthTwice};
    [FromHeader, LengthTwice, FirstLengthAlways, LengthOfNext].contains(&fault)
}

/// Each of the three ways above sees the wrong walks that it is for: the places of an image,
/// damage of it, and the digests.
#[test]
fn every_wrong_walk_is_seen() {
    let last = images(0).last();
    let known = last.expect("64 deltas of mixed lengths, some held");
    let right = tallies(&Reference, 0..6);
    for fault in WALK_FAULTS {
        let walk = FaultyWalk(fault);
        let in_image = shows_in_an_image(fault);
        assert_eq!(wrong_place(&walk, &known).is_some(), in_image, "{fault:?}");
        assert_eq!(not_refused(&walk, &known).is_some(), !in_image, "{fault:?}");
        let kinds = differing(&tallies(&walk, 0..6), &right);
        let image = if in_image { "image" } else { "damaged" };
        assert!(
            kinds.contains(&("log message", image)),
            "{fault:?}: {kinds:?}"
        );
    }
}

/// The lists that compare the library with the second implementation show each by few calls.
/// The seeds begin where each is met soon.
#[test]
fn the_runner_finds_every_wrong_walk() {
    for fault in WALK_FAULTS {
        let walk = FaultyWalk(fault);
        let differs = |list: &Vec<Call>| compare(&Reference, &walk, list).is_some();
        let found = (2_050..6_000).map(case).find(differs);
        let list = found.unwrap_or_else(|| panic!("{fault:?} was not found"));
        let short = shrink(&Reference, &walk, &list);
        assert!(short.len() <= 10, "{fault:?}: {short:?}");
    }
}
