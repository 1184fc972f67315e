//! "Every other delta is accepted": a message that passes 3 to 6, is new or a repeat, and
//! finds room answers 0, on any image and with any step buffer that is large enough.

#![deny(warnings)]

mod common;

use std::collections::BTreeMap;

use bivamolune_tests::generate::{any_draft, drafts};
use bivamolune_tests::random::Random;
use bivamolune_tests::wire::{add, command, line, sequence, set, Draft, Sequence};
use common::{delta, messages, steps, Station, A, B, STEPS};

const LIMIT: u32 = 2_147_483_647;

/// Log and held messages of a station.
fn present(station: &Station) -> Vec<Vec<u8>> {
    messages(
        &station.image,
        0,
        station.log_count() + station.held_count(),
    )
}

/// Delivers a new delta: it answers 0 and joins the others, which all stay.
fn accept(station: &mut Station, draft: &Draft, size: usize) {
    let message = draft.bytes();
    let mut wanted = present(station);
    assert!(wanted.len() < 64);
    assert_eq!(station.deliver_into(&message, size).0, 0, "{draft:?}");
    wanted.push(message.clone());
    wanted.sort_unstable();
    let mut found = present(station);
    found.sort_unstable();
    assert_eq!(found, wanted);
    let before = station.image.clone();
    assert_eq!(station.deliver_into(&message, size), steps(0, ""));
    assert!(station.image == before, "a repeat wrote the image");
}

/// A station of right deltas, and the sequences it has.
fn station(random: &mut Random, most: usize) -> (Station, Vec<Sequence>) {
    let count = random.within(0, most);
    let all = drafts(random, count);
    let known = all.iter().map(Draft::sequence).collect();
    (Station::with(&all), known)
}

#[test]
fn every_other_delta_is_accepted() {
    let mut seen: BTreeMap<&str, usize> = BTreeMap::new();
    for seed in 0..2_000 {
        let mut random = Random::new(6_000_000 + seed);
        let most = random.pick(&[0, 2, 10, 63]);
        let (mut station, mut known) = station(&mut random, most);
        while known.len() < 64 && random.chance(90) {
            let draft = any_draft(&mut random);
            if known.contains(&draft.sequence()) {
                continue;
            }
            let size = random.pick(&[STEPS, STEPS, STEPS + 1, 20_000]);
            accept(&mut station, &draft, size);
            known.push(draft.sequence());
            let mut mark = |name, is| *seen.entry(name).or_default() += usize::from(is);
            mark("first", known.len() == 1);
            mark("64th", known.len() == 64);
            mark("longest", draft.bytes().len() == 200);
            mark("group at its limit", draft.group == LIMIT);
            mark("block at its limit", draft.explicit == Some((LIMIT, 0)));
            mark("number FFFF", draft.number == 0xFFFF);
        }
    }
    assert_eq!(seen.len(), 6);
    assert!(seen.values().all(|count| *count > 20), "{seen:?}");
}

#[test]
fn every_repeat_is_accepted_on_a_full_station() {
    for seed in 0..60 {
        let mut random = Random::new(7_000_000 + seed);
        let mut all = drafts(&mut random, 64);
        let mut station = Station::with(&all);
        let before = station.image.clone();
        random.shuffle(&mut all);
        for draft in &all {
            assert_eq!(station.deliver(draft), steps(0, ""));
        }
        assert!(station.image == before);
    }
}

/// Each field at both ends of its range, everything else plain.
#[test]
fn each_end_of_each_range_is_accepted() {
    let named: Vec<Sequence> = (0x10..0x18).map(|last| sequence(line(last), 1)).collect();
    let mut right = vec![
        delta(A, 1),
        delta(A, 0xFFFF),
        Draft::new([0; 10], 1),
        Draft::new([0xFF; 10], 0xFFFF),
        delta(A, 1).group(0),
        delta(A, 1).group(LIMIT),
        delta(A, 1).priority(1, 0),
        delta(A, 1).priority(LIMIT, 0),
        delta(A, 1).priority(1, LIMIT),
        delta(A, 1).naming(&named),
        delta(A, 1).naming(&named[..1]),
        delta(A, 1).naming(&[[0; 10], [0xFF; 10]].map(|line| sequence(line, 0xFFFF))),
        delta(A, 3).naming(&[sequence(line(A), 1), sequence(line(A), 4)]),
        delta(A, 1).naming(&[sequence(line(A), 2), sequence(line(A), 0xFFFF)]),
        delta(A, 1).commands(&[set(0, 1); 8]),
        delta(A, 1).naming(&named).commands(&[add(63, -1); 8]),
    ];
    for operation in 1..=3 {
        for tag in [0, 63] {
            for value in [-1_000_000, -1, 0, 1, 1_000_000] {
                right.push(delta(A, 1).commands(&[command(operation, tag, value)]));
            }
        }
    }
    for draft in right {
        accept(&mut Station::new(), &draft, STEPS);
        accept(&mut Station::with(&[delta(B, 7)]), &draft, STEPS + 1);
    }
}
