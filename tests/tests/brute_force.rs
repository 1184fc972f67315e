//! The definitions by brute force on small sets: executable deltas and the first of
//! all listings, and the fewest steps by a breadth-first search.

#![deny(warnings)]

mod common;
#[path = "common/listings.rs"]
mod listings;

use std::collections::{BTreeMap, BTreeSet, VecDeque};

use bivamolune_tests::boundary::{code, executions, undos, Calls};
use bivamolune_tests::generate::drafts;
use bivamolune_tests::random::Random;
use bivamolune_tests::sketch::Sketch;
use bivamolune_tests::wire::{sequence, Draft, Line};
use common::{messages, Station, STEPS, SUBJECT};
use listings::{first_listing, listings, Past};

#[test]
fn the_log_is_the_first_listing() {
    let mut with_choice = 0;
    for seed in 0..20_000 {
        let mut random = Random::new(seed);
        let count = random.within(1, 6);
        let set = drafts(&mut random, count);
        let past = Past::default();
        with_choice += usize::from(listings(&past, &set).len() > set.len() + 1);
        check(&Station::with(&set), &past, &set, seed);
    }
    assert!(with_choice > 7_000, "only {with_choice} sets left a choice");
}

/// The station's log is the first listing of a set, and the others are held.
fn check(station: &Station, past: &Past, set: &[Draft], seed: u64) {
    let first = first_listing(past, set);
    let expected: Vec<Vec<u8>> = first.iter().map(|d| set[*d].bytes()).collect();
    let rest = (0..set.len()).filter(|place| !first.contains(place));
    let mut held: Vec<&Draft> = rest.map(|place| &set[place]).collect();
    held.sort_by_key(|draft| draft.sequence());
    let held: Vec<Vec<u8>> = held.iter().map(|draft| draft.bytes()).collect();
    let (log_count, held_count) = (station.log_count(), station.held_count());
    let log = messages(&station.image, 0, log_count);
    assert_eq!(log, expected, "seed {seed}");
    let rest = messages(&station.image, log_count, held_count);
    assert_eq!(rest, held, "seed {seed}");
}

/// A floor for some lines of the set, at or beside one of its numbers, and a block that is
/// below, at or above theirs.
fn any_past(random: &mut Random, set: &[Draft]) -> Past {
    let mut floors: BTreeMap<Line, u16> = BTreeMap::new();
    for draft in set {
        if random.chance(40) {
            let number = draft.number.saturating_add(random.pick(&[0, 0, 1]));
            let number = number.saturating_sub(random.pick(&[0, 1, 1]));
            floors.insert(draft.line, number.max(1));
        }
    }
    let blocks = set.iter().filter_map(|draft| draft.explicit);
    let blocks: Vec<u32> = blocks.map(|(block, _)| block).chain([0, 2]).collect();
    Past {
        block: random.pick(&blocks) * u32::from(!floors.is_empty()),
        floors: floors.into_iter().map(|(l, n)| sequence(l, n)).collect(),
    }
}

/// With floors and a purged block: what is at or below a floor is in no log and not held.
#[test]
fn the_log_behind_floors_is_the_first_listing() {
    let (mut below, mut freed, mut moved) = (0, 0, 0);
    for seed in 0..20_000 {
        let mut random = Random::new(3_000_000 + seed);
        let count = random.within(1, 6);
        let all = drafts(&mut random, count);
        let past = any_past(&mut random, &all);
        let image = Sketch {
            floors: past.floors.clone(),
            block: past.block,
            ..Sketch::default()
        };
        let image = image.image();
        let mut station = Station { image };
        for draft in &all {
            assert_eq!(station.code(&draft.bytes()), 0, "seed {seed}");
        }
        let mut set = all.clone();
        set.retain(|draft| !past.has(&draft.sequence()));
        check(&station, &past, &set, seed);
        let nothing = Past::default();
        let without_block = Past {
            floors: past.floors.clone(),
            block: 0,
        };
        let first = first_listing(&past, &set);
        below += usize::from(set.len() < all.len());
        freed += usize::from(first.len() > first_listing(&nothing, &set).len());
        moved += usize::from(first != first_listing(&without_block, &set));
    }
    assert!(
        below > 5_000 && freed > 3_000 && moved > 300,
        "{below} {freed} {moved}"
    );
}

#[test]
fn a_set_with_seven_deltas_and_many_listings() {
    for seed in 0..60 {
        let mut random = Random::new(1_000_000 + seed);
        let set = drafts(&mut random, 7);
        let first = first_listing(&Past::default(), &set);
        let expected: Vec<Vec<u8>> = first.iter().map(|d| set[*d].bytes()).collect();
        let station = Station::with(&set);
        assert_eq!(messages(&station.image, 0, station.log_count()), expected);
    }
}

/// The fewest undos and executions that play from one log to another. An execution
/// may name any delta of either log, in it already or not.
fn fewest(old: &[Vec<u8>], new: &[Vec<u8>]) -> usize {
    let names: BTreeSet<&Vec<u8>> = old.iter().chain(new).collect();
    let longest = old.len().max(new.len()) + 1;
    let start: Vec<&Vec<u8>> = old.iter().collect();
    let goal: Vec<&Vec<u8>> = new.iter().collect();
    let mut seen = BTreeSet::from([start.clone()]);
    let mut queue = VecDeque::from([(start, 0)]);
    while let Some((log, steps)) = queue.pop_front() {
        if log == goal {
            return steps;
        }
        let mut next: Vec<Vec<&Vec<u8>>> = Vec::new();
        if let Some((_, rest)) = log.split_last() {
            next.push(rest.to_vec());
        }
        if log.len() < longest {
            next.extend(names.iter().map(|name| [log.as_slice(), &[*name]].concat()));
        }
        for log in next {
            if seen.insert(log.clone()) {
                queue.push_back((log, steps + 1));
            }
        }
    }
    unreachable!("every log can be played to every other")
}

#[test]
fn no_other_steps_are_fewer() {
    let mut undone = 0;
    for seed in 0..4_000 {
        let mut random = Random::new(2_000_000 + seed);
        let count = random.pick(&[2, 3, 3, 4, 4]);
        let mut set = drafts(&mut random, count);
        random.shuffle(&mut set);
        let mut station = Station::new();
        for draft in &set {
            let old = messages(&station.image, 0, station.log_count());
            let mut buffer = vec![0; STEPS];
            let answer = SUBJECT.deliver(&mut station.image, &draft.bytes(), &mut buffer);
            let new = messages(&station.image, 0, station.log_count());
            assert_eq!(code(answer), 0);
            let counted = undos(answer) + executions(answer);
            assert_eq!(counted, fewest(&old, &new), "seed {seed}");
            undone += undos(answer);
        }
    }
    assert!(undone > 1_000, "only {undone} undos");
}

#[test]
fn the_search_itself() {
    let logs = |names: &str| names.bytes().map(|name| vec![name]).collect::<Vec<_>>();
    for (old, new, steps) in [("", "", 0), ("", "a", 1), ("a", "", 1), ("ab", "ab", 0)] {
        assert_eq!(fewest(&logs(old), &logs(new)), steps);
    }
    for (old, new, steps) in [("b", "ab", 3), ("abc", "adbc", 5), ("ab", "ba", 4)] {
        assert_eq!(fewest(&logs(old), &logs(new)), steps);
    }
}
