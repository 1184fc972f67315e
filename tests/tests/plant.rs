//! A plant in motion: several stations over a bad network, to the end, by seeds; and the
//! host's duty to save a delta of its own before it sends it.

#![deny(warnings)]

mod common;
#[path = "common/passing.rs"]
mod passing;
#[path = "common/stations.rs"]
mod stations;

use std::collections::{BTreeMap, BTreeSet};
use std::process::{Command, Output};

use bivamolune_tests::boundary::{Calls, Reference};
use bivamolune_tests::call::Composing;
use bivamolune_tests::faulty::{Fault, Faulty};
use bivamolune_tests::plant::{run, Duty, Hazard, Left, Run, Station, What, HAZARDS};
use bivamolune_tests::view::{messages, sequence_of, u16_at};
use bivamolune_tests::wire::{set, Sequence};
use common::{delta, A, B, C, SUBJECT};
use passing::{ForgetsHeld, HeldAsTheyCame};
use stations::{deliver, station};

/// The seeds that are run here; the program runs more.
const SEEDS: std::ops::Range<u64> = 0..300;
/// Those of plants whose stations purge.
const PURGING: std::ops::Range<u64> = 0..200;
/// A seed of six stations that purge, with twice as many deltas as a station has room for.
const LONG: u64 = 8;

/// Runs a seed with the duty kept, and checks it.
fn kept(calls: &dyn Calls, seed: u64) -> Result<Run, String> {
    kept_against(Hazard::Crash, calls, seed)
}

fn kept_against(hazard: Hazard, calls: &dyn Calls, seed: u64) -> Result<Run, String> {
    let run = run(calls, seed, Duty::Kept(hazard))?;
    run.check(calls)?;
    Ok(run)
}

/// After the last exchange all images are equal, nothing is lost, and after every call every
/// host's log, fed by the steps alone, was the image's, every hardware's setpoints, fed by
/// their pairs alone, were the image's, every image had what was accepted, and equal sets had
/// equal images.
#[test]
fn stations_agree_in_the_end() {
    let mut seen: BTreeMap<&str, usize> = BTreeMap::new();
    for seed in SEEDS {
        let run = kept(&SUBJECT, seed).unwrap_or_else(|error| panic!("seed {seed}: {error}"));
        let mut mark = |name, is: bool| *seen.entry(name).or_default() += usize::from(is);
        let any = |kind: fn(&What) -> bool| run.count(kind) > 0;
        mark("undone", any(|what| matches!(what, What::Undone(..))));
        mark("lost", any(|what| matches!(what, What::Lost(..))));
        mark("restarted", any(|what| matches!(what, What::Restarted(..))));
        mark(
            "split",
            any(|w| matches!(w, What::Sides(s) if s.are_apart() && !s.one_way)),
        );
        mark(
            "one-way split",
            any(|w| matches!(w, What::Sides(s) if s.are_apart() && s.one_way)),
        );
        mark(
            "priority",
            any(|w| matches!(w, What::Composed(_, _, Some(_)))),
        );
        mark(
            "refused",
            any(|w| matches!(w, What::Delivered(_, _, 3..=6))),
        );
        mark(
            "crowded",
            any(|what| matches!(what, What::NotComposed(_, 11))),
        );
        mark("forty deltas", run.deltas() >= 40);
        mark("ten stations", run.memories.len() == 10);
        mark("held for good", u16_at(&run.memories[0].image, 2) > 0);
    }
    println!("{seen:?}");
    assert_eq!(seen.len(), 11);
    assert!(seen.values().all(|count| *count >= 10), "{seen:?}");
}

#[test]
fn a_seed_gives_its_run_again() {
    for seed in [0, 7, 4_000_000_000] {
        assert_eq!(kept(&SUBJECT, seed), kept(&SUBJECT, seed));
        assert_ne!(kept(&SUBJECT, seed), kept(&SUBJECT, seed + 1));
    }
}

/// The events tell the whole run: played again, they give each host's log, and what was
/// purged before it.
#[test]
fn events_tell_each_log() {
    for (_, hazard) in HAZARDS {
        for seed in SEEDS.take(30) {
            let run = run(&SUBJECT, seed, Duty::Kept(hazard)).expect("it runs");
            let memories = run.memories.iter();
            let ends: Vec<Told> = memories.map(|m| (m.history(), m.purged.len())).collect();
            assert_eq!(tale(&run).ends, ends, "{hazard:?}, seed {seed}");
        }
    }
}

/// A station's whole history, and how much of it was purged.
type Told = (Vec<Sequence>, usize);

/// What the events alone tell.
#[derive(Default)]
struct Tale {
    ends: Vec<Told>,
    /// A delta arrived that was purged.
    late: bool,
    /// A station purged while another had not yet executed all that this one had.
    midway: bool,
    /// A station went down after a purge that it had not saved.
    forgotten: bool,
}

fn tale(run: &Run) -> Tale {
    let mut tale = Tale::default();
    let mut now: Vec<Told> = vec![(Vec::new(), 0); run.memories.len()];
    let (mut saved, mut backups) = (now.clone(), now.clone());
    let mut time = 0;
    for event in &run.events {
        assert!(event.time >= time);
        time = event.time;
        mark_purges(&mut tale, &event.what, &now, &saved);
        match event.what {
            What::Executed(at, sequence) => now[at].0.push(sequence),
            What::Undone(at, sequence) => assert_eq!(now[at].0.pop(), Some(sequence)),
            What::Purged(at, count) => now[at].1 += count,
            What::Saved(at) | What::Cut(at, Left::New) => saved[at] = now[at].clone(),
            What::BackedUp(at) => backups[at] = saved[at].clone(),
            What::Restarted(at) => now[at] = saved[at].clone(),
            What::Restored(at) => {
                saved[at] = backups[at].clone();
                now[at] = backups[at].clone();
            }
            What::Cloned(from, to) => {
                saved[to] = saved[from].clone();
                now[to] = saved[from].clone();
            }
            _ => {}
        }
    }
    tale.ends = now;
    tale
}

/// Marks what an event shows of purges, with what the stations have and had saved before it.
fn mark_purges(tale: &mut Tale, what: &What, now: &[Told], saved: &[Told]) {
    match what {
        What::Delivered(at, sequence, 0) => {
            let (history, purged) = &now[*at];
            tale.late |= history[..*purged].contains(sequence);
        }
        What::Purged(at, _) => {
            let own = &now[*at].0;
            let behind = |other: &Told| own.iter().any(|delta| !other.0.contains(delta));
            tale.midway |= now.iter().any(behind);
        }
        What::Restarted(at) => tale.forgotten |= saved[*at].1 < now[*at].1,
        _ => {}
    }
}

/// Stations that purge what all have executed, each when it may and as much as it will, agree
/// in the end all the same: one history, which is the log of all deltas as if nothing had been
/// purged, one row of setpoints, which each hardware shows, and equal images as soon as they
/// have purged as far. Deltas that come again after they were purged change nothing.
#[test]
fn stations_that_purge_agree_in_the_end() {
    let mut seen: BTreeMap<&str, usize> = BTreeMap::new();
    for seed in PURGING {
        let run = kept_against(Hazard::Purge, &SUBJECT, seed);
        let run = run.unwrap_or_else(|error| panic!("seed {seed}: {error}"));
        let mut mark = |name, is: bool| *seen.entry(name).or_default() += usize::from(is);
        let any = |kind: fn(&What) -> bool| run.count(kind) > 0;
        let tale = tale(&run);
        let lengths: BTreeSet<usize> = run.memories.iter().map(|m| m.purged.len()).collect();
        mark("purged", any(|what| matches!(what, What::Purged(..))));
        mark("purged late", tale.late);
        mark("purged apart", lengths.len() > 1);
        mark("purged alike", lengths.len() < run.memories.len());
        mark("purged midway", tale.midway);
        mark("purge forgotten", tale.forgotten);
        mark("over 64 deltas", run.deltas() > 64);
        mark("undone", any(|what| matches!(what, What::Undone(..))));
        mark("lost", any(|what| matches!(what, What::Lost(..))));
        mark("held for good", u16_at(&run.memories[0].image, 2) > 0);
    }
    println!("{seen:?}");
    assert_eq!(seen.len(), 10);
    assert!(seen.values().all(|count| *count >= 10), "{seen:?}");
}

/// A plant runs on past what a station has room for. A station that gets the same deltas in
/// the same order and never purges takes 64, and refuses each one that follows by 8.
#[test]
fn a_plant_that_purges_runs_long() {
    let run = kept_against(Hazard::Purge, &SUBJECT, LONG).expect("it runs");
    let first = &run.memories[0];
    let log = messages(&first.image, 0, u16_at(&first.image, 0));
    let history = [first.purged.clone(), log].concat();
    assert_eq!(run.memories.len(), 6);
    assert!(history.len() > 128, "{}", history.len());
    for memory in &run.memories {
        let again = history.iter().map(|message| sequence_of(message));
        assert!(memory.history().into_iter().eq(again));
    }
    let mut full = station(A);
    let codes: Vec<u32> = history.iter().map(|m| deliver(&mut full, m)).collect();
    let (taken, refused) = codes.split_at(64);
    assert!(taken.iter().all(|code| *code == 0));
    assert!(refused.iter().all(|code| *code == 8));
}

/// A purge that is wrong in one thing, which the second implementation's is not.
struct WrongPurge(fn(&mut [u8], u32) -> u32);

impl Calls for WrongPurge {
    fn purge(&self, image: &mut [u8], k: u32) -> u32 {
        self.0(image, k)
    }
}

/// Purges that are wrong do not come through: nothing is dropped, or one too few, or the
/// greatest block is forgotten.
#[test]
fn the_plant_finds_wrong_purges() {
    let faults: [fn(&mut [u8], u32) -> u32; 3] = [
        |_, _| 0,
        |image, k| Reference.purge(image, k.saturating_sub(1)),
        |image, k| {
            let code = Reference.purge(image, k);
            image[16..20].fill(0);
            code
        },
    ];
    for (place, fault) in faults.into_iter().enumerate() {
        let wrong = WrongPurge(fault);
        let mut seeds = PURGING;
        let found = seeds.find(|seed| kept_against(Hazard::Purge, &wrong, *seed).is_err());
        println!("{place}: seed {found:?}");
        assert!(found.is_some(), "{place}");
    }
}

/// Wrong implementations do not come through.
#[test]
fn the_plant_finds_faults() {
    for fault in [
        Fault::KeyAlone,
        Fault::RepeatWrites,
        Fault::CountsOff,
        Fault::WaitsBehindHeld,
        Fault::Subtracts,
        Fault::StepsCleared,
        Fault::EchoesLater,
        Fault::HoldsAll,
        Fault::LeavesImage,
        Fault::SameLog,
        Fault::RefusesAll,
        Fault::BeforeForAfter,
        Fault::UndoFirstFirst,
        Fault::UndoSubtracts,
        Fault::CountsEight,
        Fault::UnusedNotCleared,
        Fault::StillLeftOut,
    ] {
        let found = SEEDS
            .clone()
            .find(|seed| kept(&Faulty(fault), *seed).is_err());
        println!("{fault:?}: seed {found:?}");
        assert!(found.is_some(), "{fault:?}");
    }
}

/// A fault that is gone by the end is found where it shows.
#[test]
fn the_plant_finds_faults_that_pass() {
    let faults: [(&dyn Calls, &str); 2] = [
        (&HeldAsTheyCame, "the same messages have two images"),
        (&ForgetsHeld, "the image has not what was accepted"),
    ];
    for (wrong, error) in faults {
        let ended = |seed| run(wrong, seed, Duty::Kept(Hazard::Crash)).ok();
        let runs = SEEDS.filter_map(|seed| Some((seed, ended(seed)?)));
        let mut passed = runs.filter(|(_, run)| run.check_end(wrong).is_ok());
        let found = passed.find(|(_, run)| run.midway.is_err());
        let (seed, run) = found.expect(error);
        println!("seed {seed}: {:?}", run.midway);
        assert!(run.midway.unwrap_err().ends_with(error), "seed {seed}");
    }
}

/// Composes on a station's line a delta that sets tag 0, and delivers it there.
fn compose_own(station: &mut Station, value: i32) -> Vec<u8> {
    let request = Composing::plain(&station.lines[0], &set(0, value));
    let (code, message) = station.compose(&SUBJECT, &request);
    assert_eq!((code, deliver(station, &message)), (0, 0));
    message
}

/// A station shows what the pairs say, and that is held against the image.
#[test]
fn hardware_is_fed_by_the_pairs_alone() {
    let mut a = station(A);
    let message = compose_own(&mut a, 7);
    assert_eq!(a.hardware.setpoints[0], 7);
    let wrong = Faulty(Fault::BeforeForAfter);
    let mut b = station(B);
    let error = b.deliver(&wrong, &message).expect_err("wrong pairs");
    assert_eq!(error, "the hardware's setpoints are not the image's");
    assert_eq!((b.hardware.setpoints[0], b.memory.image[35]), (0, 7));
}

/// A station's host hears by the steps of an order that is not kept.
#[test]
fn a_host_sees_what_is_turned_round() {
    let wrong = Faulty(Fault::TiesByCount);
    let mut station = Station::new(&wrong, Vec::new()).expect("an empty station");
    let mut deliver = |letter| station.deliver(&wrong, &delta(letter, 1).bytes());
    assert!(deliver(A).is_ok() && deliver(B).is_ok());
    let error = deliver(C).expect_err("B1 stands before A1");
    assert!(error.starts_with("order not kept: "), "{error}");
}

/// Begun again from a saved image, a station has its hardware at the values of that image, and
/// the pairs lead on from there, also those of undos.
#[test]
fn hardware_begins_again_with_the_saved_image() {
    let mut b = station(B);
    compose_own(&mut b, 7);
    b.save();
    compose_own(&mut b, 8);
    assert_eq!(b.hardware.setpoints[0], 8);
    b.restart();
    assert_eq!(b.hardware.setpoints[0], 7);
    for (letter, value) in [(C, -9), (A, 3)] {
        let other = compose_own(&mut station(letter), value);
        assert_eq!(deliver(&mut b, &other), 0);
        assert_eq!(b.hardware.setpoints[0], -9);
    }
}

/// The host sends before it saves: after a restart the sequence is used again, each station
/// refuses the other's delta, and the two stay different for good.
#[test]
fn a_delta_sent_before_it_is_saved_parts_the_stations() {
    let (mut a, mut b) = (station(A), station(B));
    let first = compose_own(&mut a, 1);
    assert_eq!(deliver(&mut b, &first), 0);
    a.restart();
    let second = compose_own(&mut a, 2);
    assert_eq!(first[12..24], second[12..24]);
    assert_ne!(first, second);
    for _ in 0..3 {
        assert_eq!(deliver(&mut b, &second), 7);
        assert_eq!(deliver(&mut a, &first), 7);
    }
    assert!(a.memory.image != b.memory.image);
}

/// The host saves before it sends: the next sequence is used, and the two stay equal.
#[test]
fn a_delta_saved_before_it_is_sent_keeps_the_stations_together() {
    let (mut a, mut b) = (station(A), station(B));
    let first = compose_own(&mut a, 1);
    a.save();
    assert_eq!(deliver(&mut b, &first), 0);
    a.restart();
    let second = compose_own(&mut a, 2);
    assert_eq!(second[22..24], [0, 2]);
    a.save();
    assert_eq!(deliver(&mut b, &second), 0);
    assert!(a.memory.image == b.memory.image);
}

/// Over the same seeds: with the duty kept no sequence is used again and no two stations
/// differ; with deltas saved later both happen, and never the second without the first.
#[test]
fn the_duty_makes_the_difference() {
    let (mut parted, mut reused) = (BTreeSet::new(), BTreeSet::new());
    for seed in SEEDS {
        let with = run(&SUBJECT, seed, Duty::Kept(Hazard::Crash)).expect("it runs");
        assert!(with.agrees() && with.reused.is_empty(), "seed {seed}");
        let without = run(&SUBJECT, seed, Duty::Neglected(Hazard::Crash)).expect("it runs");
        if !without.reused.is_empty() {
            reused.insert(seed);
        }
        if !without.agrees() {
            parted.insert(seed);
        }
    }
    println!("{} runs used again, {} parted", reused.len(), parted.len());
    assert!(parted.len() > 50, "{}", parted.len());
    assert!(parted.is_subset(&reused));
}

/// Runs the program with these words.
fn program(words: &[&str]) -> Output {
    Command::new(env!("CARGO_BIN_EXE_plant"))
        .args(words)
        .output()
        .expect("the program runs")
}

/// The line that says whose functions were run.
fn answered_by() -> String {
    let of = |library| ["the second implementation", "the library"][usize::from(library)];
    let deliver = of(cfg!(feature = "library-deliver"));
    let compose = of(cfg!(feature = "library-compose"));
    format!("deliver is answered by {deliver}, compose by {compose}\n")
}

#[test]
fn the_program_runs_seeds_and_prints_events() {
    let output = program(&["--seeds", "5..9"]);
    let printed = String::from_utf8_lossy(&output.stdout);
    assert_eq!(output.status.code(), Some(0), "{printed}");
    assert!(printed.contains("seeds 5..9: 4 runs, "), "{printed}");
    assert!(printed.starts_with(&answered_by()), "{printed}");
    let output = program(&["--events", "5"]);
    let printed = String::from_utf8_lossy(&output.stdout);
    assert_eq!(output.status.code(), Some(0), "{printed}");
    let events = kept(&SUBJECT, 5).expect("it runs").events;
    let lines: Vec<String> = events.iter().map(|event| event.to_string()).collect();
    assert_eq!(printed.lines().collect::<Vec<_>>(), lines);
    for words in [
        &["--seeds"][..],
        &["--seeds", "5"],
        &["--nothing", "3"],
        &["--hazard", "none", "--seeds", "0..1"],
        &[],
    ] {
        assert_eq!(program(words).status.code(), Some(2));
    }
}
