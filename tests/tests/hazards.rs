//! What goes wrong beside the network, with the host's duty against it kept and neglected.

#![deny(warnings)]

mod common;
#[path = "common/stations.rs"]
mod stations;

use std::ops::Range;
use std::process::Command;

use bivamolune_tests::call::Composing;
use bivamolune_tests::faulty::{Fault, Faulty};
use bivamolune_tests::plant::{run, Duty, Hazard, Left, Run, Station, What, HAZARDS, SECTORS};
use bivamolune_tests::view::all_messages;
use bivamolune_tests::wire::{line, sequence, set, Sequence};
use common::{delta, A, B, C, D, SUBJECT};
use stations::{deliver, station};

/// Seeds whose stations end with different images, or different histories where they purge, if
/// the duty is neglected. No message comes from outside in them.
const PARTED: [(Hazard, [u64; 3]); 10] = [
    (Hazard::Crash, [91, 127, 133]),
    (Hazard::Damage, [3, 149, 220]),
    (Hazard::SharedLine, [43, 127, 149]),
    (Hazard::Overflow, [22, 43, 164]),
    (Hazard::TornSave, [77, 127, 214]),
    (Hazard::OldBackup, [27, 77, 149]),
    (Hazard::Cloning, [27, 127, 133]),
    (Hazard::Purge, [181, 258, 272]),
    (Hazard::PurgeEarly, [43, 181, 224]),
    (Hazard::PurgeEnds, [85, 248, 258]),
];

/// A seed in which a save in place leaves an image with a delta that nobody sent.
const STRANGE: u64 = 148;

/// The seeds that are run here; the program runs more. Full stations take long, and so do
/// stations that purge, of which `plant` runs more with the duty kept.
fn seeds(hazard: Hazard) -> Range<u64> {
    match hazard {
        Hazard::Overflow => 0..12,
        _ if hazard.purges() => 0..16,
        _ => 0..80,
    }
}

/// A run with the duty neglected; what must hold after each event did.
fn neglected(hazard: Hazard, seed: u64) -> Run {
    let run = run(&SUBJECT, seed, Duty::Neglected(hazard));
    let run = run.unwrap_or_else(|error| panic!("{hazard:?}, seed {seed}: {error}"));
    assert_eq!(run.midway, Ok(()), "{hazard:?}, seed {seed}");
    run
}

/// Whether the hazard came up in a run with the duty kept.
fn came_up(hazard: Hazard, run: &Run) -> bool {
    let any = |kind: fn(&What) -> bool| run.count(kind) > 0;
    match hazard {
        Hazard::Crash => any(|what| matches!(what, What::Restarted(_))),
        Hazard::Damage => any(|what| matches!(what, What::Damaged(..))),
        Hazard::SharedLine => true,
        Hazard::Overflow => run.deltas() == 64,
        Hazard::TornSave => {
            any(|what| matches!(what, What::Cut(_, Left::Old)))
                && any(|what| matches!(what, What::Cut(_, Left::New)))
        }
        Hazard::OldBackup => any(|what| matches!(what, What::Restored(_))),
        Hazard::Cloning => any(|what| matches!(what, What::Cloned(..))),
        Hazard::Purge | Hazard::PurgeEarly | Hazard::PurgeEnds => {
            any(|what| matches!(what, What::Purged(..)))
        }
    }
}

/// With its duty kept no hazard does harm, and each comes up.
#[test]
fn duties_keep_stations_together() {
    let (mut harm, mut rare) = (Vec::new(), Vec::new());
    for (name, hazard) in HAZARDS {
        let mut up = 0;
        for seed in seeds(hazard) {
            let run = run(&SUBJECT, seed, Duty::Kept(hazard));
            match run.and_then(|run| run.check(&SUBJECT).map(|()| run)) {
                Ok(run) => up += usize::from(came_up(hazard, &run)),
                Err(error) => harm.push(format!("{name}, seed {seed}: {error}")),
            }
        }
        println!("{name}: came up in {up} runs");
        if up < 3 {
            rare.push(name);
        }
    }
    assert!(harm.is_empty(), "{harm:#?}");
    assert!(rare.is_empty(), "{rare:?}");
}

/// Neglected, each duty lets stations end with different images or histories; the same seeds
/// do not with the duty kept. What the library promises of a station holds all the while.
#[test]
fn neglected_duties_part_stations() {
    let (mut together, mut never) = (Vec::new(), Vec::new());
    for (hazard, shown) in PARTED {
        for seed in shown {
            let kept = run(&SUBJECT, seed, Duty::Kept(hazard)).expect("it runs");
            assert!(kept.agrees(), "{hazard:?}, seed {seed}");
            if neglected(hazard, seed).agrees() {
                together.push((hazard, seed));
            }
        }
        let parted = seeds(hazard).filter(|seed| !neglected(hazard, *seed).agrees());
        match parted.count() {
            0 => never.push(hazard),
            count => println!("{hazard:?}: {count} runs parted"),
        }
    }
    assert!(together.is_empty(), "{together:?}");
    assert!(never.is_empty(), "{never:?}");
}

/// Refusals are looked at also where a duty is neglected.
#[test]
fn hazards_find_faults_of_refusals() {
    for (fault, duty) in [
        (Fault::FullAt63, Duty::Kept(Hazard::Overflow)),
        (Fault::FullAt63, Duty::Neglected(Hazard::Overflow)),
        (Fault::RefusalWrites, Duty::Neglected(Hazard::SharedLine)),
    ] {
        let mut seeds = seeds(duty.hazard());
        let found = seeds.find(|seed| run(&Faulty(fault), *seed, duty).is_err());
        assert!(found.is_some(), "{fault:?}, {duty:?}");
    }
}

/// Whoever refuses by 8 has 64, and keeps them.
#[test]
fn a_full_station_keeps_what_it_has() {
    let mut full = station(B);
    let deltas: Vec<Vec<u8>> = (1..=65).map(|number| delta(A, number).bytes()).collect();
    for message in &deltas[1..] {
        assert_eq!(deliver(&mut full, message), 0);
    }
    assert_eq!(deliver(&mut full, &deltas[0]), 8);
    assert_eq!(all_messages(&full.memory.image), deltas[1..]);
    let run = neglected(Hazard::Overflow, 43);
    let refusing = run.events.iter().filter_map(|event| match event.what {
        What::Delivered(at, _, 8) => Some(at),
        _ => None,
    });
    let refusing: Vec<usize> = refusing.collect();
    assert!(!refusing.is_empty());
    for at in refusing {
        assert_eq!(all_messages(&run.memories[at].image).len(), 64);
    }
}

/// A save in place that stops after the second sector can leave an image: of a held delta the
/// value is missing, and zeros are a value too. The station runs what nobody sent, and
/// refuses the right delta by 7. (Three messages of 104 bytes and one of 124 lie from 544 on;
/// the value is the last four bytes of 48 more, from 1,024 on.)
#[test]
fn a_torn_save_can_be_an_image() {
    let mut torn = station(A);
    let commands = [set(0, 1); 8];
    let first = [A, B, C].map(|letter| sequence(line(letter), 1));
    for held in [
        delta(A, 2).commands(&commands),
        delta(B, 2).commands(&commands),
        delta(C, 3).commands(&commands),
        delta(C, 4).naming(&first).commands(&commands[..6]),
    ] {
        assert_eq!(deliver(&mut torn, &held.bytes()), 0);
    }
    torn.save();
    let last = delta(D, 2).commands(&[set(3, 1500)]).bytes();
    assert_eq!(deliver(&mut torn, &last), 0);
    let mut written = [false; SECTORS];
    written[..2].fill(true);
    let left = torn.save_in_place(&SUBJECT, &written);
    assert_eq!(left, Ok(Left::Mixed));
    torn.restart();
    assert_eq!(deliver(&mut torn, &delta(D, 1).bytes()), 0);
    assert_eq!(torn.memory.host.log.last(), Some(&sequence(line(D), 2)));
    assert_eq!(torn.hardware.setpoints[3], 0);
    assert_eq!(deliver(&mut torn, &last), 7);
}

/// Over seeds it happens too.
#[test]
fn a_torn_save_can_run_a_delta_that_nobody_sent() {
    let run = neglected(Hazard::TornSave, STRANGE);
    assert!(run.count(|what| matches!(what, What::Cut(_, Left::Mixed))) > 0);
    assert!(!run.strange.is_empty() && run.strange.is_disjoint(&run.sent));
}

/// Composes at a station, with priority 5 or without, and delivers there.
fn compose(at: &mut Station, priority: bool, value: i32) -> Vec<u8> {
    let composing = Composing {
        priority_flag: u32::from(priority),
        priority: if priority { 5 } else { 0 },
        ..Composing::plain(&at.lines[0], &set(0, value))
    };
    let (code, message) = at.compose(&SUBJECT, &composing);
    assert_eq!((code, deliver(at, &message)), (0, 0));
    message
}

fn first(letter: u8) -> Sequence {
    sequence(line(letter), 1)
}

/// All have executed B1, and C1 needs it. C purges B1 while A1, which was composed without
/// knowledge of it, is under way: C has it behind B1 for good, all others before.
#[test]
fn a_purge_before_all_is_there_parts_stations() {
    let [mut a, mut b, mut c] = [A, B, C].map(station);
    let b1 = compose(&mut b, false, 2);
    let a1 = compose(&mut a, false, 1);
    assert_eq!([deliver(&mut a, &b1), deliver(&mut c, &b1)], [0, 0]);
    let c1 = compose(&mut c, false, 3);
    assert_eq!(c.purge(&SUBJECT, 1), Ok(0));
    for (to, message) in [(&mut a, &c1), (&mut b, &c1)] {
        assert_eq!(deliver(to, message), 0);
    }
    assert_eq!([deliver(&mut b, &a1), deliver(&mut c, &a1)], [0, 0]);
    assert_eq!(c.memory.history(), [B, A, C].map(first));
    for other in [&mut a, &mut b] {
        assert_eq!(other.memory.history(), [A, B, C].map(first));
        assert_eq!(other.purge(&SUBJECT, 2), Ok(0));
    }
    assert_eq!(c.purge(&SUBJECT, 1), Ok(0));
    assert!(a.memory.image == b.memory.image);
    assert_eq!([a.hardware.setpoints[0], c.hardware.setpoints[0]], [3, 3]);
    assert!(a.memory.image != c.memory.image);
}

/// Both have executed A1, of block 1, and nothing else is there. B purges it, an end, and
/// composes B1, which names nothing: where A1 was not purged, B1 is of block 0 and runs first.
/// Where B keeps the end, B1 names it.
#[test]
fn a_purge_of_an_end_parts_stations() {
    for (purged, history, value) in [(1, [B, A], 1), (0, [A, B], 2)] {
        let (mut a, mut b) = (station(A), station(B));
        let a1 = compose(&mut a, true, 1);
        assert_eq!(deliver(&mut b, &a1), 0);
        assert_eq!(b.purge(&SUBJECT, purged), Ok(0));
        let b1 = compose(&mut b, false, 2);
        assert_eq!(deliver(&mut a, &b1), 0);
        assert_eq!(b.memory.history(), [A, B].map(first));
        assert_eq!(a.memory.history(), history.map(first));
        let shown = [a.hardware.setpoints[0], b.hardware.setpoints[0]];
        assert_eq!(shown, [value, 2]);
    }
}

/// Where histories part, no delivery is refused for it, and no host sees it: the program shows
/// the place.
#[test]
fn the_program_shows_where_histories_part() {
    let program = |hazard: &str| {
        let output = Command::new(env!("CARGO_BIN_EXE_plant"))
            .args(["--hazard", hazard, "--neglected", "--seeds", "43..44"])
            .output()
            .expect("the program runs");
        assert_eq!(output.status.code(), Some(0));
        String::from_utf8(output.stdout).expect("text")
    };
    let printed = program("purge-early");
    assert!(printed.contains("1 runs, 1 ended with different histories, 0 executed"));
    let run = neglected(Hazard::PurgeEarly, 43);
    assert_eq!(run.first_conflict(), None);
    let [one, two] = [0, 1].map(|at| run.memories[at].history());
    assert_eq!(one[..1], two[..1]);
    assert_ne!(one[1], two[1]);
    let shown = "seed 43: station 1 has another history from place 1 on\n";
    assert!(printed.ends_with(shown), "{printed}");
    assert!(program("purge-ends").contains("1 runs, 0 ended with different histories"));
}

#[test]
fn the_program_counts_and_shows_what_is_neglected() {
    let program = |words: &[&str]| {
        let output = Command::new(env!("CARGO_BIN_EXE_plant"))
            .args(["--hazard", "torn-save", "--neglected"])
            .args(words)
            .output()
            .expect("the program runs");
        assert_eq!(output.status.code(), Some(0));
        String::from_utf8(output.stdout).expect("text")
    };
    let printed = program(&["--seeds", "127..128"]);
    assert!(printed.contains("1 runs, 1 ended with different images, 0 executed"));
    let run = neglected(Hazard::TornSave, 127);
    let conflict = run.first_conflict().expect("a conflict");
    assert!(printed.ends_with(&format!("seed 127: {conflict}\n")));
    let lines: Vec<String> = run.events.iter().map(|event| event.to_string()).collect();
    let printed = program(&["--events", "127"]);
    assert_eq!(printed.lines().collect::<Vec<_>>(), lines);
}
