//! Runs plants in motion from seeds.
//!
//! `plant --seeds A..B` runs the seeds from A to below B with the host's duty kept, and ends
//! with 1 at the first run that does not go as it must. `--hazard NAME` says what goes wrong
//! beside the network (crash, damage, shared-line, overflow, torn-save, old-backup, cloning,
//! purge, purge-early or purge-ends; crash where it is left out). With `--neglected` hosts
//! neglect their duty against it; then the runs that ended with different images, or where
//! stations purge with different histories, are counted.
//! `plant --events SEED`, with the same options, prints what happened in a run, a line for
//! each event: its time, the station (or - for the network), what, and of what.

#![deny(warnings)]

use std::env;
use std::ops::Range;
use std::process::ExitCode;

use bivamolune_tests::boundary::{COMPARED, SUBJECT};
use bivamolune_tests::call::hex;
use bivamolune_tests::plant::{run, Duty, Hazard, Run, What, HAZARDS};
use bivamolune_tests::view::sequence_of;

const USAGE: &str = "usage: plant [--hazard NAME] [--neglected] --seeds A..B | --events SEED";

/// How many seeds are shown of a kind.
const SHOWN: usize = 3;

fn main() -> ExitCode {
    let words: Vec<String> = env::args().skip(1).collect();
    let words: Vec<&str> = words.iter().map(String::as_str).collect();
    match perform(&words) {
        Some(Ok(())) => ExitCode::SUCCESS,
        Some(Err(error)) => {
            println!("{error}");
            ExitCode::FAILURE
        }
        None => {
            eprintln!("{USAGE}");
            ExitCode::from(2)
        }
    }
}

/// What the words ask for; none if they ask for nothing.
fn perform(words: &[&str]) -> Option<Result<(), String>> {
    let (hazard, words) = match words {
        ["--hazard", name, rest @ ..] => (named(name)?, rest),
        _ => (Hazard::Crash, words),
    };
    let (duty, words) = match words {
        ["--neglected", rest @ ..] => (Duty::Neglected(hazard), rest),
        _ => (Duty::Kept(hazard), words),
    };
    match words {
        ["--seeds", seeds] if duty.is_kept() => range(seeds).map(|seeds| many(duty, seeds)),
        ["--seeds", seeds] => range(seeds).map(|seeds| neglected(duty, seeds)),
        ["--events", seed] => seed.parse().ok().map(|seed| events(duty, seed)),
        _ => None,
    }
}

fn named(wanted: &str) -> Option<Hazard> {
    let mut hazards = HAZARDS.iter();
    let found = hazards.find(|(name, _)| *name == wanted);
    found.map(|(_, hazard)| *hazard)
}

fn range(words: &str) -> Option<Range<u64>> {
    let (first, end) = words.split_once("..")?;
    Some(first.parse().ok()?..end.parse().ok()?)
}

/// Who answers.
fn subject(duty: Duty) -> String {
    let of = |function| match COMPARED.contains(&function) {
        true => "the library",
        false => "the second implementation",
    };
    let (deliver, compose) = (of("bivamolune_deliver"), of("bivamolune_compose"));
    let purge = match duty.hazard().purges() {
        true => format!(", purge by {}", of("bivamolune_purge")),
        false => String::new(),
    };
    format!("deliver is answered by {deliver}, compose by {compose}{purge}")
}

/// A run that went as it must: with the duty kept in all, else after each event.
fn checked(duty: Duty, seed: u64) -> Result<Run, String> {
    let checked = run(&SUBJECT, seed, duty).and_then(|run| {
        match duty.is_kept() {
            true => run.check(&SUBJECT)?,
            false => run.midway.clone()?,
        }
        Ok(run)
    });
    checked.map_err(|error| format!("seed {seed}: {error}"))
}

fn many(duty: Duty, seeds: Range<u64>) -> Result<(), String> {
    let (mut runs, mut deliveries, mut undos, mut executions) = (0, 0, 0, 0);
    let (mut purges, mut long, mut most) = (0, 0, 0);
    for seed in seeds.clone() {
        let run = checked(duty, seed)?;
        runs += 1;
        deliveries += run.count(|what| matches!(what, What::Delivered(..)));
        undos += run.count(|what| matches!(what, What::Undone(..)));
        executions += run.count(|what| matches!(what, What::Executed(..)));
        purges += run.count(|what| matches!(what, What::Purged(..)));
        long += usize::from(run.deltas() > 64);
        most = run.deltas().max(most);
    }
    println!("{}", subject(duty));
    println!(
        "seeds {}..{}: {runs} runs, {deliveries} deliveries, {undos} undos, {executions} \
         executions; all {} equal, nothing lost",
        seeds.start,
        seeds.end,
        compared(duty)
    );
    if duty.hazard().purges() {
        println!("{purges} purges; {long} runs had more than 64 deltas, {most} at most");
    }
    Ok(())
}

/// What must be equal at all stations.
fn compared(duty: Duty) -> &'static str {
    match duty.hazard().purges() {
        true => "histories",
        false => "images",
    }
}

/// The first refusal by 7 or 8; where there is none, the first difference of histories.
fn parting(run: &Run) -> String {
    if let Some(conflict) = run.first_conflict() {
        return conflict.to_string();
    }
    let difference = run.first_difference();
    let told = |(at, place)| format!("station {at} has another history from place {place} on");
    difference.map(told).unwrap_or_default()
}

/// Counts what comes of a neglected duty, and shows some seeds of each kind: with the first
/// refusal by 7 or 8 or the first difference of histories, and with a delta that nobody sent.
fn neglected(duty: Duty, seeds: Range<u64>) -> Result<(), String> {
    let (mut runs, mut reused) = (0, 0);
    let (mut parted, mut strange) = (Vec::new(), Vec::new());
    for seed in seeds.clone() {
        let run = checked(duty, seed)?;
        runs += 1;
        reused += run.reused.len();
        if !run.agrees() {
            parted.push(format!("seed {seed}: {}", parting(&run)));
        }
        if let Some(message) = run.strange.iter().next() {
            let own = hex(&sequence_of(message));
            strange.push(format!("seed {seed}: nobody sent what ran as {own}"));
        }
    }
    println!("{}", subject(duty));
    println!(
        "seeds {}..{}: {runs} runs, {} ended with different {}, {} executed a delta that \
         nobody sent; {reused} sequences were used again",
        seeds.start,
        seeds.end,
        parted.len(),
        compared(duty),
        strange.len()
    );
    for shown in parted.iter().take(SHOWN).chain(strange.iter().take(SHOWN)) {
        println!("{shown}");
    }
    Ok(())
}

fn events(duty: Duty, seed: u64) -> Result<(), String> {
    for event in checked(duty, seed)?.events {
        println!("{event}");
    }
    Ok(())
}
