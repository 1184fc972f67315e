//! Compares the library with the second implementation over seeds, for a number of
//! deliveries or of minutes. Each delivery of the library must also keep the order of the log, by
//! its own steps alone.
//!
//! `long_run --deliveries N` or `--minutes N`, with `--start SEED`, and with `--every N`
//! only each Nth seed from there on (`--start 204 --every 8`: those that begin from an
//! image with floors); or `--seed SEED` to run one seed and print each of its calls. `--fault N` compares the second
//! implementation with its Nth deliberately wrong variant instead, to see that a
//! difference is found. A build without the library compares nothing, and says so;
//! with `--self` it compares the second implementation with itself, to see that the
//! program runs.

#![deny(warnings)]

use std::cell::Cell;
use std::env;
use std::process::ExitCode;
use std::time::{Duration, Instant};

use bivamolune_tests::boundary::{undos, Calls, Reference, COMPARED, SUBJECT};
use bivamolune_tests::differential::{compare, report, trace};
use bivamolune_tests::faulty::{Faulty, FAULTS};
use bivamolune_tests::generate::case;
use bivamolune_tests::reference::compose::Request;

/// What the command line asks for.
#[derive(Default)]
struct Options {
    deliveries: Option<u64>,
    minutes: Option<u64>,
    start: u64,
    every: Option<u64>,
    seed: Option<u64>,
    fault: Option<usize>,
    itself: bool,
}

const USAGE: &str = "usage: long_run [--deliveries N] [--minutes N] [--start SEED] \
                     [--every N] [--seed SEED] [--fault N] [--self]";

fn main() -> ExitCode {
    match options().and_then(|options| run(&options)) {
        Ok(true) => ExitCode::SUCCESS,
        Ok(false) => ExitCode::FAILURE,
        Err(what) => {
            eprintln!("{what}");
            ExitCode::from(2)
        }
    }
}

/// The options, or what is wrong with them.
fn options() -> Result<Options, String> {
    let mut options = Options::default();
    let mut words = env::args().skip(1);
    while let Some(word) = words.next() {
        if word == "--self" {
            options.itself = true;
            continue;
        }
        let number = words.next().and_then(|word| word.parse().ok());
        let number = number.ok_or(USAGE)?;
        match word.as_str() {
            "--deliveries" => options.deliveries = Some(number),
            "--minutes" => options.minutes = Some(number),
            "--start" => options.start = number,
            "--every" => options.every = Some(number),
            "--seed" => options.seed = Some(number),
            "--fault" => options.fault = Some(number as usize),
            _ => return Err(USAGE.to_string()),
        }
    }
    Ok(options)
}

/// Whether the two agree; or why there is nothing to compare.
fn run(options: &Options) -> Result<bool, String> {
    let last = FAULTS.len() - 1;
    let faulty = match options.fault {
        Some(fault) if fault > last => return Err(format!("no fault {fault}: 0 to {last}")),
        fault => fault.map(|fault| Faulty(FAULTS[fault])),
    };
    let other: &dyn Calls = match &faulty {
        Some(faulty) => faulty,
        None if options.itself => &Reference,
        None if COMPARED.is_empty() => {
            return Err(
                "no library: build with --features library, or give --self to compare \
                        the second implementation with itself"
                    .to_string(),
            )
        }
        None => &SUBJECT,
    };
    let what = match &faulty {
        Some(faulty) => format!("second implementation and its variant {:?}", faulty.0),
        None if options.itself => "second implementation and itself, nothing else".to_string(),
        None => format!(
            "second implementation and library, by {}",
            COMPARED.join(", ")
        ),
    };
    eprintln!("Compared: {what}");
    Ok(match options.seed {
        Some(seed) => one_seed(other, seed),
        None => many_seeds(&Counted::new(other), options, &what),
    })
}

/// Prints each call of a seed with its answers.
fn one_seed(other: &dyn Calls, seed: u64) -> bool {
    let calls = case(seed);
    print!("{}", trace(&Reference, other, &calls));
    let agree = compare(&Reference, other, &calls).is_none();
    if agree {
        println!("seed {seed}: {} calls, no difference", calls.len());
    } else {
        print!("{}", report(&Reference, other, seed, &calls));
    }
    agree
}

/// Runs seed after seed up to the limit; without one, for 100,000 deliveries.
fn many_seeds(other: &Counted, options: &Options, what: &str) -> bool {
    let begin = Instant::now();
    let minutes = options.minutes;
    let time = minutes.map_or(Duration::MAX, |minutes| Duration::from_secs(60 * minutes));
    let most = match (options.deliveries, minutes) {
        (Some(deliveries), _) => deliveries,
        (None, Some(_)) => u64::MAX,
        (None, None) => 100_000,
    };
    let every = options.every.unwrap_or(1);
    let (mut cases, mut all_calls) = (0_u64, 0_u64);
    while other.deliver.get() < most && begin.elapsed() < time {
        let seed = options.start.wrapping_add(cases.wrapping_mul(every));
        let calls = case(seed);
        if compare(&Reference, other, &calls).is_some() {
            print!("{}", report(&Reference, other, seed, &calls));
            return false;
        }
        cases += 1;
        all_calls += calls.len() as u64;
    }
    println!(
        "no difference: {cases} cases from seed {} in steps of {every}, {all_calls} calls, {} deliveries, \
         {} of them with undos and the order kept, {} empties, \
         {} composes, {} purges, {} setpoints, {} log messages, {} texts read, {} texts written, {} s; \
         compared: {what}",
        options.start,
        other.deliver.get(),
        other.undoing.get(),
        other.empty.get(),
        other.compose.get(),
        other.purge.get(),
        other.setpoint.get(),
        other.log_message.get(),
        other.read_sequences.get(),
        other.write_sequences.get(),
        begin.elapsed().as_secs()
    );
    true
}

/// An implementation, and how often each of its calls was made. The comparison asks of every
/// delivery whether it kept the order, which only one with undos can break.
struct Counted<'a> {
    calls: &'a dyn Calls,
    empty: Cell<u64>,
    deliver: Cell<u64>,
    undoing: Cell<u64>,
    compose: Cell<u64>,
    purge: Cell<u64>,
    setpoint: Cell<u64>,
    log_message: Cell<u64>,
    read_sequences: Cell<u64>,
    write_sequences: Cell<u64>,
}

impl Counted<'_> {
    fn new(calls: &dyn Calls) -> Counted<'_> {
        Counted {
            calls,
            empty: Cell::new(0),
            deliver: Cell::new(0),
            undoing: Cell::new(0),
            compose: Cell::new(0),
            purge: Cell::new(0),
            setpoint: Cell::new(0),
            log_message: Cell::new(0),
            read_sequences: Cell::new(0),
            write_sequences: Cell::new(0),
        }
    }
}

impl Calls for Counted<'_> {
    fn empty(&self, image: &mut [u8]) -> u32 {
        self.empty.set(self.empty.get() + 1);
        self.calls.empty(image)
    }

    fn deliver(&self, image: &mut [u8], message: &[u8], steps: &mut [u8]) -> u32 {
        self.deliver.set(self.deliver.get() + 1);
        let answer = self.calls.deliver(image, message, steps);
        let undoes = u64::from(undos(answer) > 0);
        self.undoing.set(self.undoing.get() + undoes);
        answer
    }

    fn compose(&self, image: &[u8], request: &Request, message: &mut [u8]) -> u32 {
        self.compose.set(self.compose.get() + 1);
        self.calls.compose(image, request, message)
    }

    fn purge(&self, image: &mut [u8], k: u32) -> u32 {
        self.purge.set(self.purge.get() + 1);
        self.calls.purge(image, k)
    }

    fn setpoint(&self, image: &[u8], tag: u32) -> u64 {
        self.setpoint.set(self.setpoint.get() + 1);
        self.calls.setpoint(image, tag)
    }

    fn log_message(&self, image: &[u8], place: u32) -> u64 {
        self.log_message.set(self.log_message.get() + 1);
        self.calls.log_message(image, place)
    }

    fn read_sequences(&self, text: &[u8], sequences: &mut [u8]) -> u32 {
        self.read_sequences.set(self.read_sequences.get() + 1);
        self.calls.read_sequences(text, sequences)
    }

    fn write_sequences(&self, sequences: &[u8], text: &mut [u8]) -> u32 {
        self.write_sequences.set(self.write_sequences.get() + 1);
        self.calls.write_sequences(sequences, text)
    }
}
