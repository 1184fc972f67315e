//! Burner hardware: 64 setpoints that are fed by the pairs of the steps alone, over whole
//! lists of calls.

#![deny(warnings)]

mod common;

use std::collections::BTreeMap;

use bivamolune_tests::boundary::{code, executions, undos};
use bivamolune_tests::call::{Action, Call, Outcome, View, World};
use bivamolune_tests::generate::case;
use bivamolune_tests::view::{base_values, steps, values, Kind, Pair};
use common::{messages, u16_at, u32_at, SUBJECT};

/// The setpoints, and for each executed delta what each of its commands had found, the last
/// delta on top.
struct Hardware {
    setpoints: [i32; 64],
    found: Vec<Vec<Pair>>,
}

impl Hardware {
    /// All zero, as an image of no deltas has them.
    fn new() -> Hardware {
        Hardware {
            setpoints: [0; 64],
            found: Vec::new(),
        }
    }

    /// As the log of an image leaves it, which is run from the base values.
    fn of(image: &[u8]) -> Hardware {
        let mut hardware = Hardware {
            setpoints: base_values(image),
            found: Vec::new(),
        };
        for message in messages(image, 0, u16_at(image, 0)) {
            let mut found = Vec::new();
            for command in message[40 + 12 * usize::from(message[2])..].chunks(8) {
                let tag = usize::from(command[1]);
                let value = after(command, hardware.setpoints[tag]);
                found.extend(hardware.set(&[(tag, value)]));
            }
            hardware.found.push(found);
        }
        hardware
    }

    /// Each pair sets its tag to its value; what the tags had shown.
    fn set(&mut self, pairs: &[Pair]) -> Vec<Pair> {
        let mut found = Vec::new();
        for (tag, value) in pairs {
            found.push((*tag, self.setpoints[*tag]));
            self.setpoints[*tag] = *value;
        }
        found
    }

    /// Each pair is that of a command of the message, in order, with the value after it.
    fn execute(&mut self, pairs: &[Pair], message: &[u8]) {
        let found = self.set(pairs);
        let commands = message[40 + 12 * usize::from(message[2])..].chunks(8);
        let expected: Vec<Pair> = commands
            .zip(&found)
            .map(|(command, (_, before))| (usize::from(command[1]), after(command, *before)))
            .collect();
        assert_eq!(pairs, expected);
        assert_eq!(pairs.len(), usize::from(message[3]));
        self.found.push(found);
    }

    /// The pairs are what the commands of the last executed delta had found, from the last.
    fn undo(&mut self, pairs: &[Pair]) {
        let mut found = self.found.pop().expect("an executed delta");
        found.reverse();
        assert_eq!(pairs, found);
        self.set(pairs);
    }

    /// Plays the steps of an accepted delivery.
    fn play(&mut self, outcome: &Outcome) {
        let counts = (undos(outcome.answer), executions(outcome.answer));
        let steps = steps(&outcome.buffer, counts.0, counts.1);
        for step in steps.expect("undos, then executions") {
            match step.kind {
                Kind::Undo => self.undo(&step.pairs),
                Kind::Execute => {
                    let message = message(&outcome.image, &step.sequence);
                    self.execute(&step.pairs, &message);
                }
            }
        }
    }
}

/// A tag's value after a command, by the paper's three operations.
fn after(command: &[u8], before: i32) -> i32 {
    let value = u32_at(command, 4) as i32;
    match command[0] {
        1 => value,
        2 if before + value > 1_000_000 => 1_000_000,
        2 if before + value < -1_000_000 => -1_000_000,
        2 => before + value,
        _ if before < value => value,
        _ => before,
    }
}

/// The message of a sequence in an image's log.
fn message(image: &[u8], sequence: &[u8]) -> Vec<u8> {
    let log = messages(image, 0, u16_at(image, 0));
    let found = log.into_iter().find(|message| message[12..24] == *sequence);
    found.expect("an executed delta is in the log")
}

/// Whether the call may change the station's image.
fn is_of_the_station(call: &Call) -> bool {
    let is_no_delivery = matches!(
        call.action,
        Action::Empty | Action::Begin(_) | Action::Purge(_)
    );
    call.view == View::Station && (is_no_delivery || call.action.delivers())
}

/// After each call the hardware shows the image's 64 values; each undo restores exactly what
/// its execution's commands had found; refused and repeated deliveries leave it as it is, and so
/// do purges.
#[test]
fn pairs_lead_to_the_image_s_values() {
    let mut seen: BTreeMap<&str, usize> = BTreeMap::new();
    for seed in 0..2_500 {
        let mut world = World::default();
        let mut hardware = Hardware::new();
        for call in case(seed) {
            let outcome = world.perform(&SUBJECT, &call);
            if is_of_the_station(&call) && code(outcome.answer) == 0 {
                match &call.action {
                    Action::Empty => hardware = Hardware::new(),
                    Action::Begin(image) => hardware = Hardware::of(image),
                    // No step: what was purged is undone no more.
                    Action::Purge(k) => drop(hardware.found.drain(..*k as usize)),
                    _ => hardware.play(&outcome),
                }
                mark(&mut seen, &hardware, &outcome);
            }
            world.follow(&call, &outcome);
            assert_eq!(hardware.setpoints, values(&world.image), "seed {seed}");
        }
    }
    println!("{seen:?}");
    assert_eq!(seen.len(), 5);
    assert!(seen.values().all(|count| *count > 300), "{seen:?}");
}

/// Counts what was played.
fn mark(seen: &mut BTreeMap<&str, usize>, hardware: &Hardware, outcome: &Outcome) {
    let mut mark = |name, is: bool| *seen.entry(name).or_default() += usize::from(is);
    mark("undos", undos(outcome.answer) > 0);
    mark("ten undos", undos(outcome.answer) >= 10);
    mark("eight pairs", hardware.found.iter().any(|f| f.len() == 8));
    mark("below zero", hardware.setpoints.iter().any(|s| *s < 0));
    let stopped = |setpoint: &i32| setpoint.abs() == 1_000_000;
    mark("at a stop", hardware.setpoints.iter().any(stopped));
}
