//! Whole runs with purges in them: demand 3 against the plain station, and a furnace that runs for
//! years through images of 64.

#![deny(warnings)]

mod common;

use std::collections::BTreeMap;

use bivamolune_tests::boundary::{code, executions, undos};
use bivamolune_tests::call::{Action, Call, Outcome, View, World};
use bivamolune_tests::generate::{case, is_with_purges};
use bivamolune_tests::order_kept::{by_logs, by_steps};
use bivamolune_tests::random::Random;
use bivamolune_tests::reference::compose::Request;
use bivamolune_tests::reference::plain::PlainStation;
use bivamolune_tests::reference::purged::Purged;
use bivamolune_tests::view::{
    all_messages, base_values, floor_count, floors, log, messages, play, steps, u16_at, u32_at,
    values,
};
use bivamolune_tests::wire::{add, line, raise, set, Sequence};
use common::{name, Station, A, B, C, D, STEPS, SUBJECT};

/// The plain station of an image: what was purged as the image has it, and its messages.
fn plain_of(image: &[u8]) -> PlainStation {
    let floor = |floor: Sequence| {
        let line = floor[..10].try_into().expect("ten bytes");
        (line, u16_at(&floor, 10) as u16)
    };
    let mut plain = PlainStation::after(Purged {
        floors: floors(image).into_iter().map(floor).collect(),
        base: base_values(image),
        block: u32_at(image, 16),
        group: u32_at(image, 20),
    });
    for message in all_messages(image) {
        assert_eq!(plain.deliver(&message, STEPS), Ok(()));
    }
    plain
}

/// The plain station of a run, and the log that the steps are played on.
struct Run {
    plain: PlainStation,
    played: Vec<Sequence>,
}

impl Run {
    fn of(image: &[u8]) -> Run {
        Run {
            plain: plain_of(image),
            played: log(image),
        }
    }

    /// Follows a call on the station that answered so: the code that the plain station has for it.
    fn follow(&mut self, call: &Call, outcome: &Outcome) -> u32 {
        let expected = match &call.action {
            Action::Deliver { message, steps } => self.plain.deliver(message, *steps),
            Action::Purge(k) => self.plain.purge(*k),
            other => panic!("{other:?} is in no list of demand 3"),
        };
        let number = expected.map_or_else(|code| code.number(), |()| 0);
        match &call.action {
            // "The log that the steps are played on loses the same K."
            Action::Purge(k) if number == 0 => drop(self.played.drain(..*k as usize)),
            Action::Deliver { .. } if number == 0 => self.play(outcome),
            _ => {}
        }
        number
    }

    /// Undos name the last delta, executions add one, and what was in the log keeps its order.
    fn play(&mut self, outcome: &Outcome) {
        let (undone, executed) = (undos(outcome.answer), executions(outcome.answer));
        let old = self.played.clone();
        let steps = steps(&outcome.buffer, undone, executed).expect("undos, then executions");
        assert!(
            play(&mut self.played, &steps),
            "an undo of another than the last"
        );
        assert_eq!(by_steps(outcome.answer, &outcome.buffer), Ok(()));
        assert_eq!(by_logs(&old, &self.played), Ok(()));
    }
}

/// "A purge, refused or not, may stand in demand 3's lists": after each call the code, the image
/// and the log are the plain station's, and the played log is the same.
#[test]
fn whole_runs_with_purges() {
    let mut seen: BTreeMap<String, usize> = BTreeMap::new();
    for seed in (0..6_000).filter(|seed| is_with_purges(*seed)) {
        let mut world = World::default();
        let mut run = Run::of(&Station::new().image);
        for call in case(seed) {
            let call = world.spelled_out(&call);
            let outcome = world.perform(&SUBJECT, &call);
            let listed = call.action.delivers() || matches!(call.action, Action::Purge(_));
            if call.view == View::Station && listed {
                assert_eq!(code(outcome.answer), run.follow(&call, &outcome), "{seed}");
                let kind = format!("{} {}", call.action.delivers(), code(outcome.answer));
                *seen.entry(kind).or_default() += 1;
            }
            world.follow(&call, &outcome);
            if matches!(call.action, Action::Empty | Action::Begin(_)) {
                run = Run::of(&world.image);
            }
            assert!(world.image == run.plain.image(), "seed {seed}");
            assert_eq!(run.played, log(&world.image), "seed {seed}");
            assert_eq!(run.played, run.plain.log(), "seed {seed}");
        }
    }
    println!("{seen:?}");
    for kind in [
        "true 0", "true 7", "true 8", "false 0", "false 15", "false 16",
    ] {
        assert!(seen.get(kind) > Some(&50), "{kind}: {seen:?}");
    }
}

/// Stations of one furnace, each with what is on its way to it, and what was purged at all.
struct Plant {
    stations: Vec<Station>,
    queues: Vec<Vec<Vec<u8>>>,
    /// What the first station's steps were played to, by name; nothing is taken off by a purge.
    played: Vec<String>,
    gone: Vec<Vec<u8>>,
}

const LETTERS: [u8; 4] = [A, B, C, D];

impl Plant {
    fn new() -> Plant {
        Plant {
            stations: vec![Station::new(); LETTERS.len()],
            queues: vec![Vec::new(); LETTERS.len()],
            played: Vec::new(),
            gone: Vec::new(),
        }
    }

    /// Delivers at a station; it is accepted. The steps of the first one are played.
    fn deliver(&mut self, at: usize, message: &[u8]) {
        let (code, steps) = self.stations[at].deliver_bytes(message);
        assert_eq!(code, 0);
        for step in steps.split_whitespace().filter(|_| at == 0) {
            match step.split_at(1) {
                ("-", name) => assert_eq!(self.played.pop().as_deref(), Some(name)),
                (_, name) => self.played.push(name.to_string()),
            }
        }
    }

    /// A station composes, keeps and sends; it undoes nothing for it.
    fn compose(&mut self, random: &mut Random) {
        let own = random.below(LETTERS.len());
        let line = line(LETTERS[own]);
        let value = random.below(1_000_000) as i32 - 500_000;
        let tag = random.below(64) as u8;
        let flag = u32::from(random.chance(20));
        let (code, message) = self.stations[own].compose(&Request {
            line: &line,
            commands: &random.pick(&[set(tag, value), add(tag, value), raise(tag, value)]),
            priority_flag: flag,
            priority: flag * random.below(3) as u32,
        });
        assert_eq!(code, 0);
        self.deliver(own, &message);
        for (at, queue) in self.queues.iter_mut().enumerate() {
            if at != own {
                queue.push(message.clone());
            }
        }
    }

    /// Some of what is on its way arrives, in any order.
    fn arrive(&mut self, random: &mut Random, at: usize, most: usize) {
        for _ in 0..most.min(self.queues[at].len()) {
            let place = random.below(self.queues[at].len());
            let message = self.queues[at].swap_remove(place);
            self.deliver(at, &message);
        }
    }

    /// All has arrived everywhere: the images are equal.
    fn settle(&mut self, random: &mut Random) {
        for at in 0..LETTERS.len() {
            self.arrive(random, at, usize::MAX);
        }
        self.check_equal();
    }

    fn check_equal(&self) {
        let first = &self.stations[0];
        assert_eq!(first.held_count(), 0);
        assert!(self.stations.iter().all(|other| other.image == first.image));
    }

    /// All purge the same, most often nearly all.
    fn purge(&mut self, random: &mut Random) {
        let log = self.stations[0].log_count();
        let left = random.pick(&[0, 3, 40]).min(log);
        let k = random.within(log - left, log);
        self.gone.extend(messages(&self.stations[0].image, 0, k));
        for station in &mut self.stations {
            assert_eq!(station.purge(k as u32), 0);
        }
        self.check_equal();
    }

    /// Something that was purged arrives again, also under other bytes.
    fn repeat(&mut self, random: &mut Random) {
        let mut old = self.gone[random.below(self.gone.len())].clone();
        old[27] ^= random.below(2) as u8;
        let at = random.below(LETTERS.len());
        let before = self.stations[at].image.clone();
        self.deliver(at, &old);
        assert!(self.stations[at].image == before);
    }
}

/// The values after these messages from zero, each of one command.
fn run(all: &[Vec<u8>]) -> [i32; 64] {
    let mut setpoints = [0_i32; 64];
    for message in all {
        let command = &message[message.len() - 8..];
        let old = &mut setpoints[usize::from(command[1])];
        let value = u32_at(command, 4) as i32;
        *old = match command[0] {
            1 => value,
            2 => (*old + value).clamp(-1_000_000, 1_000_000),
            _ => value.max(*old),
        };
    }
    setpoints
}

/// "A furnace runs for years and 64 deltas do not": ten thousand deltas of four stations, through
/// one image at each. Nothing is refused, numbers go on, and the setpoints are those of them all.
#[test]
fn a_furnace_that_runs_for_years() {
    const DELTAS: usize = 10_000;
    let mut random = Random::new(4);
    let mut plant = Plant::new();
    for count in 1..=DELTAS {
        plant.compose(&mut random);
        let at = random.below(LETTERS.len());
        let most = random.below(6);
        plant.arrive(&mut random, at, most);
        if count % 20 == 0 {
            plant.settle(&mut random);
            plant.purge(&mut random);
        }
        if !plant.gone.is_empty() && random.chance(10) {
            plant.repeat(&mut random);
        }
    }
    plant.settle(&mut random);
    let image = plant.stations[0].image.clone();
    let log = messages(&image, 0, u16_at(&image, 0));
    let all = [plant.gone, log].concat();
    assert_eq!(all.len(), DELTAS);
    assert!(values(&image) == run(&all));
    let names: Vec<String> = all.iter().map(|message| name(&message[12..24])).collect();
    assert!(
        plant.played == names,
        "purged ones are ahead of all later ones"
    );
    assert_eq!(floor_count(&image), 4);
    for floor in floors(&image) {
        let highest = u16_at(&floor, 10);
        assert!((2_000..3_000).contains(&highest), "{}", name(&floor));
    }
}
