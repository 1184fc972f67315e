//! The plant's day: operators compose, packets arrive, stations save, purge and begin again.

use std::collections::{BTreeMap, BTreeSet};

use super::event::{Event, What};
use super::hazard::{Duty, Hazard};
use super::network::Network;
use super::outside::Outside;
use super::run::Run;
use super::station::{Delivery, Station};
use super::watch::Watch;
use crate::boundary::Calls;
use crate::call::Composing;
use crate::random::Random;
use crate::view::{sequence_of, Kind};
use crate::wire::{command, Line, Sequence};

/// The stations, the network between, and all that has happened.
pub struct Plant<'a> {
    pub calls: &'a dyn Calls,
    pub duty: Duty,
    pub random: Random,
    pub stations: Vec<Station>,
    pub network: Network,
    pub outside: Outside,
    /// Right messages that set out, by sequence.
    pub sent: BTreeMap<Sequence, BTreeSet<Vec<u8>>>,
    /// Messages that a station had and its backup has not.
    pub given_up: BTreeSet<Vec<u8>>,
    pub time: usize,
    events: Vec<Event>,
    watch: Watch,
    /// The first thing that did not hold after an event.
    midway: Result<(), String>,
    /// How many deltas may still be composed.
    budget: usize,
    /// The chance of an operator's turn, and of a crash at each point of a compose.
    pace: usize,
    pub crash: usize,
    /// Whether a station was cloned.
    pub cloned: bool,
}

impl<'a> Plant<'a> {
    /// The plant of a seed, before anything happens.
    pub fn new(calls: &'a dyn Calls, seed: u64, duty: Duty) -> Result<Plant<'a>, String> {
        let mut random = Random::new(seed);
        let count = random.pick(&[2, 3, 3, 4, 4, 5, 6, 10]);
        let lines = random.pick(&[1, 1, 1, 2]);
        let station = |at| Station::new(calls, own_lines(&mut random, at, lines));
        let mut stations = (0..count).map(station).collect::<Result<Vec<_>, _>>()?;
        if duty == Duty::Neglected(Hazard::SharedLine) {
            stations[1].lines = stations[0].lines.clone();
        }
        let (loss, repeat) = (random.pick(&[0, 5, 20, 50]), random.pick(&[0, 10, 30]));
        let most = random.pick(&[6, 12, 20, 50]);
        let outside = Outside::new(&mut random);
        let mut watch = Watch::default();
        watch.made.extend(outside.right.iter().cloned());
        Ok(Plant {
            calls,
            duty,
            stations,
            network: Network::new(count, loss, repeat),
            sent: BTreeMap::new(),
            given_up: BTreeSet::new(),
            time: 0,
            events: Vec::new(),
            watch,
            midway: Ok(()),
            budget: budget(&mut random, duty, most, outside.right.len()),
            outside,
            pace: random.pick(&[10, 20, 35]),
            crash: random.pick(&[0, 5, 20]),
            cloned: false,
            random,
        })
    }

    /// One thing after another, until all that may be composed is.
    pub fn work(&mut self) -> Result<(), String> {
        if self.random.chance(30) {
            self.begin_from_outside()?;
        }
        let most = self.budget * 100 / self.pace + 100;
        while self.time < most {
            self.time += 1;
            self.clone_once();
            self.purge_at_times()?;
            let at = self.random.below(self.stations.len());
            if self.random.chance(self.pace) {
                self.operate(at)?;
                continue;
            }
            match self.random.below(100) {
                0..=69 => self.arrive()?,
                70..=77 => self.resend(at),
                78..=83 => self.stranger_sends(at),
                84..=91 => {
                    self.save(at)?;
                }
                92..=95 => self.come_back(at),
                96..=97 => self.part(true),
                _ => self.part(false),
            }
        }
        Ok(())
    }

    /// An operator's turn. A crash may come between any two things.
    fn operate(&mut self, at: usize) -> Result<(), String> {
        if self.budget == 0 || !self.finds_room()? {
            return Ok(());
        }
        let composing = self.composing(at);
        let (code, message) = self.stations[at].compose(self.calls, &composing);
        if code != 0 {
            return self.not_composed(at, code);
        }
        self.budget -= 1;
        self.watch.made.insert(message.clone());
        self.note(What::composed(at, &message));
        if self.crashes(at) || !self.deliver_own(at, &message)? {
            return Ok(());
        }
        let saves = self.duty != Duty::Neglected(Hazard::Crash);
        if saves && (self.crashes(at) || !self.save(at)?) {
            return Ok(());
        }
        if !self.crashes(at) {
            self.send(at, &message);
        }
        Ok(())
    }

    /// What an operator asks for.
    fn composing(&mut self, at: usize) -> Composing {
        let random = &mut self.random;
        let line = random.pick(&self.stations[at].lines);
        let count = random.pick(&[1, 1, 2, 8]);
        let mut commands = Vec::new();
        for _ in 0..count {
            let operation = random.pick(&[1, 2, 2, 3]);
            let value = random.pick(&[1, -1, 900_000, -900_000, 20, 1_500]);
            let tag = random.pick(&[0, 1, 63]);
            commands.extend(command(operation, tag, value + random.below(50) as i32));
        }
        let priority_flag = u32::from(random.chance(25));
        Composing {
            line: line.to_vec(),
            commands,
            priority_flag,
            priority: priority_flag * random.pick(&[0, 1, 5, 1_000]),
            room: 200,
        }
    }

    /// Where the duty is kept, compose is refused by limits and by too many ends alone.
    fn not_composed(&mut self, at: usize, code: u32) -> Result<(), String> {
        self.note(What::NotComposed(at, code));
        match code {
            10 | 11 => Ok(()),
            9 if !self.duty.is_kept() => Ok(()),
            _ => Err(format!("compose at {at} answers {code}")),
        }
    }

    /// Delivers a composed delta to its own station: no undo, and executed first. Whether it
    /// was accepted; a full station refuses it.
    fn deliver_own(&mut self, at: usize, message: &[u8]) -> Result<bool, String> {
        let full = self.stations[at].memory.is_full();
        let delivery = self.deliver(at, message)?;
        let first = delivery.steps.first().map(|step| step.sequence);
        let undone = delivery.steps.iter().any(|step| step.kind == Kind::Undo);
        let executed = delivery.code == 0 && !undone && first == Some(sequence_of(message));
        let refused = full && delivery.code == 8 && !self.duty.is_kept();
        match executed || refused {
            true => Ok(executed),
            false => Err(format!("own delta at {at}: {delivery:?}")),
        }
    }

    /// Delivers, and notes the steps.
    pub fn deliver(&mut self, at: usize, message: &[u8]) -> Result<Delivery, String> {
        let delivered = self.stations[at].deliver(self.calls, message);
        let delivery = delivered.map_err(|error| format!("station {at}: {error}"))?;
        for what in What::delivered(at, message, &delivery) {
            self.note(what);
        }
        self.look(at);
        Ok(delivery)
    }

    /// Looks at a station whose image may have changed.
    pub fn look(&mut self, at: usize) {
        let seen = self.watch.look(&self.stations[at].memory);
        let time = self.time;
        let seen = seen.map_err(|error| format!("time {time}: station {at}: {error}"));
        self.midway = self.midway.clone().and(seen);
    }

    pub fn note(&mut self, what: What) {
        let time = self.time;
        self.events.push(Event { time, what });
    }

    /// The end of the run.
    pub fn ended(self) -> Run {
        let reused = |(sequence, messages): (&Sequence, &BTreeSet<Vec<u8>>)| {
            (messages.len() > 1).then_some(*sequence)
        };
        Run {
            reused: self.sent.iter().filter_map(reused).collect(),
            sent: self.sent.into_values().flatten().collect(),
            given_up: self.given_up,
            strange: self.watch.strange,
            midway: self.midway,
            hardware: self.stations.iter().map(|s| s.hardware.clone()).collect(),
            memories: self.stations.into_iter().map(|s| s.memory).collect(),
            events: self.events,
        }
    }
}

/// How many deltas operators may compose: with those from outside at most 64, unless the duty
/// against overflow is neglected, or stations purge.
fn budget(random: &mut Random, duty: Duty, most: usize, outside: usize) -> usize {
    match duty {
        Duty::Kept(Hazard::Overflow) => 64 - outside,
        Duty::Neglected(Hazard::Overflow) => 64 - outside + random.within(1, 20),
        _ if duty.hazard().purges() => 3 * random.within(most / 2, most),
        _ => random.within(most / 2, most),
    }
}

/// The lines of a station, above and below those of others and of the strangers.
pub fn own_lines(random: &mut Random, station: usize, count: u8) -> Vec<Line> {
    let first = random.pick(&[0x00, 0x01, 0x7F, 0x80, 0xFF]);
    let uid = 0x20 + station as u8;
    let line = |creator| [first, 0, 0, 0, 0, uid, 0, 0, 0, creator];
    (1..=count).map(line).collect()
}
