//! How a plant's run ended, and what must hold of it.

use std::collections::{BTreeMap, BTreeSet};

use super::event::{Event, What};
use super::station::{Hardware, Memory, Station, MOST};
use crate::boundary::Calls;
use crate::call::hex;
use crate::reference::message::Delta;
use crate::reference::order::{order, Set};
use crate::reference::purged::Purged;
use crate::reference::setpoints;
use crate::view::{all_messages, log, messages, sequence_of, u16_at, values};
use crate::wire::Sequence;

/// The end of a run, after everything reached all.
#[derive(Clone, Debug, PartialEq, Eq)]
pub struct Run {
    /// Images and host models, by station.
    pub memories: Vec<Memory>,
    /// The burner hardware of each station.
    pub hardware: Vec<Hardware>,
    /// Every right message that ever set out.
    pub sent: BTreeSet<Vec<u8>>,
    /// Sequences under which different messages set out.
    pub reused: BTreeSet<Sequence>,
    /// Messages that a station had and the backup that it came back from has not.
    pub given_up: BTreeSet<Vec<u8>>,
    /// Messages that were executed though nobody composed or sent them.
    pub strange: BTreeSet<Vec<u8>>,
    /// What did not hold after some event.
    pub midway: Result<(), String>,
    pub events: Vec<Event>,
}

impl Run {
    /// Whether all stations have the same whole history, setpoints and held deltas, and those
    /// that purged as many have equal images; so all of them where none has purged.
    pub fn agrees(&self) -> bool {
        let mut images = BTreeMap::new();
        let mut ends = BTreeSet::new();
        for memory in &self.memories {
            let image = images.entry(memory.purged.len()).or_insert(&memory.image);
            if *image != &memory.image {
                return false;
            }
            let (log, held) = (u16_at(&memory.image, 0), u16_at(&memory.image, 2));
            let held = messages(&memory.image, log, held);
            ends.insert((memory.history(), values(&memory.image), held));
        }
        ends.len() == 1
    }

    /// How many deltas the first station has, with those that it purged.
    pub fn deltas(&self) -> usize {
        self.memories.first().map_or(0, |memory| {
            memory.purged.len() + all_messages(&memory.image).len()
        })
    }

    /// How many events are of a kind.
    pub fn count(&self, kind: fn(&What) -> bool) -> usize {
        self.events.iter().filter(|event| kind(&event.what)).count()
    }

    /// The first delivery that was refused because of what the station had.
    pub fn first_conflict(&self) -> Option<&Event> {
        let mut events = self.events.iter();
        events.find(|event| matches!(event.what, What::Delivered(_, _, 7 | 8)))
    }

    /// The first station whose history is not the first one's, and the first place where.
    pub fn first_difference(&self) -> Option<(usize, usize)> {
        let mut histories = self.memories.iter().map(|memory| memory.history());
        let first = histories.next()?;
        let differs = |other: Vec<Sequence>| {
            let common = first.iter().zip(&other).take_while(|(one, two)| one == two);
            let common = common.count();
            (common < first.len().max(other.len())).then_some(common)
        };
        (1..)
            .zip(histories)
            .find_map(|(at, other)| Some((at, differs(other)?)))
    }

    /// What holds where the duty is kept, after every event and in the end.
    pub fn check(&self, calls: &dyn Calls) -> Result<(), String> {
        self.midway.clone()?;
        self.check_end(calls)
    }

    /// What holds in the end where the duty is kept: equal histories, and equal images where
    /// as many were purged; all is as the definition has it, and as a fresh station has it;
    /// host models show the log, and hardware the setpoints; nothing is lost, and nothing is
    /// there that nobody sent.
    pub fn check_end(&self, calls: &dyn Calls) -> Result<(), String> {
        if let Some(sequence) = self.reused.iter().next() {
            return Err(format!("{} was used again", hex(sequence)));
        }
        if let Some(message) = self.strange.iter().next() {
            return Err(format!("{} was sent by nobody", hex(message)));
        }
        if !self.agrees() {
            return Err("the images or histories differ".to_string());
        }
        for (memory, hardware) in self.memories.iter().zip(&self.hardware) {
            if memory.host.log != log(&memory.image) {
                return Err("a host's log is not its image's".to_string());
            }
            if !hardware.shows(&memory.image) {
                return Err("a station's hardware does not show its image".to_string());
            }
            let known: BTreeSet<Vec<u8>> = whole(memory).into_iter().collect();
            let mut lost = self.sent.difference(&known);
            if let Some(lost) = lost.find(|message| !self.given_up.contains(*message)) {
                return Err(format!("{} was lost", hex(lost)));
            }
        }
        self.check_definition()?;
        self.check_fresh(calls)
    }

    /// The history is the log of all deltas together, also of more than 64, as if nothing had
    /// ever been purged; so are the setpoints.
    fn check_definition(&self) -> Result<(), String> {
        let all = self.memories.first().map_or_else(Vec::new, whole);
        let deltas = all.iter().filter_map(|message| Delta::check(message).ok());
        let set: Set = deltas.map(|delta| (delta.sequence(), delta)).collect();
        let order = order(&set, &Purged::nothing());
        let commands = order.log.iter().map(|placed| placed.delta.commands());
        let run = |before, commands| setpoints::run(commands, before).0;
        let end = commands.fold([0; setpoints::COUNT], run);
        for memory in &self.memories {
            if memory.history() != order.log_sequences() {
                return Err("a history is not the log of all deltas".to_string());
            }
            if values(&memory.image) != end {
                return Err("the setpoints are not those of all deltas".to_string());
            }
        }
        Ok(())
    }

    /// A fresh station that gets the deltas by sequence ends with the same image. Where there
    /// are over 64, it purges the first ones of the history as they come. It then purges as
    /// far as each of the others, and has its image each time; so has each of them once it has
    /// purged as far as the farthest.
    fn check_fresh(&self, calls: &dyn Calls) -> Result<(), String> {
        let mut all = self.memories.first().map_or_else(Vec::new, whole);
        let over = all.len().saturating_sub(MOST);
        let mut rest = all.split_off(over);
        rest.sort_unstable_by_key(|message| sequence_of(message));
        let mut fresh = Station::new(calls, Vec::new())?;
        for message in &all {
            fresh.deliver(calls, message)?;
            fresh.purge(calls, 1)?;
        }
        for message in &rest {
            fresh.deliver(calls, message)?;
        }
        let farthest = self.memories.iter().map(|m| m.purged.len()).max();
        let last = purged_to(calls, &fresh, farthest.unwrap_or(0))?;
        for (memory, hardware) in self.memories.iter().zip(&self.hardware) {
            let as_far = purged_to(calls, &fresh, memory.purged.len())?;
            if as_far.memory.image != memory.image {
                return Err("a fresh station ends with another image".to_string());
            }
            let station = Station::at(memory.clone(), hardware.clone());
            let station = purged_to(calls, &station, last.memory.purged.len())?;
            if station.memory.image != last.memory.image {
                return Err("purged as far, a station has another image".to_string());
            }
        }
        Ok(())
    }
}

/// All messages that a station ever had: those that it purged and its log, in order, and those
/// that are held.
fn whole(memory: &Memory) -> Vec<Vec<u8>> {
    let purged = memory.purged.iter().cloned();
    purged.chain(all_messages(&memory.image)).collect()
}

/// The station once it has purged so many.
fn purged_to(calls: &dyn Calls, station: &Station, count: usize) -> Result<Station, String> {
    let mut station = station.clone();
    let more = count.checked_sub(station.memory.purged.len());
    let more = more.ok_or_else(|| "more was purged than needed".to_string())?;
    match station.purge(calls, more)? {
        0 => Ok(station),
        code => Err(format!("a purge of {more} answers {code}")),
    }
}
