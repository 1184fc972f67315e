//! Stations that purge what all have executed, by the plant's own bookkeeping.

use std::collections::{BTreeMap, BTreeSet};

use super::event::What;
use super::motion::Plant;
use super::station::MOST;
use crate::view::{messages, sequence_of, u16_at};
use crate::wire::Sequence;

/// The chance of a purge, and of a catching up, at each time.
const PURGE: usize = 5;
const CATCH_UP: usize = 1;
/// The chance that a station purges after a catching up, and that it purges all that it may.
const THEN: usize = 70;
const WHOLE: usize = 60;
/// From so many deltas on, stations catch up and purge before one more is composed.
const CROWDED: usize = 48;

impl Plant<'_> {
    /// By chance, a station purges, or all catch up.
    pub fn purge_at_times(&mut self) -> Result<(), String> {
        if !self.duty.hazard().purges() {
            return Ok(());
        }
        if self.random.chance(CATCH_UP) {
            self.catch_up()?;
        }
        if self.random.chance(PURGE) {
            let at = self.random.below(self.stations.len());
            self.purge(at)?;
        }
        Ok(())
    }

    /// Whether every station will have room for one more, also one that goes down and comes
    /// back. Where there is little, all catch up first.
    pub fn finds_room(&mut self) -> Result<bool, String> {
        if !self.duty.hazard().purges() {
            return Ok(true);
        }
        if self.most_at_a_station() >= CROWDED {
            self.catch_up()?;
        }
        Ok(self.most_at_a_station() < MOST)
    }

    /// How many deltas the fullest station has once it has got all that there is.
    fn most_at_a_station(&self) -> usize {
        let purged = self.stations.iter().map(|s| s.saved.purged.len());
        self.existing().len() - purged.min().unwrap_or(0)
    }

    /// All that there is: on its way, to come from outside, at a station or on its disk.
    fn existing(&self) -> BTreeMap<Sequence, &Vec<u8>> {
        let sent = self.sent.values().flatten();
        let memories = self.stations.iter().flat_map(|s| [&s.memory, &s.saved]);
        let known = memories.flat_map(|memory| memory.accepted.iter().chain(&memory.purged));
        let all = sent.chain(&self.outside.right).chain(known);
        all.map(|message| (sequence_of(message), message)).collect()
    }

    /// What there is and a station has not.
    fn missing(&self, at: usize) -> Vec<Vec<u8>> {
        let memory = &self.stations[at].memory;
        let known = memory.accepted.iter().chain(&memory.purged);
        let known: BTreeSet<Sequence> = known.map(|message| sequence_of(message)).collect();
        let missing = self.existing().into_iter();
        let missing = missing.filter(|(own, _)| !known.contains(own));
        missing.map(|(_, message)| message.clone()).collect()
    }

    /// Each station gets what it has not, in any order, and saves; then some purge and save.
    /// What is in flight stays there, and may arrive when it is long purged.
    fn catch_up(&mut self) -> Result<(), String> {
        self.note(What::CatchUp);
        for at in 0..self.stations.len() {
            let mut missing = self.missing(at);
            self.random.shuffle(&mut missing);
            for message in missing {
                self.receive(at, &message)?;
            }
            self.save(at)?;
        }
        for at in 0..self.stations.len() {
            if self.random.chance(THEN) {
                self.purge(at)?;
                self.save(at)?;
            }
        }
        Ok(())
    }

    /// A station purges as many as it may, or by chance fewer.
    fn purge(&mut self, at: usize) -> Result<(), String> {
        let most = self.purgeable(at);
        if most == 0 {
            return Ok(());
        }
        let count = match self.random.chance(WHOLE) {
            true => most,
            false => self.random.within(1, most),
        };
        let purged = self.stations[at].purge(self.calls, count);
        match purged.map_err(|error| format!("station {at}: {error}"))? {
            0 => self.note(What::Purged(at, count)),
            code => self.note(What::NotPurged(at, count, code)),
        }
        self.look(at);
        Ok(())
    }

    /// How many of its log a station may purge: what every station has executed, and would
    /// still have if it went down. By the duty, nothing while there is a delta that the
    /// station has not, which could belong before; and no end, so that whatever is composed
    /// later needs all that was purged, step by step back.
    fn purgeable(&self, at: usize) -> usize {
        let saved = self.stations.iter().map(|station| station.saved.history());
        let saved: Vec<BTreeSet<Sequence>> = saved.map(|all| all.into_iter().collect()).collect();
        let by_all = |own: &&Sequence| saved.iter().all(|executed| executed.contains(*own));
        let memory = &self.stations[at].memory;
        let count = memory.host.log.iter().take_while(by_all).count();
        if self.duty.waits_for_all() && !self.missing(at).is_empty() {
            return 0;
        }
        match self.duty.keeps_ends() {
            true => count.min(first_end(&memory.image)),
            false => count,
        }
    }
}

/// The place of the first log delta that no other log delta needs.
fn first_end(image: &[u8]) -> usize {
    let log = messages(image, 0, u16_at(image, 0));
    let needed: BTreeSet<Sequence> = log.iter().flat_map(|message| needs(message)).collect();
    let end = |message: &Vec<u8>| !needed.contains(&sequence_of(message));
    log.iter().position(end).unwrap_or(0)
}

/// The dependencies of a message and its predecessor.
fn needs(message: &[u8]) -> Vec<Sequence> {
    let named = message[40..].chunks(12).take(usize::from(message[2]));
    let mut needs: Vec<Sequence> = named.filter_map(|named| named.try_into().ok()).collect();
    let mut before = sequence_of(message);
    let number = u16_at(message, 22) as u16;
    if number > 1 {
        before[10..].copy_from_slice(&(number - 1).to_be_bytes());
        needs.push(before);
    }
    needs
}
