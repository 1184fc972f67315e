//! The plain station of "Demand 3 over a whole run": a set of messages, and what was purged
//! before them.

use std::collections::BTreeMap;

use super::code::Code;
use super::image;
use super::message::{Delta, Sequence};
use super::order::{order, Order, Set};
use super::purge::{first, purged_with};
use super::purged::Purged;
use super::steps;

/// The accepted messages by their sequence. A station begins with none and with no floor.
#[derive(Clone, Debug)]
pub struct PlainStation {
    messages: BTreeMap<Sequence, Vec<u8>>,
    purged: Purged,
}

impl Default for PlainStation {
    fn default() -> PlainStation {
        PlainStation::after(Purged::nothing())
    }
}

impl PlainStation {
    /// A station of no messages, before which this was purged.
    pub fn after(purged: Purged) -> PlainStation {
        PlainStation {
            messages: BTreeMap::new(),
            purged,
        }
    }

    /// Takes a delivery's message and the length of its step buffer.
    pub fn deliver(&mut self, message: &[u8], step_buffer: usize) -> Result<(), Code> {
        if step_buffer < steps::BUFFER {
            return Err(Code::Size);
        }
        let sequence = Delta::check(message)?.sequence();
        if self.purged.has(&sequence) {
            return Ok(());
        }
        let present = self.messages.get(&sequence);
        if present.map_or(false, |bytes| bytes != message) {
            return Err(Code::Conflict);
        }
        if self.messages.len() == image::CAPACITY && present.is_none() {
            return Err(Code::Full);
        }
        self.messages.insert(sequence, message.to_vec());
        Ok(())
    }

    /// Takes a purge's K: "a purge, refused or not, may stand in demand 3's lists".
    pub fn purge(&mut self, k: u32) -> Result<(), Code> {
        let (dropped, purged) = {
            let order = self.order();
            let dropped = first(&order, k)?;
            let purged = purged_with(&order.purged, dropped)?;
            let sequences = dropped.iter().map(|placed| placed.delta.sequence());
            (sequences.collect::<Vec<_>>(), purged)
        };
        for sequence in dropped {
            self.messages.remove(&sequence);
        }
        self.purged = purged;
        Ok(())
    }

    /// The log of the set.
    pub fn log(&self) -> Vec<Sequence> {
        self.order().log_sequences()
    }

    /// The image of the set.
    pub fn image(&self) -> Vec<u8> {
        image::write(&self.order())
    }

    fn order(&self) -> Order<'_> {
        let deltas = self.messages.values();
        let set: Set = deltas
            .filter_map(|message| Delta::check(message).ok())
            .map(|delta| (delta.sequence(), delta))
            .collect();
        order(&set, &self.purged)
    }
}
