//! A delivery at a station, with the image before and after it.

use super::entry::Look;
use crate::boundary::Calls;
use crate::plant::Station;
use crate::view::{log, messages, sequence_of, u16_at, Kind};
use crate::wire::Sequence;

/// What arrived, the station's image before and after, and how many deltas were undone.
#[derive(Clone, Debug, PartialEq, Eq)]
pub struct Arrival {
    pub before: Vec<u8>,
    pub message: Vec<u8>,
    pub after: Vec<u8>,
    pub undos: usize,
}

impl Arrival {
    /// Delivers a message to a station, which must accept it.
    pub fn at(calls: &dyn Calls, station: &mut Station, message: &[u8]) -> Result<Arrival, String> {
        let before = station.memory.image.clone();
        let delivery = station.deliver(calls, message)?;
        if delivery.code != 0 {
            return Err(format!("the delivery answers {}", delivery.code));
        }
        let undos = delivery.steps.iter().filter(|s| s.kind == Kind::Undo);
        Ok(Arrival {
            before,
            message: message.to_vec(),
            after: station.memory.image.clone(),
            undos: undos.count(),
        })
    }

    /// The messages of the log after.
    pub fn new(&self) -> Vec<Vec<u8>> {
        messages(&self.after, 0, u16_at(&self.after, 0))
    }

    /// How a delta at a place of the log after stands to what arrived; nothing if it is new
    /// there, did not arrive and was not held.
    pub fn look(&self, place: usize, own: &Sequence) -> Option<Look> {
        let (count, held) = (u16_at(&self.before, 0), u16_at(&self.before, 2));
        let held = messages(&self.before, count, held);
        if log(&self.before).contains(own) {
            let kept = place + self.undos < count;
            return Some(if kept { Look::Kept } else { Look::Again });
        }
        if *own == sequence_of(&self.message) {
            return Some(Look::Late);
        }
        let mut held = held.iter().map(|message| sequence_of(message));
        held.any(|held| held == *own).then_some(Look::Freed)
    }
}
