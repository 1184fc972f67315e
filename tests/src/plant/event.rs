//! What happens in a plant, in order: who composed, executed and undid what, and when.

use std::fmt::{self, Display, Formatter};

use super::disk::Left;
use super::network::Sides;
use super::station::Delivery;
use crate::call::hex;
use crate::view::{sequence_of, u32_at, Kind};
use crate::wire::Sequence;

/// Something that happened at a time, which is counted from 1.
#[derive(Clone, Debug, PartialEq, Eq)]
pub struct Event {
    pub time: usize,
    pub what: What,
}

/// Stations are counted from 0.
#[derive(Clone, Debug, PartialEq, Eq)]
pub enum What {
    /// A delta was composed; with priority, its block and priority.
    Composed(usize, Sequence, Option<(u32, u32)>),
    /// A compose was refused by this code.
    NotComposed(usize, u32),
    /// A message of a sequence was delivered, with this code.
    Delivered(usize, Sequence, u32),
    /// The steps of the delivery, in order.
    Undone(usize, Sequence),
    Executed(usize, Sequence),
    /// So many were purged, or would have been but for this code.
    Purged(usize, usize),
    NotPurged(usize, usize, u32),
    /// The image was saved.
    Saved(usize),
    /// A save was cut, and left this on the disk.
    Cut(usize, Left),
    /// What is saved was copied for a backup.
    BackedUp(usize),
    /// The station began again from the image it had saved.
    Restarted(usize),
    /// The station began again from its backup.
    Restored(usize),
    /// A station's disk was copied to a new station, the second.
    Cloned(usize, usize),
    /// A message set out, from a station to another.
    Sent(usize, usize, Sequence),
    /// A message on its way to a station had this bit flipped.
    Damaged(usize, Sequence, usize),
    /// A message on its way to a station was lost.
    Lost(usize, Sequence),
    /// The network fell apart, or came together.
    Sides(Sides),
    /// Each station gets what it has not yet.
    CatchUp,
    /// From here on everything reaches all.
    Exchange,
}

impl What {
    /// That a message was composed at a station.
    pub fn composed(at: usize, message: &[u8]) -> What {
        let explicit = (message[1] == 1).then(|| (u32_at(message, 28), u32_at(message, 32)));
        What::Composed(at, sequence_of(message), explicit)
    }

    /// That a message was delivered at a station, and the steps.
    pub fn delivered(at: usize, message: &[u8], delivery: &Delivery) -> Vec<What> {
        let mut all = vec![What::Delivered(at, sequence_of(message), delivery.code)];
        all.extend(delivery.steps.iter().map(|step| match step.kind {
            Kind::Undo => What::Undone(at, step.sequence),
            Kind::Execute => What::Executed(at, step.sequence),
        }));
        all
    }
}

impl Display for Event {
    /// Time, station (or - for the network), what, and of what.
    fn fmt(&self, f: &mut Formatter<'_>) -> fmt::Result {
        write!(f, "{} ", self.time)?;
        match &self.what {
            What::Composed(at, own, None) => write!(f, "{at} compose {}", hex(own)),
            What::Composed(at, own, Some((block, priority))) => {
                let own = hex(own);
                write!(f, "{at} compose {own} block {block} priority {priority}")
            }
            What::NotComposed(at, code) => write!(f, "{at} no-compose code {code}"),
            What::Delivered(at, own, code) => write!(f, "{at} deliver {} code {code}", hex(own)),
            What::Undone(at, own) => write!(f, "{at} undo {}", hex(own)),
            What::Executed(at, own) => write!(f, "{at} execute {}", hex(own)),
            What::Purged(at, count) => write!(f, "{at} purge {count}"),
            What::NotPurged(at, count, code) => write!(f, "{at} no-purge {count} code {code}"),
            What::Saved(at) => write!(f, "{at} save"),
            What::Cut(at, left) => write!(f, "{at} cut-save {left}"),
            What::BackedUp(at) => write!(f, "{at} back-up"),
            What::Restarted(at) => write!(f, "{at} restart"),
            What::Restored(at) => write!(f, "{at} restore"),
            What::Cloned(at, to) => write!(f, "{at} clone to {to}"),
            What::Sent(at, to, own) => write!(f, "{at} send {} to {to}", hex(own)),
            What::Damaged(to, own, bit) => write!(f, "- flip {} bit {bit} to {to}", hex(own)),
            What::Lost(to, own) => write!(f, "- lose {} to {to}", hex(own)),
            What::Sides(sides) => write!(f, "- sides {sides}"),
            What::CatchUp => write!(f, "- catch-up"),
            What::Exchange => write!(f, "- exchange"),
        }
    }
}
