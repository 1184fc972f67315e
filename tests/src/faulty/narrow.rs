//! Variants that see less of a delta than there is: fewer bits of a field, fewer needs, fewer
//! bytes.

use std::cmp::Reverse;
use std::collections::BTreeMap;

use super::{floors, Fault};
use crate::reference::message::{Delta, Sequence};
use crate::reference::order::{Order, Placed, Set};
use crate::reference::purged::Purged;
use crate::view::{all_messages, sequence_of};

/// The effective blocks of the deltas that are placed.
type Blocks = BTreeMap<Sequence, u32>;
/// Effective block, no priority, priority, group and sequence.
type Key = (u32, bool, Reverse<u32>, u32, Sequence);

/// Whether the fault is in the order of the log.
pub fn orders(fault: Fault) -> bool {
    let own = [
        Fault::PriorityOf16Bits,
        Fault::BlockOf16Bits,
        Fault::GroupOf24Bits,
        Fault::EightHidePredecessor,
    ];
    own.contains(&fault) || floors::orders(fault)
}

/// The log and the held ones of a set: at each place the lowest key, as the fault sees it, of
/// those whose needs stand before.
pub fn arrange<'a>(fault: Fault, set: &Set<'a>, purged: &Purged) -> Order<'a> {
    let mut held = set.clone();
    let mut blocks = Blocks::new();
    let mut log = Vec::new();
    while let Some(placed) = first(fault, &held, purged, &blocks) {
        let sequence = placed.delta.sequence();
        blocks.insert(sequence, placed.effective_block);
        held.remove(&sequence);
        log.push(placed);
    }
    let held = held.into_values().collect();
    Order {
        log,
        held,
        purged: purged.clone(),
    }
}

/// The delta of the lowest key among those that can be placed.
fn first<'a>(fault: Fault, rest: &Set<'a>, purged: &Purged, blocks: &Blocks) -> Option<Placed<'a>> {
    let stands = |need: Sequence| {
        blocks.contains_key(&need) || floors::counts_as_placed(fault, purged, &need)
    };
    let ready = |delta: &&Delta| delta.needs().all(stands);
    let least = floors::least_block(fault, purged);
    let placed = rest.values().filter(ready).map(|delta| Placed {
        delta: *delta,
        effective_block: effective_block(fault, delta, blocks).max(least),
    });
    placed.min_by_key(|placed| key(fault, placed))
}

fn effective_block(fault: Fault, delta: &Delta, blocks: &Blocks) -> u32 {
    let seen = match fault {
        Fault::EightHidePredecessor if delta.dependencies().count() == 8 => 8,
        _ => 9,
    };
    let own = match fault {
        Fault::BlockOf16Bits => delta.block() & 0xFFFF,
        _ => delta.block(),
    };
    // The predecessor is the last of the needs.
    let needed = delta
        .needs()
        .take(seen)
        .filter_map(|need| blocks.get(&need));
    needed.copied().fold(own, u32::max)
}

fn key(fault: Fault, placed: &Placed) -> Key {
    let delta = &placed.delta;
    let explicit = delta.explicit();
    let priority = explicit.map_or(0, |explicit| explicit.priority);
    let priority = match fault {
        Fault::PriorityOf16Bits => priority & 0xFFFF,
        _ => priority,
    };
    let group = match fault {
        Fault::GroupOf24Bits => delta.group() & 0xFF_FFFF,
        _ => delta.group(),
    };
    (
        placed.effective_block,
        explicit.is_none(),
        Reverse(priority),
        group,
        delta.sequence(),
    )
}

/// Whether an image has a message of this one's sequence with the same first 140 bytes.
pub fn begins_as_present(image: &[u8], message: &[u8]) -> bool {
    let all = all_messages(image);
    let present = all
        .iter()
        .find(|own| sequence_of(own) == sequence_of(message));
    present.map_or(false, |own| {
        own.iter().take(140).eq(message.iter().take(140))
    })
}
