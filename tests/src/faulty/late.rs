//! Variants whose order of two deltas hangs on what else is there, or on what came when. Each keeps
//! to its rule in image, steps and counts alike.

use std::cmp::Reverse;
use std::collections::{BTreeMap, BTreeSet};

use super::Fault;
use crate::reference::message::{Delta, Sequence};
use crate::reference::order::{Order, Placed};

/// Effective block, priority, group, and what decides between equal ones.
type Key = (u32, Reverse<Option<u32>>, u32, Tie);
/// A place, and then the sequence, or its complement where the higher goes first.
type Tie = (i64, Sequence);
/// A part of the key by the delta's sequence.
type Parts<T> = BTreeMap<Sequence, T>;

/// Whether the fault is one of these.
pub fn orders(fault: Fault) -> bool {
    let own = [
        Fault::TiesByArrival,
        Fault::TiesLatestFirst,
        Fault::TiesByCount,
        Fault::PriorityHandedDown,
        Fault::BlockHandedDown,
        Fault::BlockOfHeld,
    ];
    own.contains(&fault)
}

/// The right log in the order of the fault's keys, needs before, where this log was before.
pub fn arrange<'a>(fault: Fault, right: Order<'a>, before: &[Sequence]) -> Order<'a> {
    let keys = keys(fault, &right, before);
    let mut open: BTreeSet<Sequence> = keys.keys().copied().collect();
    let mut rest = right.log;
    let mut log = Vec::with_capacity(rest.len());
    let key = |placed: &Placed| keys.get(&placed.delta.sequence());
    while let Some(place) = first(&rest, &open, key) {
        let placed = rest.remove(place);
        open.remove(&placed.delta.sequence());
        log.push(placed);
    }
    Order { log, ..right }
}

/// The place of the lowest key among those that need none of the open ones.
fn first<'a, K: Ord>(
    rest: &[Placed<'a>],
    open: &BTreeSet<Sequence>,
    key: impl Fn(&Placed<'a>) -> K,
) -> Option<usize> {
    let ready = |placed: &Placed| !placed.delta.needs().any(|need| open.contains(&need));
    let places = (0..rest.len()).filter(|place| ready(&rest[*place]));
    places.min_by_key(|place| key(&rest[*place]))
}

/// The key of each delta of the log.
fn keys(fault: Fault, right: &Order, before: &[Sequence]) -> Parts<Key> {
    let (blocks, priorities) = (blocks(fault, right), priorities(fault, right));
    let deltas = right.log.iter().map(|placed| &placed.delta);
    let key = |delta: &Delta| {
        let own = delta.sequence();
        let tie = tie(fault, right, before, own);
        let key = (blocks[&own], Reverse(priorities[&own]), delta.group(), tie);
        (own, key)
    };
    deltas.map(key).collect()
}

/// What decides between deltas of equal block, priority and group.
fn tie(fault: Fault, right: &Order, before: &[Sequence], own: Sequence) -> Tie {
    let place = before.iter().position(|other| *other == own);
    let place = place.unwrap_or(before.len()) as i64;
    let joins = right.log.len() > before.len();
    match fault {
        Fault::TiesLatestFirst if joins => (-place, own),
        Fault::TiesByArrival | Fault::TiesLatestFirst => (place, own),
        Fault::TiesByCount if right.count() % 2 == 1 => (0, own.map(|byte| 255 - byte)),
        _ => (0, own),
    }
}

/// The priorities in the keys. Handed down, it is the greatest among the delta's own and those of
/// all that need it in the same effective block.
fn priorities(fault: Fault, right: &Order) -> Parts<Option<u32>> {
    let own = |placed: &Placed| placed.delta.explicit().map(|explicit| explicit.priority);
    let log = right.log.iter();
    let mut priorities: Parts<Option<u32>> = log.map(|p| (p.delta.sequence(), own(p))).collect();
    if fault == Fault::PriorityHandedDown {
        let blocks = blocks(fault, right);
        hand_down(right, &mut priorities, |user, need| {
            blocks[user] == blocks[need]
        });
    }
    priorities
}

/// The effective blocks in the keys. Handed down, it is the greatest of those of all that need it.
fn blocks(fault: Fault, right: &Order) -> Parts<u32> {
    let log = right.log.iter();
    let mut blocks: Parts<u32> = log
        .map(|p| (p.delta.sequence(), p.effective_block))
        .collect();
    match fault {
        Fault::BlockHandedDown => hand_down(right, &mut blocks, |_, _| true),
        Fault::BlockOfHeld => count_held(right, &mut blocks),
        _ => {}
    }
    blocks
}

/// Raises the part of each need to that of its user, from the log's end on, where it is handed on.
fn hand_down<T: Copy + Ord>(
    right: &Order,
    parts: &mut Parts<T>,
    is_handed: impl Fn(&Sequence, &Sequence) -> bool,
) {
    for user in right.log.iter().rev().map(|placed| placed.delta) {
        let part = parts[&user.sequence()];
        for need in user.needs() {
            if let Some(needed) = parts.get_mut(&need) {
                if is_handed(&user.sequence(), &need) {
                    *needed = part.max(*needed);
                }
            }
        }
    }
}

/// Raises the block of each need of a held delta to that one's, and of all that need these.
fn count_held(right: &Order, blocks: &mut Parts<u32>) {
    for held in &right.held {
        for need in held.needs() {
            if let Some(block) = blocks.get_mut(&need) {
                *block = held.block().max(*block);
            }
        }
    }
    for user in right.log.iter().map(|placed| placed.delta) {
        let needed = user.needs().filter_map(|need| blocks.get(&need)).max();
        let needed = needed.copied().unwrap_or(0);
        if let Some(block) = blocks.get_mut(&user.sequence()) {
            *block = needed.max(*block);
        }
    }
}
