//! "What runs, and in which order": executable and held deltas, keys, and the log.

use std::cmp::Reverse;
use std::collections::BTreeMap;

use super::message::{Delta, Sequence};
use super::purged::Purged;

/// Received deltas, each sequence once.
pub type Set<'a> = BTreeMap<Sequence, Delta<'a>>;

/// A delta in the log, with its effective block.
#[derive(Clone, Copy, Debug)]
pub struct Placed<'a> {
    pub delta: Delta<'a>,
    pub effective_block: u32,
}

/// A set of deltas, ordered: the log, and the held ones by ascending sequence. The purged part
/// lies before them.
#[derive(Clone, Debug)]
pub struct Order<'a> {
    pub log: Vec<Placed<'a>>,
    pub held: Vec<Delta<'a>>,
    pub purged: Purged,
}

impl Order<'_> {
    /// The log's sequences in order.
    pub fn log_sequences(&self) -> Vec<Sequence> {
        self.log.iter().map(|p| p.delta.sequence()).collect()
    }

    /// How many deltas the set has.
    pub fn count(&self) -> usize {
        self.log.len() + self.held.len()
    }
}

/// Effective block, lower first; explicit priority before none, the greater first;
/// group, lower first; sequence, lower first.
#[derive(Clone, Copy, Debug, PartialEq, Eq, PartialOrd, Ord)]
pub struct Key {
    effective_block: u32,
    without_priority: bool,
    priority: Reverse<u32>,
    group: u32,
    sequence: Sequence,
}

/// The key of a delta whose effective block is known.
pub fn key(placed: &Placed) -> Key {
    let explicit = placed.delta.explicit();
    Key {
        effective_block: placed.effective_block,
        without_priority: explicit.is_none(),
        priority: Reverse(explicit.map_or(0, |e| e.priority)),
        group: placed.delta.group(),
        sequence: placed.delta.sequence(),
    }
}

/// The log and the held deltas of a set.
///
/// At each place of the log stands the delta of lowest key among those whose needs
/// all stand before or are purged. Any such choice leaves a listing of the rest, so this is
/// the first of all listings. What never becomes ready has no listing that ends in it.
pub fn order<'a>(set: &Set<'a>, purged: &Purged) -> Order<'a> {
    let users = users(set, purged);
    let mut missing: BTreeMap<Sequence, usize> = BTreeMap::new();
    let mut ready: BTreeMap<Key, Placed<'a>> = BTreeMap::new();
    let mut blocks: BTreeMap<Sequence, u32> = BTreeMap::new();
    let mut log = Vec::with_capacity(set.len());
    for (sequence, delta) in set {
        let count = open_needs(delta, purged).count();
        missing.insert(*sequence, count);
        if count == 0 {
            make_ready(&mut ready, &blocks, purged.block, *delta);
        }
    }
    while let Some(placed) = take_first(&mut ready) {
        let sequence = placed.delta.sequence();
        blocks.insert(sequence, placed.effective_block);
        log.push(placed);
        for user in users.get(&sequence).into_iter().flatten() {
            if let Some(count) = missing.get_mut(&user.sequence()) {
                *count -= 1;
                if *count == 0 {
                    make_ready(&mut ready, &blocks, purged.block, *user);
                }
            }
        }
    }
    let held = set
        .values()
        .filter(|delta| !blocks.contains_key(&delta.sequence()))
        .copied()
        .collect();
    Order {
        log,
        held,
        purged: purged.clone(),
    }
}

/// Takes out the delta of lowest key.
fn take_first<'a>(ready: &mut BTreeMap<Key, Placed<'a>>) -> Option<Placed<'a>> {
    let first = *ready.keys().next()?;
    ready.remove(&first)
}

/// The needs that have to stand in the log: one at or below its floor counts as placed.
fn open_needs<'a>(delta: &Delta<'a>, purged: &'a Purged) -> impl Iterator<Item = Sequence> + 'a {
    delta.needs().filter(move |need| !purged.has(need))
}

/// For each sequence that has to stand in the log, the deltas of the set that need it.
fn users<'a>(set: &Set<'a>, purged: &Purged) -> BTreeMap<Sequence, Vec<Delta<'a>>> {
    let mut users: BTreeMap<Sequence, Vec<Delta<'a>>> = BTreeMap::new();
    for delta in set.values() {
        for need in open_needs(delta, purged) {
            users.entry(need).or_default().push(*delta);
        }
    }
    users
}

/// Enters a delta whose needs all stand in the log or are purged. Its effective block is the
/// greatest of its own block, the effective blocks of its needs and the purged one.
fn make_ready<'a>(
    ready: &mut BTreeMap<Key, Placed<'a>>,
    blocks: &BTreeMap<Sequence, u32>,
    purged_block: u32,
    delta: Delta<'a>,
) {
    let needed = delta.needs().filter_map(|need| blocks.get(&need)).max();
    let needed = needed.copied().unwrap_or(0);
    let effective_block = delta.block().max(needed).max(purged_block);
    let placed = Placed {
        delta,
        effective_block,
    };
    ready.insert(key(&placed), placed);
}
