//! The log by the definition: executable deltas and the first of all listings, by search.

use std::cmp::Ordering;
use std::collections::BTreeSet;

use bivamolune_tests::wire::{sequence, Draft, Sequence};

/// What was purged before a set: floors as sequences, and the greatest effective block.
#[derive(Default)]
pub struct Past {
    pub floors: Vec<Sequence>,
    pub block: u32,
}

impl Past {
    /// Whether a sequence is at or below a floor.
    pub fn has(&self, own: &Sequence) -> bool {
        let mut floors = self.floors.iter();
        floors.any(|floor| floor[..10] == own[..10] && floor[10..] >= own[10..])
    }
}

/// "A delta needs its dependencies and its predecessor", of which those at or below a floor
/// count as placed.
fn needs(past: &Past, draft: &Draft) -> Vec<Sequence> {
    let mut needs = draft.dependencies.clone();
    if draft.number > 1 {
        needs.push(sequence(draft.line, draft.number - 1));
    }
    needs.retain(|need| !past.has(need));
    needs
}

/// All listings without repeats in which each one's needs come earlier.
pub fn listings(past: &Past, set: &[Draft]) -> Vec<Vec<usize>> {
    let mut all = vec![Vec::new()];
    let mut done = 0;
    while done < all.len() {
        let listing: Vec<usize> = all[done].clone();
        let named: BTreeSet<Sequence> = listing.iter().map(|d| set[*d].sequence()).collect();
        for (place, draft) in set.iter().enumerate() {
            let fits = needs(past, draft).iter().all(|need| named.contains(need));
            if fits && !named.contains(&draft.sequence()) {
                let mut longer = listing.clone();
                longer.push(place);
                all.push(longer);
            }
        }
        done += 1;
    }
    all
}

/// The greatest of its own block, the effective blocks of its needs and the purged one.
fn effective_block(past: &Past, set: &[Draft], place: usize) -> u32 {
    let own = set[place].explicit.map_or(0, |(block, _)| block);
    let needed = needs(past, &set[place]);
    let places = (0..set.len()).filter(|p| needed.contains(&set[*p].sequence()));
    let blocks = places.map(|p| effective_block(past, set, p));
    blocks.fold(own.max(past.block), u32::max)
}

/// The key's comparison, clause by clause. Both are executable.
fn compare(past: &Past, set: &[Draft], one: usize, two: usize) -> Ordering {
    let blocks = effective_block(past, set, one).cmp(&effective_block(past, set, two));
    let priorities = match (set[one].explicit, set[two].explicit) {
        (Some(_), None) => Ordering::Less,
        (None, Some(_)) => Ordering::Greater,
        (Some((_, first)), Some((_, second))) => second.cmp(&first),
        (None, None) => Ordering::Equal,
    };
    let groups = set[one].group.cmp(&set[two].group);
    let sequences = set[one].sequence().cmp(&set[two].sequence());
    blocks.then(priorities).then(groups).then(sequences)
}

/// The log by the definition: the first of the listings of all executable deltas.
pub fn first_listing(past: &Past, set: &[Draft]) -> Vec<usize> {
    let all = listings(past, set);
    let executable: BTreeSet<usize> = all.iter().filter_map(|l| l.last().copied()).collect();
    let whole = all
        .into_iter()
        .filter(|listing| listing.len() == executable.len());
    let place_by_place = |one: &Vec<usize>, two: &Vec<usize>| {
        let pairs = one.iter().zip(two);
        let mut orders = pairs.map(|(a, b)| compare(past, set, *a, *b));
        orders
            .find(|order| order.is_ne())
            .unwrap_or(Ordering::Equal)
    };
    whole.min_by(place_by_place).unwrap_or_default()
}
