//! Small furnaces, whole: three lines of three numbers, every order of arrival with every purge
//! after each, against the rule by search over all listings. What a station must hold is computed
//! from all that ever happened to it, never from its image.

#![deny(warnings)]

mod common;

use std::cmp::Ordering;
use std::collections::{HashMap, VecDeque};

use bivamolune_tests::sketch::{Sketch, Values};
use bivamolune_tests::wire::{add, line, raise, sequence, set, Command, Draft, Sequence};
use common::{delta, Station, A, B, C, IMAGE};

fn s(letter: u8, number: u16) -> Sequence {
    sequence(line(letter), number)
}

/// All that ever happened: what was purged, in its order, and what was received of the rest.
#[derive(Clone, Debug, Default, PartialEq, Eq, Hash)]
struct History {
    gone: Vec<usize>,
    received: Vec<usize>,
}

/// The deltas of a furnace with their effective blocks, and the rule.
struct Furnace {
    all: Vec<Draft>,
    blocks: Vec<u32>,
}

impl Furnace {
    /// "The effective block is the greater of its own block and the effective blocks of its
    /// needs": raised as often as there are deltas, so that rings end too.
    fn new(all: Vec<Draft>) -> Furnace {
        let own = |draft: &Draft| draft.explicit.map_or(0, |(block, _)| block);
        let mut furnace = Furnace {
            blocks: all.iter().map(own).collect(),
            all,
        };
        for place in (0..furnace.all.len()).cycle().take(81) {
            let needs = furnace.needs(place);
            let needs = needs.iter().filter_map(|need| furnace.place(need));
            let needed = needs.map(|need| furnace.blocks[need]).max().unwrap_or(0);
            furnace.blocks[place] = furnace.blocks[place].max(needed);
        }
        furnace
    }

    fn drafts(&self, places: &[usize]) -> Vec<Draft> {
        places
            .iter()
            .map(|place| self.all[*place].clone())
            .collect()
    }

    /// The highest purged number of a line, 0 where there is none.
    fn floor(&self, history: &History, of: &Draft) -> u16 {
        let gone = history.gone.iter().map(|place| &self.all[*place]);
        let numbers = gone.filter(|draft| draft.line == of.line).map(|d| d.number);
        numbers.max().unwrap_or(0)
    }

    /// "A delta needs its dependencies and its predecessor."
    fn needs(&self, place: usize) -> Vec<Sequence> {
        let draft = &self.all[place];
        let before = (draft.number > 1).then(|| sequence(draft.line, draft.number - 1));
        draft.dependencies.iter().copied().chain(before).collect()
    }

    /// The place of a sequence among the deltas, if it is one of them.
    fn place(&self, own: &Sequence) -> Option<usize> {
        self.all.iter().position(|draft| draft.sequence() == *own)
    }

    /// The greatest purged effective block.
    fn purged_block(&self, history: &History) -> u32 {
        let gone = history.gone.iter();
        gone.map(|place| self.blocks[*place]).max().unwrap_or(0)
    }

    /// The key's comparison, clause by clause, no block below the least.
    fn compare(&self, least: u32, one: usize, two: usize) -> Ordering {
        let (first, second) = (&self.all[one], &self.all[two]);
        let priorities = match (first.explicit, second.explicit) {
            (Some(_), None) => Ordering::Less,
            (None, Some(_)) => Ordering::Greater,
            (Some((_, one)), Some((_, two))) => two.cmp(&one),
            (None, None) => Ordering::Equal,
        };
        let groups = first.group.cmp(&second.group);
        let sequences = first.sequence().cmp(&second.sequence());
        let block = |place: usize| self.blocks[place].max(least);
        let blocks = block(one).cmp(&block(two));
        blocks.then(priorities).then(groups).then(sequences)
    }

    /// All listings of received deltas that cannot be made longer. Needs that were purged count
    /// as placed.
    fn listings(&self, history: &History, listing: &mut Vec<usize>, all: &mut Vec<Vec<usize>>) {
        let there = |need: &Sequence| match self.place(need) {
            Some(place) => history.gone.contains(&place) || listing.contains(&place),
            None => false,
        };
        let fits = |place: &usize| !listing.contains(place) && self.needs(*place).iter().all(there);
        let next: Vec<usize> = history.received.iter().copied().filter(fits).collect();
        if next.is_empty() {
            all.push(listing.clone());
        }
        for place in next {
            listing.push(place);
            self.listings(history, listing, all);
            listing.pop();
        }
    }

    /// The log: the first of all listings, keys compared place by place.
    fn log(&self, history: &History) -> Vec<usize> {
        let mut all = Vec::new();
        self.listings(history, &mut Vec::new(), &mut all);
        let least = self.purged_block(history);
        let place_by_place = |one: &Vec<usize>, two: &Vec<usize>| {
            assert_eq!(one.len(), two.len(), "each listing has all executable ones");
            let mut orders = one
                .iter()
                .zip(two)
                .map(|(a, b)| self.compare(least, *a, *b));
            orders
                .find(|order| order.is_ne())
                .unwrap_or(Ordering::Equal)
        };
        all.into_iter().min_by(place_by_place).unwrap_or_default()
    }

    /// The image that all this makes, with its log given.
    fn image(&self, history: &History, log: &[usize]) -> Vec<u8> {
        let (drafts, gone) = (self.drafts(log), self.drafts(&history.gone));
        let mut held = self.drafts(&history.received);
        held.retain(|draft| !drafts.contains(draft));
        held.sort_by_key(Draft::sequence);
        let floor = |draft: &Draft| sequence(draft.line, self.floor(history, draft));
        let mut floors: Vec<Sequence> = gone.iter().map(floor).collect();
        floors.sort_unstable();
        floors.dedup();
        let sketch = Sketch {
            values: run(&[&gone[..], &drafts].concat()),
            base: run(&gone),
            block: self.purged_block(history),
            group: gone.iter().map(|draft| draft.group).max().unwrap_or(0),
            log: drafts,
            held,
            floors,
        };
        sketch.image()
    }
}

/// The values after these deltas from zero, by the paper's three operations.
fn run(drafts: &[Draft]) -> Values {
    let mut values = vec![0_i32; 64];
    for command in drafts.iter().flat_map(|draft| &draft.commands) {
        let value = i32::from_be_bytes([command[4], command[5], command[6], command[7]]);
        let old = &mut values[usize::from(command[1])];
        *old = match command[0] {
            1 => value,
            2 => (*old + value).clamp(-1_000_000, 1_000_000),
            _ => value.max(*old),
        };
    }
    values.into_iter().enumerate().collect()
}

/// The log and the image of a state, the image without the zeros at its end.
type State = (Vec<usize>, Vec<u8>);

/// A furnace's states that were met, each with its log and its one image.
struct Search<'a> {
    furnace: &'a Furnace,
    met: HashMap<History, State>,
    queue: VecDeque<History>,
    purges: usize,
}

impl Search<'_> {
    /// The log and the image of a history; one that is new is to be followed too.
    fn meet(&mut self, history: &History) -> State {
        if !self.met.contains_key(history) {
            let log = self.furnace.log(history);
            let mut image = self.furnace.image(history, &log);
            let last = image.iter().rposition(|byte| *byte != 0);
            image.truncate(last.map_or(0, |last| last + 1));
            self.met.insert(history.clone(), (log, image));
            self.queue.push_back(history.clone());
        }
        let (log, mut image) = self.met[history].clone();
        image.resize(IMAGE, 0);
        (log, image)
    }

    /// Delivers a delta on top of a history.
    fn deliver(&mut self, history: &History, place: usize) {
        let (old, image) = self.meet(history);
        let draft = &self.furnace.all[place];
        let mut next = history.clone();
        if self.furnace.floor(history, draft) < draft.number && !next.received.contains(&place) {
            next.received.push(place);
            next.received.sort_unstable();
        }
        let (new, expected) = self.meet(&next);
        let mut station = Station { image };
        let (code, steps) = station.deliver(draft);
        let played = steps.split(' ').filter(|step| !step.is_empty()).count();
        let common = old.iter().zip(&new).take_while(|(a, b)| a == b).count();
        assert_eq!((code, played), (0, old.len() + new.len() - 2 * common));
        assert!(station.image == expected, "{history:?}, then {place}");
    }

    /// Purges on top of a history, with a K that may exceed the log.
    fn purge(&mut self, history: &History, k: usize) {
        let (old, image) = self.meet(history);
        let mut station = Station { image };
        let code = station.purge(k as u32);
        assert_eq!(code, if k > old.len() { 15 } else { 0 });
        if code != 0 {
            return;
        }
        let mut next = history.clone();
        next.gone.extend(&old[..k]);
        next.received.retain(|place| !old[..k].contains(place));
        let (new, expected) = self.meet(&next);
        assert_eq!(new, old[k..], "the log loses the same K");
        assert!(station.image == expected, "{history:?}, then K = {k}");
        self.purges += 1;
    }
}

/// Follows all that can happen to a furnace: each delta may arrive after anything, also again, and
/// each K may be purged after anything. How many states there are, and purges.
fn follow(furnace: &Furnace) -> (usize, usize) {
    let mut search = Search {
        furnace,
        met: HashMap::new(),
        queue: VecDeque::new(),
        purges: 0,
    };
    let (_, image) = search.meet(&History::default());
    assert!(image == Station::new().image);
    while let Some(history) = search.queue.pop_front() {
        for place in 0..furnace.all.len() {
            search.deliver(&history, place);
        }
        for k in 0..=search.met[&history].0.len() + 1 {
            search.purge(&history, k);
        }
    }
    (search.met.len(), search.purges)
}

/// Commands that do not commute: each sets, adds or raises tags that others set.
fn commands(place: i32) -> [Command; 3] {
    [
        [set(0, 600_000 - place), add(0, 900_000), raise(1, place)],
        [add(0, -700_000), set(1, -place), add(2, 400_000)],
        [raise(0, 10 * place), add(1, 3), add(2, 350_000 + place)],
    ][place as usize % 3]
}

/// Three lines of three numbers, each as `change` makes it.
fn furnace(change: impl Fn(Draft) -> Draft) -> Furnace {
    let mut drafts = Vec::new();
    for number in 1..=3 {
        for letter in [A, B, C] {
            let draft = delta(letter, number).commands(&commands(drafts.len() as i32));
            drafts.push(change(draft));
        }
    }
    Furnace::new(drafts)
}

/// Keys that differ in blocks and priorities: each line climbs by blocks of its own.
fn with_blocks(draft: Draft) -> Draft {
    match (draft.line[5], draft.number) {
        (A, 2) => draft.priority(2, 1),
        (B, 1) => draft.priority(1, 5),
        (B, 3) => draft.priority(3, 0),
        (C, 1) => draft.priority(2, 9),
        (C, 3) => draft.group(7),
        _ => draft,
    }
}

/// Needs across the lines, groups that fall along them.
fn with_needs(draft: Draft) -> Draft {
    let number = draft.number;
    let draft = draft.group(u32::from(9 - 2 * number));
    match (draft.line[5], number) {
        (A, 3) => draft.naming(&[s(B, 1), s(C, 2)]),
        (B, 2) => draft.naming(&[s(C, 1)]),
        (C, 2) => draft.naming(&[s(A, 1)]),
        _ => draft,
    }
}

/// A ring of B2 and C2, and what never comes: they stay held through every purge.
fn with_a_ring(draft: Draft) -> Draft {
    match (draft.line[5], draft.number) {
        (A, 1) => draft.priority(4, 4),
        (A, 3) => draft.naming(&[s(C, 9)]),
        (B, 2) => draft.naming(&[s(C, 2)]),
        (C, 2) => draft.naming(&[s(B, 2)]),
        _ => draft,
    }
}

/// How many histories there are: what is gone went in an order that has needs before users, and
/// of the rest any part was received.
fn histories(furnace: &Furnace, gone: &mut Vec<usize>) -> usize {
    let mut count = 1 << (furnace.all.len() - gone.len());
    for place in 0..furnace.all.len() {
        let went = |need: &Sequence| furnace.place(need).map_or(false, |n| gone.contains(&n));
        if !gone.contains(&place) && furnace.needs(place).iter().all(went) {
            gone.push(place);
            count += histories(furnace, gone);
            gone.pop();
        }
    }
    count
}

/// Follows a furnace, and asks that it met each of its histories.
fn check(change: fn(Draft) -> Draft) -> usize {
    let furnace = furnace(change);
    let (states, purges) = follow(&furnace);
    assert_eq!(states, histories(&furnace, &mut Vec::new()));
    println!("{states} states, {purges} purges");
    states
}

/// Three lines side by side: every interleaving can be purged.
#[test]
fn every_history_of_plain_lines() {
    assert_eq!(check(|draft| draft), 23_336);
}

#[test]
fn every_history_with_blocks_and_priorities() {
    assert_eq!(check(with_blocks), 23_336);
}

#[test]
fn every_history_with_needs_across_lines() {
    assert!(check(with_needs) > 10_000);
}

#[test]
fn every_history_with_a_ring() {
    assert!(check(with_a_ring) > 3_000);
}
