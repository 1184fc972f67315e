//! Sets at a limit, of no more than 64 deltas, in the order in which they arrive.

use super::fields::{draft, field, line, lone_draft};
use crate::generate::arrange;
use crate::generate::right::any_command;
use crate::random::Random;
use crate::wire::{sequence, Draft, Sequence};

/// How many deltas an image holds.
const MOST: usize = 64;

/// A set, of which half arrive with the first delta last.
pub fn set(random: &mut Random) -> Vec<Draft> {
    let mut drafts = match random.below(8) {
        0 | 1 => lone(random),
        2..=4 => beside_eight(random),
        5 => chain(random),
        6 => longest(random),
        _ => high_numbers(random),
    };
    match random.chance(50) {
        true => drafts.rotate_left(1),
        false => arrange(random, &mut drafts),
    }
    drafts
}

/// Deltas that need nothing: their keys alone order them.
fn lone(random: &mut Random) -> Vec<Draft> {
    let count = random.pick(&[2, 8, 24, MOST]);
    (0..count).map(|_| lone_draft(random)).collect()
}

/// A delta that needs eight others and its predecessor, one of which has the greatest block. One
/// more of that block and of lower priority stands before it only if that block counts.
fn beside_eight(random: &mut Random) -> Vec<Draft> {
    let mut all: Vec<Draft> = (0..10).map(|_| lone_draft(random)).collect();
    let mut user = draft(random, all[0].line, 2);
    user.dependencies = all[1..9].iter().map(Draft::sequence).collect();
    user.dependencies.sort_unstable();
    user.explicit = None;
    let blocks = all.iter().filter_map(|draft| draft.explicit);
    let greatest = blocks.map(|(block, _)| block).max().unwrap_or(1);
    for draft in &mut all {
        draft.explicit = draft.explicit.filter(|(block, _)| *block < greatest);
    }
    let place = random.pick(&[0, 0, 1, 8]);
    all[place].explicit = Some((greatest, field(random, 1)));
    all[9].explicit = Some((greatest, 0));
    all.push(user);
    all
}

/// 64 deltas, each of which needs the one before: by its number, or by naming it.
fn chain(random: &mut Random) -> Vec<Draft> {
    let (own, by_number) = (line(random), random.chance(50));
    let mut all: Vec<Draft> = Vec::new();
    while all.len() < MOST {
        let mut next = match by_number {
            true => draft(random, own, all.len() as u16 + 1),
            false => lone_draft(random),
        };
        if !by_number {
            next.dependencies = all.last().map(Draft::sequence).into_iter().collect();
        }
        all.push(next);
    }
    all
}

/// 64 deltas with eight commands. Each names eight: those behind it, so that the messages are
/// the longest and all are held, or those before it, as far as there are any.
fn longest(random: &mut Random) -> Vec<Draft> {
    let mut all: Vec<Draft> = (0..MOST).map(|_| lone_draft(random)).collect();
    let held = random.chance(50);
    let names: Vec<Sequence> = all.iter().map(Draft::sequence).collect();
    for (place, draft) in all.iter_mut().enumerate() {
        draft.dependencies = match held {
            true => names
                .iter()
                .cycle()
                .skip(place + 1)
                .take(8)
                .copied()
                .collect(),
            false => names[place.saturating_sub(8)..place].to_vec(),
        };
        draft.dependencies.sort_unstable();
        draft.commands = (0..8).map(|_| any_command(random)).collect();
    }
    all
}

/// Numbers at the ends of their bytes and one between, and deltas that name the greatest; all are
/// held.
fn high_numbers(random: &mut Random) -> Vec<Draft> {
    let mut all = Vec::new();
    for _ in 0..3 {
        let own = line(random);
        let between = random.within(0x0101, 0x7FFE) as u16;
        for number in [0x00FF, 0x0100, between, 0x7FFF, 0x8000, 0xFFFE, 0xFFFF] {
            all.push(draft(random, own, number));
        }
        let mut user = lone_draft(random);
        user.dependencies.push(sequence(own, 0xFFFF));
        all.push(user);
    }
    all
}
