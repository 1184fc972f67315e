//! Variants that are wrong in the purge itself.

use super::{forget_base, Fault};
use crate::boundary::{Calls, Reference};
use crate::edit::Edit;
use crate::reference::bytes::put;
use crate::reference::image::{self, first_message, read_sized, FLOORS, MOST_FLOORS, SIZE};
use crate::reference::message::{line, number, sequence};
use crate::reference::order::{Order, Placed};
use crate::reference::purge::purged_with;
use crate::reference::purged::Purged;
use crate::reference::setpoints::{run, Setpoints};
use crate::view::{floor_count, u16_at};

/// A purge with the fault in it: of another K, of another answer, or of another image.
pub fn purge(fault: Fault, image: &mut [u8], k: u32) -> u32 {
    let before = image.to_vec();
    let k = other_k(fault, &before, k);
    let answer = Reference.purge(image, k);
    let answer = other_answer(fault, (&before, image), k, answer);
    match (answer, read_sized(&before)) {
        (0, Ok((_, old))) if (1..=old.log.len()).contains(&(k as usize)) => {
            spoil_parts(fault, &old, k as usize, image);
            spoil_bytes(fault, &before, &old.log[..k as usize], image);
        }
        _ => {}
    }
    answer
}

/// The count that the fault takes.
fn other_k(fault: Fault, image: &[u8], k: u32) -> u32 {
    let log = read_sized(image).map_or(0, |(_, order)| order.log.len()) as u32;
    match fault {
        Fault::PurgeOneMore if k < log => k + 1,
        Fault::PurgeOneLess if k <= log => k.saturating_sub(1),
        Fault::PurgeOf8Bits => k % 256,
        Fault::PurgeOf16Bits => k % 65_536,
        Fault::PurgeOfAllThereIs => k.min(log),
        _ => k,
    }
}

/// The answer of a fault in the codes. Where it refuses what is right, the image stays.
fn other_answer(fault: Fault, (before, image): (&[u8], &mut [u8]), k: u32, answer: u32) -> u32 {
    let other = match (fault, answer) {
        (Fault::PurgeOfNoneRefused, 0) if k == 0 => 15,
        (Fault::PurgeOfAllRefused, 0) if k as usize == u16_at(before, 0) => 15,
        (Fault::FloorsBeforeCount, 15) if fitting(before) < u16_at(before, 0) => 16,
        (Fault::CountBeforeImage, 2) if k as usize > u16_at(before, 0) => 15,
        (Fault::SixteenAt32, 0) if floor_count(image) == MOST_FLOORS && k > 0 => 16,
        (Fault::FloorsOfMessages, 0) if floor_count(before) + k as usize > MOST_FLOORS => 16,
        (Fault::PurgeOfWhatFits, 16) => Reference.purge(image, fitting(before) as u32),
        (Fault::PurgeRefusalWrites, 16) => {
            Reference.purge(image, fitting(before) as u32);
            16
        }
        _ => answer,
    };
    if answer == 0 && other != 0 {
        image.copy_from_slice(before);
    }
    other
}

/// The most that can be purged with no more than 32 floors.
fn fitting(image: &[u8]) -> usize {
    let fits = |k: &usize| Reference.purge(&mut image.to_vec(), *k as u32) == 0;
    (0..=u16_at(image, 0)).rev().find(fits).unwrap_or(0)
}

/// Writes the image of other parts: what is left of a purge, or what is dropped by it.
fn spoil_parts(fault: Fault, old: &Order, k: usize, image: &mut [u8]) {
    let mut new = old.clone();
    let mut dropped: Vec<Placed> = new.log.drain(..k).collect();
    match fault {
        Fault::HeldPurgedToo => new.held.clear(),
        Fault::PurgesLast => {
            new.log = old.log[..old.log.len() - k].to_vec();
            dropped = old.log[old.log.len() - k..].to_vec();
        }
        Fault::PurgesBySequence => {
            dropped = old.log.clone();
            dropped.sort_by_key(|placed| placed.delta.sequence());
            dropped.truncate(k);
            let lowest: Vec<_> = dropped.iter().map(|p| p.delta.sequence()).collect();
            new.log = old.log.clone();
            new.log.retain(|p| !lowest.contains(&p.delta.sequence()));
        }
        _ => {}
    }
    if let Ok(mut purged) = purged_with(&old.purged, &dropped) {
        spoil_floors(fault, &mut purged, &old.purged, &dropped);
        spoil_rest(fault, &mut purged, old, &dropped);
        new.purged = purged;
        image.copy_from_slice(&image::write(&new));
    }
}

/// Other floors than a purge leaves.
fn spoil_floors(fault: Fault, purged: &mut Purged, before: &Purged, dropped: &[Placed]) {
    let sequences: Vec<_> = dropped.iter().map(|p| p.delta.sequence()).collect();
    match fault {
        Fault::FloorNotRaised => purged.floors.extend(&before.floors),
        Fault::FloorOfFirst => {
            for own in sequences.iter().rev() {
                purged.floors.insert(line(own), number(own));
            }
        }
        Fault::FloorOneHigh => {
            for own in &sequences {
                purged
                    .floors
                    .insert(line(own), number(own).saturating_add(1));
            }
        }
        Fault::OldFloorsForgotten => {
            let own = |of: &[u8; 10]| sequences.iter().any(|other| line(other) == *of);
            purged.floors.retain(|line, _| own(line));
        }
        _ => {}
    }
}

/// Other base values, purged block and group than a purge leaves.
fn spoil_rest(fault: Fault, purged: &mut Purged, old: &Order, dropped: &[Placed]) {
    let last = dropped.last().map(|placed| placed.delta);
    match fault {
        Fault::BaseKept => purged.base = old.purged.base,
        Fault::BaseFromZero => purged.base = run_all(dropped, Purged::nothing().base),
        Fault::BaseOfWholeLog => purged.base = run_all(&old.log, old.purged.base),
        Fault::PurgedBlockKept => purged.block = old.purged.block,
        Fault::PurgedBlockOfLast => purged.block = last.map_or(0, |delta| delta.block()),
        Fault::PurgedGroupKept => purged.group = old.purged.group,
        Fault::PurgedGroupOfLast => purged.group = last.map_or(0, |delta| delta.group()),
        _ => {}
    }
}

fn run_all(log: &[Placed], from: Setpoints) -> Setpoints {
    let run_one = |values, placed: &Placed| run(placed.delta.commands(), values).0;
    log.iter().fold(from, run_one)
}

/// Other bytes of the right parts.
fn spoil_bytes(fault: Fault, before: &[u8], dropped: &[Placed], image: &mut [u8]) {
    match fault {
        Fault::FloorsAppended => append_floors(before, dropped, image),
        Fault::FloorTwice => {
            for place in 0..floor_count(before) {
                let floor = &before[FLOORS + 12 * place..FLOORS + 12 * (place + 1)];
                let raised = dropped
                    .iter()
                    .any(|p| p.delta.sequence()[..10] == floor[..10]);
                if raised {
                    Edit::AddFloor(floor.try_into().unwrap_or([0; 12])).apply(image);
                }
            }
        }
        Fault::MessagesNotMoved => {
            let lengths = dropped.iter().map(|placed| placed.delta.bytes().len());
            let rest = first_message(before) + lengths.sum::<usize>();
            let first = first_message(image);
            image[first..rest.max(first)].fill(0);
            image[rest..].copy_from_slice(&before[rest..]);
        }
        Fault::OldBytesStay => {
            let used = u16_at(image, 8);
            image[used..SIZE].copy_from_slice(&before[used..SIZE]);
        }
        Fault::SetpointsFromZero => forget_base(image),
        _ => {}
    }
}

/// The floors of old in their order, raised, and then the new ones as the log had them.
fn append_floors(before: &[u8], dropped: &[Placed], image: &mut [u8]) {
    let right = match read_sized(image) {
        Ok((_, order)) => order.purged.floors,
        Err(_) => return,
    };
    let old = before[FLOORS..first_message(before)].chunks(12);
    let mut lines: Vec<[u8; 10]> = old.filter_map(|f| f[..10].try_into().ok()).collect();
    for own in dropped.iter().map(|placed| line(&placed.delta.sequence())) {
        if !lines.contains(&own) {
            lines.push(own);
        }
    }
    for (place, own) in lines.iter().enumerate() {
        let floor = sequence(own, right.get(own).copied().unwrap_or(0));
        put(image, FLOORS + 12 * place, &floor);
    }
}
