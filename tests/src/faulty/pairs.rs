//! The faults of the steps' pairs: counts and image stay right.

use std::mem::swap;

use super::floors::without_base;
use super::Fault;
use crate::boundary::{Calls, Reference};
use crate::reference::bytes::{i32_at, u8_at};
use crate::reference::image::read_sized;
use crate::reference::message::COMMAND;
use crate::reference::order::Set;
use crate::reference::steps::{self, run_log, steps, Ran, Steps, STEP};

/// The image before and after a delivery.
pub type Images<'a> = (&'a [u8], &'a [u8]);

/// Makes the fault in the steps of an accepted delivery. `untouched` is the step buffer from
/// before.
pub fn spoil(fault: Fault, images: Images, untouched: &[u8], buffer: &mut [u8]) {
    match fault {
        Fault::BeforeForAfter => rewrite(images, buffer, |all, _| {
            let changes = every(all).flat_map(|ran| &mut ran.changes);
            changes.for_each(|c| swap(&mut c.before, &mut c.after));
        }),
        Fault::UndoFirstFirst => rewrite(images, buffer, |all, _| {
            all.undos.iter_mut().for_each(|ran| ran.changes.reverse());
        }),
        Fault::UndoSubtracts => rewrite(images, buffer, |all, set| {
            all.undos.iter_mut().for_each(|ran| subtract(set, ran));
        }),
        Fault::StillLeftOut => rewrite(images, buffer, |all, _| {
            every(all).for_each(|ran| ran.changes.retain(|c| c.before != c.after));
        }),
        Fault::BaseUnusedInSteps => from_zero(images, buffer),
        Fault::CountsEight => each_record(images, buffer, |record, _| record[3] = 8),
        Fault::UnusedNotCleared => each_record(images, buffer, |record, at| {
            let used = 16 + 8 * usize::from(record[3]);
            record[used..].copy_from_slice(&untouched[at + used..at + STEP]);
        }),
        _ => {}
    }
}

/// The steps between two images, and the set of the second.
fn steps_between<'a>(images: Images<'a>) -> Option<(Steps, Set<'a>)> {
    let ((_, old), (set, new)) = (read_sized(images.0).ok()?, read_sized(images.1).ok()?);
    Some((steps(&run_log(&old), &run_log(&new)), set))
}

/// Writes the steps between two logs that are run from zero.
fn from_zero(images: Images, buffer: &mut [u8]) {
    if let (Ok((_, old)), Ok((_, new))) = (read_sized(images.0), read_sized(images.1)) {
        let ran = |order| run_log(&without_base(order));
        steps::write(&steps(&ran(&old), &ran(&new)), buffer);
    }
}

/// The undos and the executions.
fn every(all: &mut Steps) -> impl Iterator<Item = &mut Ran> {
    all.undos.iter_mut().chain(&mut all.executions)
}

/// Writes the steps with a change to them.
fn rewrite(images: Images, buffer: &mut [u8], change: impl Fn(&mut Steps, &Set)) {
    if let Some((mut all, set)) = steps_between(images) {
        change(&mut all, &set);
        steps::write(&all, buffer);
    }
}

/// Changes each record as it was written, which begins at an offset.
fn each_record(images: Images, buffer: &mut [u8], change: impl Fn(&mut [u8], usize)) {
    if let Some((all, _)) = steps_between(images) {
        let count = all.undos.len() + all.executions.len();
        for (place, record) in buffer.chunks_mut(STEP).take(count).enumerate() {
            change(record, STEP * place);
        }
    }
}

/// What is restored by an addition is its result less what it added.
fn subtract(set: &Set, ran: &mut Ran) {
    let commands = set.get(&ran.sequence).map_or(&[][..], |d| d.commands());
    for (change, command) in ran.changes.iter_mut().zip(commands.chunks(COMMAND)) {
        if u8_at(command, 0) == 2 {
            change.before = change.after - i32_at(command, 4);
        }
    }
}

/// A delivery with a step buffer that lacks one byte; the last byte of a 127th step is lost.
pub fn with_short_room(image: &mut [u8], message: &[u8], buffer: &mut [u8]) -> u32 {
    let mut larger = buffer.to_vec();
    larger.push(0);
    let answer = Reference.deliver(image, message, &mut larger);
    buffer.copy_from_slice(&larger[..buffer.len()]);
    answer
}
