//! Programs that come close by a rule of their own for the log, or for what an undo restores.
//! Each keeps to its rule in image, steps and counts alike.

use std::collections::BTreeSet;

use super::{late, narrow, write_setpoints, Fault};
use crate::reference::bytes::{i32_at, u8_at};
use crate::reference::code::Code;
use crate::reference::image::{self, listed, read_sized, SIZE};
use crate::reference::message::{Delta, Sequence, COMMAND};
use crate::reference::order::{key, order, Order, Placed, Set};
use crate::reference::purged::Purged;
use crate::reference::setpoints::{run, Setpoints};
use crate::reference::station::is_new;
use crate::reference::steps::{self, run_log, steps, Ran, Steps};
use crate::view;

/// Whether the fault is one of these.
pub fn has_own_rule(fault: Fault) -> bool {
    let own = [
        Fault::HoldsAll,
        Fault::KeyAlone,
        Fault::WaitsBehindHeld,
        Fault::Subtracts,
        Fault::PurgedJoins,
    ];
    own.contains(&fault) || narrow::orders(fault) || late::orders(fault)
}

/// A delivery by the fault's rule.
pub fn deliver(
    fault: Fault,
    image: &mut [u8],
    message: &[u8],
    buffer: &mut [u8],
) -> Result<u32, Code> {
    if image.len() != SIZE || buffer.len() < steps::BUFFER {
        return Err(Code::Size);
    }
    let before = image.to_vec();
    let (mut set, old) = read_own(fault, &before)?;
    let delta = Delta::check(message)?;
    let purged = old.purged.has(&delta.sequence()) && fault != Fault::PurgedJoins;
    if purged || !is_new(&set, &delta)? {
        return Ok(0);
    }
    set.insert(delta.sequence(), delta);
    let new = arranged(fault, &set, &old.purged, &old.log_sequences());
    let mut all = steps(&run_log(&old), &run_log(&new));
    image.copy_from_slice(&image::write(&new));
    if fault == Fault::Subtracts {
        let setpoints = subtract(&set, view::values(&before), &mut all);
        write_setpoints(image, &setpoints);
    }
    steps::write(&all, buffer);
    Ok(counts(&all))
}

/// The answer that counts these steps.
pub fn counts(all: &Steps) -> u32 {
    256 * all.undos.len() as u32 + 65_536 * all.executions.len() as u32
}

/// Reads an image that the fault's rule gives.
fn read_own(fault: Fault, image: &[u8]) -> Result<(Set<'_>, Order<'_>), Code> {
    if fault == Fault::Subtracts {
        return read_sized(image);
    }
    let (set, purged) = listed(image).ok_or(Code::Image)?;
    let order = arranged(fault, &set, &purged, &view::log(image));
    match image::write(&order) == image {
        true => Ok((set, order)),
        false => Err(Code::Image),
    }
}

/// The log and the held ones of a set, as the fault's rule has them where this log was before.
fn arranged<'a>(fault: Fault, set: &Set<'a>, purged: &Purged, before: &[Sequence]) -> Order<'a> {
    let mut right = order(set, purged);
    match fault {
        Fault::HoldsAll => Order {
            log: Vec::new(),
            held: set.values().copied().collect(),
            purged: purged.clone(),
        },
        Fault::KeyAlone => {
            right.log.sort_by_key(key);
            right
        }
        Fault::WaitsBehindHeld => waiting(set, right, before),
        fault if narrow::orders(fault) => narrow::arrange(fault, set, purged),
        fault if late::orders(fault) => late::arrange(fault, right, before),
        _ => right,
    }
}

/// As long as a delta is held, one that came later and that no held one needs waits too.
fn waiting<'a>(set: &Set<'a>, right: Order<'a>, before: &[Sequence]) -> Order<'a> {
    if right.held.is_empty() {
        return right;
    }
    let needed = needed(set, &right.held);
    let runs = |placed: &Placed| {
        let sequence = placed.delta.sequence();
        before.contains(&sequence) || needed.contains(&sequence)
    };
    let (log, late): (Vec<Placed>, Vec<Placed>) = right.log.into_iter().partition(runs);
    let mut held = right.held;
    held.extend(late.iter().map(|placed| placed.delta));
    held.sort_by_key(Delta::sequence);
    Order {
        log,
        held,
        purged: right.purged,
    }
}

/// What these deltas need, and what that needs, of a set.
fn needed(set: &Set, held: &[Delta]) -> BTreeSet<Sequence> {
    let mut needed = BTreeSet::new();
    let mut open: Vec<Sequence> = held.iter().flat_map(Delta::needs).collect();
    while let Some(sequence) = open.pop() {
        if needed.insert(sequence) {
            open.extend(set.get(&sequence).into_iter().flat_map(Delta::needs));
        }
    }
    needed
}

/// Undoes each addition by subtracting, and executes from what that leaves.
fn subtract(set: &Set, before: Setpoints, all: &mut Steps) -> Setpoints {
    let mut setpoints = before;
    for ran in &mut all.undos {
        take_back(commands(set, ran), ran, &mut setpoints);
    }
    for ran in &mut all.executions {
        (setpoints, ran.changes) = run(commands(set, ran), setpoints);
    }
    setpoints
}

/// The commands of a delta that ran.
fn commands<'a>(set: &Set<'a>, ran: &Ran) -> &'a [u8] {
    set.get(&ran.sequence).map_or(&[], Delta::commands)
}

/// Undoes a delta's commands, the last one first.
fn take_back(commands: &[u8], ran: &mut Ran, setpoints: &mut Setpoints) {
    let ran = ran.changes.iter_mut().zip(commands.chunks(COMMAND));
    for (change, command) in ran.rev() {
        let setpoint = &mut setpoints[usize::from(change.tag)];
        if u8_at(command, 0) == 2 {
            change.before = *setpoint - i32_at(command, 4);
        }
        *setpoint = change.before;
    }
}
