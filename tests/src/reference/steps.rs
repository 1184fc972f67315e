//! The steps of a delivery: undo the old rest from its end, execute the new rest. Each
//! carries the values that its commands give or restore.

use super::bytes::put;
use super::message::Sequence;
use super::order::Order;
use super::setpoints::{run, Change};

/// Length of a step record.
pub const STEP: usize = 80;
/// The least size of a step buffer, 127 steps.
pub const BUFFER: usize = 10_160;
/// Offset of the sequence in a record.
const SEQUENCE: usize = 4;
/// Offset of the pairs in a record.
const PAIRS: usize = 16;
/// Length of a pair: tag and value, four bytes each.
const PAIR: usize = 8;

/// A delta as its log ran it: its sequence, and what each of its commands did.
#[derive(Clone, Debug, PartialEq, Eq)]
pub struct Ran {
    pub sequence: Sequence,
    pub changes: Vec<Change>,
}

/// The undos, then the executions, in the order they are played.
#[derive(Clone, Debug, PartialEq, Eq)]
pub struct Steps {
    pub undos: Vec<Ran>,
    pub executions: Vec<Ran>,
}

/// Runs a log on setpoints that are the base values at first.
pub fn run_log(order: &Order) -> Vec<Ran> {
    let mut setpoints = order.purged.base;
    let mut log = Vec::with_capacity(order.log.len());
    for placed in &order.log {
        let (after, changes) = run(placed.delta.commands(), setpoints);
        let sequence = placed.delta.sequence();
        log.push(Ran { sequence, changes });
        setpoints = after;
    }
    log
}

/// The steps from an old log to a new one, past their longest common start.
pub fn steps(old: &[Ran], new: &[Ran]) -> Steps {
    let places = old.iter().zip(new);
    let kept = places.take_while(|(o, n)| o.sequence == n.sequence).count();
    Steps {
        undos: old[kept..].iter().rev().cloned().collect(),
        executions: new[kept..].to_vec(),
    }
}

/// Writes the records at the front of the buffer and leaves the rest unchanged.
pub fn write(steps: &Steps, buffer: &mut [u8]) {
    let undos = steps.undos.iter().map(undo);
    let executions = steps.executions.iter().map(execution);
    for (place, record) in undos.chain(executions).enumerate() {
        put(buffer, STEP * place, &record);
    }
}

/// An undo lists the value restored by each command, the last command first.
fn undo(ran: &Ran) -> [u8; STEP] {
    let restored = ran.changes.iter().rev().map(|c| (c.tag, c.before));
    record(1, &ran.sequence, &restored.collect::<Vec<_>>())
}

/// An execution lists the value after each command.
fn execution(ran: &Ran) -> [u8; STEP] {
    let given = ran.changes.iter().map(|c| (c.tag, c.after));
    record(2, &ran.sequence, &given.collect::<Vec<_>>())
}

/// Kind, the count of pairs in bytes 1-3, the sequence, the pairs; unused pairs are zero.
fn record(kind: u8, sequence: &Sequence, pairs: &[(u8, i32)]) -> [u8; STEP] {
    let mut record = [0; STEP];
    put(&mut record, 0, &(pairs.len() as u32).to_be_bytes());
    put(&mut record, 0, &[kind]);
    put(&mut record, SEQUENCE, sequence);
    for (place, (tag, value)) in pairs.iter().enumerate() {
        let at = PAIRS + PAIR * place;
        put(&mut record, at, &u32::from(*tag).to_be_bytes());
        put(&mut record, at + 4, &value.to_be_bytes());
    }
    record
}
