//! "A late arrival only squeezes in": two deltas that were both in the log before a delivery stand
//! in the same order to each other after it. Asked of the step records alone, or of the logs before
//! and after; nothing here knows a key.

use std::fmt::{self, Display, Formatter};

use crate::boundary::{executions, undos};
use crate::call::hex;
use crate::view::{steps, Step};
use crate::wire::Sequence;

/// Why a delivery does not keep the order.
#[derive(Clone, Debug, PartialEq, Eq)]
pub enum Broken {
    /// The records are not so many undos and then so many executions.
    Records { undos: usize, executions: usize },
    /// What stood so before, and how the same stand after.
    Order {
        before: Vec<Sequence>,
        after: Vec<Sequence>,
    },
}

impl Display for Broken {
    fn fmt(&self, f: &mut Formatter<'_>) -> fmt::Result {
        match self {
            Broken::Records { undos, executions } => {
                write!(f, "not {undos} undos, then {executions} executions")
            }
            Broken::Order { before, after } => write!(
                f,
                "order not kept: {} before, {} after",
                words(before),
                words(after)
            ),
        }
    }
}

/// Sequences with blanks between.
fn words(sequences: &[Sequence]) -> String {
    let words: Vec<String> = sequences.iter().map(|own| hex(own)).collect();
    words.join(" ")
}

/// Of a delivery's answer and step buffer: what is undone is executed again, in the same order. The
/// last undone stood first.
pub fn by_steps(answer: impl Into<u64>, buffer: &[u8]) -> Result<(), Broken> {
    let answer = answer.into();
    let (undos, executions) = (undos(answer), executions(answer));
    let all = steps(buffer, undos, executions).ok_or(Broken::Records { undos, executions })?;
    let (undone, executed) = all.split_at(undos);
    let sequence = |step: &Step| step.sequence;
    let before: Vec<Sequence> = undone.iter().rev().map(sequence).collect();
    let executed: Vec<Sequence> = executed.iter().map(sequence).collect();
    let after = others_left_out(&executed, &before);
    match before == after {
        true => Ok(()),
        false => Err(Broken::Order { before, after }),
    }
}

/// Of the logs before and after a delivery: both forms below.
pub fn by_logs(old: &[Sequence], new: &[Sequence]) -> Result<(), Broken> {
    match pairs_stand(old, new) && is_what_is_left(old, new) {
        true => Ok(()),
        false => Err(Broken::Order {
            before: old.to_vec(),
            after: others_left_out(new, old),
        }),
    }
}

/// For every two sequences of the old log: one stands before the other in the new log exactly if it
/// did in the old one.
pub fn pairs_stand(old: &[Sequence], new: &[Sequence]) -> bool {
    let places = |log: &[Sequence]| old.iter().map(|own| places(log, own)).collect();
    let (then, now): (Vec<Places>, Vec<Places>) = (places(old), places(new));
    let same = |one, two| stands_before(&now, one, two) == stands_before(&then, one, two);
    let all = 0..old.len();
    all.clone().all(|one| all.clone().all(|two| same(one, two)))
}

/// The first and the last place of a sequence in a log, if it is there.
type Places = Option<(usize, usize)>;

fn places(log: &[Sequence], own: &Sequence) -> Places {
    let first = log.iter().position(|other| other == own)?;
    let last = log.iter().rposition(|other| other == own)?;
    Some((first, last))
}

/// Whether one stands at a place before one of the other.
fn stands_before(all: &[Places], one: usize, two: usize) -> bool {
    matches!((all[one], all[two]), (Some((first, _)), Some((_, last))) if first < last)
}

/// The stronger form: the old log is the new log with the others left out.
pub fn is_what_is_left(old: &[Sequence], new: &[Sequence]) -> bool {
    others_left_out(new, old) == old
}

/// A log with all left out that are not among these.
fn others_left_out(log: &[Sequence], these: &[Sequence]) -> Vec<Sequence> {
    let left = log.iter().filter(|own| these.contains(own));
    left.copied().collect()
}
