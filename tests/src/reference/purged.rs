//! What purging leaves of the deltas that it dropped: floors, base values, block and group.

use std::collections::BTreeMap;

use super::message::{line, number, Line, Sequence};
use super::setpoints::{Setpoints, COUNT};

/// The purged part of a station. Nothing was purged where it has no floor.
#[derive(Clone, Debug, PartialEq, Eq)]
pub struct Purged {
    /// The highest purged number of each line that has one.
    pub floors: BTreeMap<Line, u16>,
    /// The setpoints after the purged deltas, from which the log is run.
    pub base: Setpoints,
    /// The greatest purged effective block.
    pub block: u32,
    /// The greatest purged group.
    pub group: u32,
}

impl Purged {
    /// Nothing purged: no floor, and all else zero.
    pub fn nothing() -> Purged {
        Purged {
            floors: BTreeMap::new(),
            base: [0; COUNT],
            block: 0,
            group: 0,
        }
    }

    /// The line's floor, 0 where it has none.
    pub fn floor(&self, line: &Line) -> u16 {
        self.floors.get(line).copied().unwrap_or(0)
    }

    /// Whether a sequence is at or below its floor.
    pub fn has(&self, sequence: &Sequence) -> bool {
        number(sequence) <= self.floor(&line(sequence))
    }
}
