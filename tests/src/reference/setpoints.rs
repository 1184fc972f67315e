//! The 64 setpoints and the three operations on them.

use super::bytes::{i32_at, u8_at};
use super::message::{COMMAND, VALUE};

/// How many setpoints there are.
pub const COUNT: usize = 64;
/// One value for each tag.
pub type Setpoints = [i32; COUNT];

/// What a command did: its tag, and the tag's value from before and after.
#[derive(Clone, Copy, Debug, PartialEq, Eq)]
pub struct Change {
    pub tag: u8,
    pub before: i32,
    pub after: i32,
}

/// Runs commands of eight bytes, first to last, and gives back the setpoints and what
/// each command did.
pub fn run(commands: &[u8], setpoints: Setpoints) -> (Setpoints, Vec<Change>) {
    let mut setpoints = setpoints;
    let mut changes = Vec::with_capacity(commands.len() / COMMAND);
    for command in commands.chunks(COMMAND) {
        let (tag, value) = (u8_at(command, 1), i32_at(command, 4));
        if let Some(setpoint) = setpoints.get_mut(usize::from(tag)) {
            let before = *setpoint;
            let after = apply(u8_at(command, 0), before, value);
            *setpoint = after;
            changes.push(Change { tag, before, after });
        }
    }
    (setpoints, changes)
}

/// 1 sets, 2 adds and stops the sum at the limits, 3 raises if lower.
fn apply(operation: u8, old: i32, value: i32) -> i32 {
    match operation {
        1 => value,
        2 => old.saturating_add(value).clamp(-VALUE, VALUE),
        3 => old.max(value),
        _ => old,
    }
}
