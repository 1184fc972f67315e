//! The same list of calls to two implementations, compared byte for byte, and the
//! shortest list that still shows a difference. What the second one delivers must keep the order
//! of the log too, by its steps alone; a break of it is shown as a difference is.

use std::fmt::Write;

use crate::boundary::{code, executions, length, offset, undos, value, Calls};
use crate::call::{hex, Action, Call, Outcome, View, World};
use crate::order_kept::by_steps;
use crate::view::u16_at;

/// Where two implementations part, and in what.
#[derive(Clone, Debug, PartialEq, Eq)]
pub struct Difference {
    /// The place of the call in its list.
    pub place: usize,
    pub what: String,
}

/// Makes the calls on both, each time from the same station, up to a difference.
pub fn compare(one: &dyn Calls, two: &dyn Calls, calls: &[Call]) -> Option<Difference> {
    compare_from(World::default(), one, two, calls)
}

/// The same, from a station as earlier calls left it.
fn compare_from(
    mut world: World,
    one: &dyn Calls,
    two: &dyn Calls,
    calls: &[Call],
) -> Option<Difference> {
    for (place, call) in calls.iter().enumerate() {
        let first = world.perform(one, call);
        let second = world.perform(two, call);
        if let Some(what) = found(call, &first, &second) {
            return Some(Difference { place, what });
        }
        world.follow(call, &first);
    }
    None
}

/// What differs; or where nothing does, how a delivery by the second breaks the order of the log.
fn found(call: &Call, one: &Outcome, two: &Outcome) -> Option<String> {
    difference(one, two).or_else(|| {
        let checked = call.action.delivers();
        let kept = checked.then(|| by_steps(two.answer, &two.buffer));
        kept?.err().map(|broken| broken.to_string())
    })
}

/// What differs, in words: the answers, or the first byte of a buffer, also of one that
/// the call only reads.
pub fn difference(one: &Outcome, two: &Outcome) -> Option<String> {
    if one.answer != two.answer {
        return Some(format!("answers {:#x} and {:#x}", one.answer, two.answer));
    }
    for ((name, first), (_, second)) in one.buffers().into_iter().zip(two.buffers()) {
        for (at, (a, b)) in first.iter().zip(second).enumerate() {
            if a != b {
                return Some(format!("{name} byte {at}: {a:02X} and {b:02X}"));
            }
        }
        if first.len() != second.len() {
            return Some(format!("{name} of {} and {}", first.len(), second.len()));
        }
    }
    None
}

/// The list with its composed messages written out, so that a delivery no longer
/// hangs on the compose before it.
fn spelled_out(calls: &dyn Calls, list: &[Call]) -> Vec<Call> {
    let mut world = World::default();
    let mut spelled = Vec::new();
    for call in list {
        spelled.push(world.spelled_out(call));
        let outcome = world.perform(calls, call);
        world.follow(call, &outcome);
    }
    spelled
}

/// A short list that still differs. Both the list as it is and the list spelled out
/// are shrunk, and the shorter is taken.
pub fn shrink(one: &dyn Calls, two: &dyn Calls, calls: &[Call]) -> Vec<Call> {
    let as_it_is = drop_calls(one, two, calls.to_vec());
    let hangs = |call: &Call| matches!(call.action, Action::DeliverComposed { .. });
    if !calls.iter().any(hangs) {
        return as_it_is;
    }
    let spelled = spelled_out(one, calls);
    if compare(one, two, &spelled).is_none() {
        return as_it_is;
    }
    let spelled = drop_calls(one, two, spelled);
    if spelled.len() <= as_it_is.len() {
        spelled
    } else {
        as_it_is
    }
}

/// Drops calls while the lists still differ: first all past the difference, then
/// runs of calls, each half as long as the last, down to single ones. Where none can be
/// dropped, purges are made smaller.
fn drop_calls(one: &dyn Calls, two: &dyn Calls, mut kept: Vec<Call>) -> Vec<Call> {
    let mut run = kept.len();
    while run > 0 {
        match compare(one, two, &kept) {
            Some(found) => kept.truncate(found.place + 1),
            None => return kept,
        }
        let dropped = drop_runs(one, two, &mut kept, run);
        let at_last = run == 1 && !dropped;
        if run > 1 || (at_last && !lower_purges(one, two, &mut kept)) {
            run /= 2;
        }
    }
    kept
}

/// Makes each purge as small as the lists still differ; whether one became smaller.
fn lower_purges(one: &dyn Calls, two: &dyn Calls, kept: &mut Vec<Call>) -> bool {
    let before = kept.clone();
    let mut place = 0;
    while place < kept.len() {
        if !lower_purge(one, two, kept, place) {
            place += 1;
        }
    }
    *kept != before
}

/// Makes a purge of K one of half of it or of one less, if the lists differ then.
fn lower_purge(one: &dyn Calls, two: &dyn Calls, kept: &mut Vec<Call>, place: usize) -> bool {
    let k = match kept[place].action {
        Action::Purge(k) => k,
        _ => return false,
    };
    for lower in [k / 2, k.saturating_sub(1)] {
        let mut other = kept.clone();
        other[place].action = Action::Purge(lower);
        let found = (lower < k).then(|| compare(one, two, &other)).flatten();
        if let Some(found) = found {
            other.truncate(found.place + 1);
            *kept = other;
            return true;
        }
    }
    false
}

/// Drops each run of calls without which there is a difference still. The station before
/// the run is carried along: up to there nothing differs.
fn drop_runs(one: &dyn Calls, two: &dyn Calls, kept: &mut Vec<Call>, run: usize) -> bool {
    let mut dropped = false;
    let mut world = World::default();
    let mut start = 0;
    while start < kept.len() {
        let end = (start + run).min(kept.len());
        match rest_that_differs(&world, one, two, &kept[end..]) {
            Some(rest) => {
                kept.truncate(start);
                kept.extend(rest);
                dropped = true;
            }
            None => {
                for call in &kept[start..end] {
                    let outcome = world.perform(one, call);
                    world.follow(call, &outcome);
                }
                start = end;
            }
        }
    }
    dropped
}

/// The calls up to a difference, as they are or with their purges fitted to shorter logs.
fn rest_that_differs(
    world: &World,
    one: &dyn Calls,
    two: &dyn Calls,
    rest: &[Call],
) -> Option<Vec<Call>> {
    if let Some(found) = compare_from(world.clone(), one, two, rest) {
        return Some(rest[..=found.place].to_vec());
    }
    let mut fitted = fitted(world.clone(), one, rest);
    if fitted == rest {
        return None;
    }
    let found = compare_from(world.clone(), one, two, &fitted)?;
    fitted.truncate(found.place + 1);
    Some(fitted)
}

/// The calls with each purge of the station that exceeds its log cut to it: a log loses what is
/// left out before.
fn fitted(mut world: World, calls: &dyn Calls, list: &[Call]) -> Vec<Call> {
    let mut fitted = list.to_vec();
    for call in &mut fitted {
        if let (Action::Purge(k), View::Station) = (&mut call.action, &call.view) {
            *k = (*k).min(u16_at(&world.image, 0) as u32);
        }
        let outcome = world.perform(calls, call);
        world.follow(call, &outcome);
    }
    fitted
}

/// The report of a difference: the seed and the shortest list found.
pub fn report(one: &dyn Calls, two: &dyn Calls, seed: u64, calls: &[Call]) -> String {
    report_of(one, two, seed, &shrink(one, two, calls))
}

/// The report of a list that is short already.
pub fn report_of(one: &dyn Calls, two: &dyn Calls, seed: u64, short: &[Call]) -> String {
    let mut text = format!("seed {seed} differs; {} calls show it:\n", short.len());
    text += &trace(one, two, short);
    text
}

/// Each call of a list with both answers, up to a difference.
pub fn trace(one: &dyn Calls, two: &dyn Calls, calls: &[Call]) -> String {
    let mut text = String::new();
    let mut world = World::default();
    for (place, call) in calls.iter().enumerate() {
        let first = world.perform(one, call);
        let second = world.perform(two, call);
        let _ = writeln!(text, "{place}: {}", describe(call));
        let _ = writeln!(text, "    one: {}", answer(call, first.answer));
        if let Some(what) = found(call, &first, &second) {
            let _ = writeln!(text, "    two: {}", answer(call, second.answer));
            let _ = writeln!(text, "    difference: {what}");
            break;
        }
        world.follow(call, &first);
    }
    text
}

/// A packed answer taken apart.
fn answer(call: &Call, packed: u64) -> String {
    let parts = match call.action {
        Action::Empty | Action::Begin(_) | Action::Purge(_) => String::new(),
        Action::Compose(_) | Action::ReadSequences { .. } | Action::WriteSequences { .. } => {
            format!(" length {}", length(packed))
        }
        Action::Deliver { .. } | Action::DeliverComposed { .. } => {
            let (undone, executed) = (undos(packed), executions(packed));
            format!(" undos {undone} executions {executed}")
        }
        Action::Setpoint(_) => format!(" value {}", value(packed)),
        Action::LogMessage(_) => {
            format!(" length {} offset {}", length(packed), offset(packed))
        }
    };
    format!("code {}{parts}", code(packed))
}

/// A call with its arguments.
fn describe(call: &Call) -> String {
    let action = match &call.action {
        Action::Deliver { message, steps } => {
            format!("Deliver steps {steps} message {}", hex(message))
        }
        Action::Begin(image) => {
            let used = image.iter().rposition(|byte| *byte != 0);
            format!("Begin {}", hex(&image[..used.map_or(0, |last| last + 1)]))
        }
        Action::Compose(composing) => composing.to_string(),
        Action::ReadSequences { text, room } => {
            format!("ReadSequences room {room} text {}", text.escape_ascii())
        }
        Action::WriteSequences { sequences, room } => {
            format!("WriteSequences room {room} sequences {}", hex(sequences))
        }
        other => format!("{other:?}"),
    };
    format!("{:?} {action}", call.view)
}
