//! The old single queue: messages are executed in the order in which they arrived. The first
//! one waits until all that it needs is executed, and all others stand behind it. What the
//! first one waits for goes before it when it comes.

use crate::view::sequence_of;
use crate::wire::{sequence, Line, Sequence};

/// What became of an arrival.
#[derive(Clone, Copy, Debug, PartialEq, Eq)]
pub struct Queued {
    pub sequence: Sequence,
    pub arrived: usize,
    pub executed: Option<usize>,
    /// Whether something that it needs was not there; else it only stood behind others.
    pub lacked: bool,
}

/// What a message needs: the dependencies that it names, and its predecessor.
pub fn needs(message: &[u8]) -> Vec<Sequence> {
    let named = message[40..40 + 12 * usize::from(message[2])].chunks(12);
    let mut needs: Vec<Sequence> = named.filter_map(|part| part.try_into().ok()).collect();
    let own = sequence_of(message);
    let number = u16::from_be_bytes([own[10], own[11]]);
    let line: Option<Line> = own[..10].try_into().ok();
    if let (Some(line), true) = (line, number > 1) {
        needs.push(sequence(line, number - 1));
    }
    needs
}

/// The queue over arrivals: time and message.
pub fn single_queue(arrivals: &[(usize, Vec<u8>)]) -> Vec<Queued> {
    let mut all: Vec<Queued> = Vec::new();
    for (time, message) in arrivals {
        let present = |need: &Sequence| all.iter().any(|queued| queued.sequence == *need);
        all.push(Queued {
            sequence: sequence_of(message),
            arrived: *time,
            executed: None,
            lacked: !needs(message).iter().all(present),
        });
        while let Some(next) = next(&all, arrivals) {
            all[next].executed = Some(*time);
        }
    }
    all
}

/// The place of what is executed next: the first that waits, or what that one waits for.
fn next(all: &[Queued], arrivals: &[(usize, Vec<u8>)]) -> Option<usize> {
    let mut place = all.iter().position(|queued| queued.executed.is_none())?;
    // Each step goes to a need, and there are no more needs than messages.
    for _ in 0..all.len() {
        let find = |need: &Sequence| all.iter().position(|queued| queued.sequence == *need);
        let unmet = needs(&arrivals[place].1)
            .into_iter()
            .find(|need| find(need).map_or(true, |at| all[at].executed.is_none()));
        match unmet {
            None => return Some(place),
            Some(need) => place = find(&need)?,
        }
    }
    None
}

#[cfg(test)]
mod tests {
    use super::{single_queue, Queued};
    use crate::wire::{line, Draft};

    /// B1 stands behind A2, which waits for A1. When A1 comes it goes first.
    #[test]
    fn all_stand_behind_the_first() {
        let draft = |last, number| Draft::new(line(last), number);
        let drafts = [draft(10, 2), draft(11, 1), draft(10, 1), draft(12, 1)];
        let arrivals: Vec<_> = (1..).zip(drafts.iter().map(Draft::bytes)).collect();
        let queued = |place: usize, executed, lacked| Queued {
            sequence: drafts[place].sequence(),
            arrived: place + 1,
            executed,
            lacked,
        };
        assert_eq!(
            single_queue(&arrivals[..2]),
            [queued(0, None, true), queued(1, None, false)]
        );
        assert_eq!(
            single_queue(&arrivals),
            [
                queued(0, Some(3), true),
                queued(1, Some(3), false),
                queued(2, Some(3), false),
                queued(3, Some(4), false)
            ]
        );
    }
}
