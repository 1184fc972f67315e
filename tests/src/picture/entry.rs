//! A delta's box: its name, what it changes, and what orders it, each as the message says it.

use std::collections::BTreeMap;

use super::queue::needs;
use crate::view::{sequence_of, u32_at};
use crate::wire::Sequence;

/// Tags that have a word.
pub type Tags = [(u8, &'static str)];

/// How a delta stands to an arrival.
#[derive(Clone, Copy, Debug, PartialEq, Eq)]
pub enum Look {
    /// In both logs, and not undone.
    Kept,
    /// In both logs, undone and executed again.
    Again,
    /// The arrival itself.
    Late,
    /// Held before, and in the log after.
    Freed,
}

/// A box.
#[derive(Clone, Debug, PartialEq, Eq)]
pub struct Entry {
    pub name: String,
    pub look: Look,
    /// What it changes, where its tag has a word.
    pub change: Option<String>,
    /// What orders it.
    pub order: Vec<String>,
    /// Of a delta that was held: what was missing.
    pub lacks: Option<String>,
}

impl Entry {
    /// The small print: what it changes, and what orders it, or where it is held what it lacks.
    pub fn words(&self, held: bool) -> Vec<String> {
        let lacks = self.lacks.iter().map(|name| format!("needs {name}"));
        let change = self.change.iter().cloned();
        match held {
            true => change.chain(lacks).collect(),
            false => change.chain(self.order.iter().cloned()).collect(),
        }
    }
}

/// What a delta with one command changes: "gas = 420", "gas +20", "gas at least 420".
pub fn change(message: &[u8], tags: &Tags) -> Option<String> {
    let at = 40 + 12 * usize::from(message[2]);
    let (operation, tag) = (message[at], message[at + 1]);
    let (_, word) = tags.iter().find(|(own, _)| *own == tag)?;
    let value = u32_at(message, at + 4) as i32;
    (message[3] == 1).then(|| match operation {
        2 => format!("{word} {value:+}"),
        3 => format!("{word} at least {value}"),
        _ => format!("{word} = {value}"),
    })
}

/// What the key compares before the group: effective block, and the priority, if any.
type First = (u32, Option<u32>);

/// What orders each delta of a log that was never purged: its effective block if that is not 0,
/// its priority if it has one, and its group where another one has the same of both and another
/// group.
pub fn orders(log: &[Vec<u8>]) -> Vec<Vec<String>> {
    let mut blocks: BTreeMap<Sequence, u32> = BTreeMap::new();
    let mut firsts: Vec<First> = Vec::new();
    for message in log {
        let needed = needs(message).into_iter();
        let needed = needed.filter_map(|need| blocks.get(&need).copied());
        let block = needed.fold(u32_at(message, 28), u32::max);
        blocks.insert(sequence_of(message), block);
        firsts.push((block, (message[1] == 1).then(|| u32_at(message, 32))));
    }
    let group = |place: usize| u32_at(&log[place], 24);
    let words = |place: usize| {
        let (block, priority) = firsts[place];
        let mut rivals = (0..log.len()).filter(|other| firsts[*other] == firsts[place]);
        let matters = rivals.any(|other| group(other) != group(place));
        let block = (block > 0).then(|| format!("block {block}"));
        let priority = priority.map(|priority| format!("priority {priority}"));
        let group = matters.then(|| format!("group {}", group(place)));
        block.into_iter().chain(priority).chain(group).collect()
    };
    (0..log.len()).map(words).collect()
}

#[cfg(test)]
mod tests {
    use super::{change, orders};
    use crate::wire::{add, line, raise, set, Command, Draft};

    /// C2 has no priority, and the block of C1, which it needs. The groups of A1 and B1 matter, and
    /// those of C1 and D1; that of C2 does not.
    #[test]
    fn what_orders_is_told_where_it_matters() {
        let draft = |last, number| Draft::new(line(last), number);
        let log = [
            draft(10, 1),
            draft(11, 1).group(2),
            draft(12, 1).priority(1, 5),
            draft(13, 1).priority(1, 5).group(3),
            draft(14, 1).priority(1, 0).group(2),
            draft(12, 2),
        ];
        let log: Vec<Vec<u8>> = log.iter().map(Draft::bytes).collect();
        let told: Vec<String> = orders(&log).iter().map(|words| words.join(" ")).collect();
        assert_eq!(
            told,
            [
                "group 1",
                "group 2",
                "block 1 priority 5 group 1",
                "block 1 priority 5 group 3",
                "block 1 priority 0",
                "block 1"
            ]
        );
    }

    #[test]
    fn a_change_is_told_where_its_tag_has_a_word() {
        let of = |commands: &[Command]| {
            let draft = Draft::new(line(11), 1).naming(&[[1; 12]]);
            change(&draft.commands(commands).bytes(), &[(3, "gas")])
        };
        assert_eq!(of(&[set(3, -4)]).as_deref(), Some("gas = -4"));
        assert_eq!(of(&[add(3, 4)]).as_deref(), Some("gas +4"));
        assert_eq!(of(&[add(3, -4)]).as_deref(), Some("gas -4"));
        assert_eq!(of(&[raise(3, 4)]).as_deref(), Some("gas at least 4"));
        assert_eq!(of(&[set(4, 4)]), None);
        assert_eq!(of(&[set(3, 4), set(3, 5)]), None);
    }
}
