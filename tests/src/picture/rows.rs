//! The logs before and after an arrival, as two rows of boxes.

use std::collections::BTreeSet;

use super::arrival::Arrival;
use super::entry::{change, orders, Entry, Look, Tags};
use super::queue::needs;
use super::scene::Names;
use crate::view::{log, sequence_of};
use crate::wire::Sequence;

/// Both rows, with the heading.
#[derive(Clone, Debug, Default, PartialEq, Eq)]
pub struct Rows {
    pub title: String,
    pub about: Vec<String>,
    /// For each delta of the log before, its place in the log after. They ascend, so that lines
    /// from each delta to itself never cross.
    pub places: Vec<usize>,
    /// The log after.
    pub new: Vec<Entry>,
}

impl Rows {
    /// The rows of an arrival. An error where two deltas have changed places, where one is gone,
    /// or where one is there that neither arrived nor was held, and where the arrival is held.
    pub fn of(arrival: &Arrival, tags: &Tags) -> Result<Rows, String> {
        let (old, new) = (log(&arrival.before), log(&arrival.after));
        let mut names = ascending(old.iter().chain(&new));
        let places = places(&old, &new, &mut names)?;
        let messages = arrival.new();
        let parts = messages.iter().zip(orders(&messages));
        let entries = parts.enumerate().map(|(place, (message, order))| {
            let own = sequence_of(message);
            let name = names.name(&own);
            let look = arrival.look(place, &own);
            let look = look.ok_or_else(|| format!("{name} neither arrived nor was held"))?;
            let needs = needs(message).into_iter();
            let lacks = needs.filter(|need| !old.contains(need)).min();
            Ok(Entry {
                name,
                look,
                change: change(message, tags),
                order,
                lacks: lacks.map(|need| names.name(&need)),
            })
        });
        let rows = Rows {
            new: entries.collect::<Result<_, String>>()?,
            places,
            ..Rows::default()
        };
        rows.late()?;
        Ok(rows)
    }

    /// The place of the arrival in the log after.
    pub fn late(&self) -> Result<usize, String> {
        let late = self.new.iter().position(|entry| entry.look == Look::Late);
        late.ok_or_else(|| "what arrived is not in the log".to_string())
    }
}

/// Names whose letters ascend as the lines do.
fn ascending<'a>(all: impl Iterator<Item = &'a Sequence>) -> Names {
    let mut names = Names::default();
    for own in all.collect::<BTreeSet<_>>() {
        names.name(own);
    }
    names
}

/// The place in the new log of each delta of the old one, if they ascend.
fn places(old: &[Sequence], new: &[Sequence], names: &mut Names) -> Result<Vec<usize>, String> {
    let mut places: Vec<usize> = Vec::new();
    for (at, own) in old.iter().enumerate() {
        let place = new.iter().position(|other| other == own);
        let place = place.ok_or_else(|| format!("{} is gone", names.name(own)))?;
        if places.last() >= Some(&place) {
            let (one, two) = (names.name(&old[at - 1]), names.name(own));
            return Err(format!("{one} and {two} have changed places"));
        }
        places.push(place);
    }
    Ok(places)
}

#[cfg(test)]
mod tests {
    use super::Rows;
    use crate::picture::arrival::Arrival;
    use crate::picture::entry::Look;
    use crate::sketch::Sketch;
    use crate::wire::{line, Draft};

    fn draft(last: u8, number: u16) -> Draft {
        Draft::new(line(last), number)
    }

    /// The rows of logs that are put together by hand, where B1 comes and B2 was held.
    fn rows(old: &[Draft], new: &[Draft]) -> Result<Rows, String> {
        let before = Sketch {
            log: old.to_vec(),
            held: vec![draft(11, 2)],
            ..Sketch::default()
        };
        let after = Sketch {
            log: new.to_vec(),
            ..Sketch::default()
        };
        let arrival = Arrival {
            before: before.image(),
            message: draft(11, 1).bytes(),
            after: after.image(),
            undos: 1,
        };
        Rows::of(&arrival, &[])
    }

    #[test]
    fn equal_deltas_are_joined_where_they_stand() {
        let (a, b, c, d) = (draft(10, 1), draft(11, 1), draft(12, 1), draft(13, 1));
        let both = rows(&[a.clone(), c.clone()], &[a.clone(), b.clone(), c.clone()]);
        let both = both.expect("the order is kept");
        assert_eq!(both.places, [0, 2]);
        let looks: Vec<Look> = both.new.iter().map(|entry| entry.look).collect();
        assert_eq!(looks, [Look::Kept, Look::Late, Look::Again]);
        let freed = rows(&[c.clone()], &[b.clone(), draft(11, 2), c.clone()]);
        let freed = freed.expect("the order is kept");
        assert_eq!((freed.places, freed.new[1].look), (vec![2], Look::Freed));
        assert_eq!(freed.new[1].lacks.as_deref(), Some("A1"));
        for (old, new, error) in [
            (
                vec![&a, &c],
                vec![&c, &b, &a],
                "A1 and C1 have changed places",
            ),
            (
                vec![&a, &c, &d],
                vec![&a, &b, &d, &c],
                "C1 and D1 have changed places",
            ),
            (vec![&a, &c], vec![&a, &b], "C1 is gone"),
            (
                vec![&c],
                vec![&a, &b, &c],
                "A1 neither arrived nor was held",
            ),
            (vec![&a, &c], vec![&a, &c], "what arrived is not in the log"),
        ] {
            let owned = |all: Vec<&Draft>| all.into_iter().cloned().collect::<Vec<_>>();
            assert_eq!(rows(&owned(old), &owned(new)), Err(error.to_string()));
        }
    }
}
