//! What is drawn of a run: a lane for each station with marks at times, bars for what waits,
//! and flights from lane to lane.

use std::collections::BTreeMap;

use super::queue::Queued;
use crate::wire::{Line, Sequence};

/// A mark in a lane; where a delta is meant, with its name.
#[derive(Clone, Debug, PartialEq, Eq)]
pub enum Mark {
    Composed,
    /// With a name where the delta was not composed just before.
    Sent(String),
    Arrived,
    Refused(String),
    Restarted,
    Lost(String),
    Held(String),
    /// In the old queue, behind another.
    Behind(String),
    Executed(String),
    Undone(String),
}

/// The place of a mark: its lane, its time, and which of the marks there.
#[derive(Clone, Copy, Debug, PartialEq, Eq)]
pub struct Spot {
    pub lane: usize,
    pub time: usize,
    pub place: usize,
}

/// What a line of words under the marks of a lane says.
#[derive(Clone, Copy, Debug, PartialEq, Eq)]
pub enum Kind {
    /// A bar: held, because something that it needs is missing.
    Waits,
    /// A bar: it lacks nothing and stands behind another.
    Behind,
    /// Words alone.
    Good,
}

/// A bar or words under the marks, from one mark to another or to the end.
#[derive(Clone, Debug, PartialEq, Eq)]
pub struct Bar {
    pub kind: Kind,
    pub words: String,
    pub from: Spot,
    pub to: Option<Spot>,
}

/// A message on its way.
#[derive(Clone, Copy, Debug, PartialEq, Eq)]
pub struct Flight {
    pub from: Spot,
    pub to: Spot,
    pub lost: bool,
}

/// A station, or the old queue.
#[derive(Clone, Debug, Default, PartialEq, Eq)]
pub struct Lane {
    pub name: String,
    pub about: String,
    pub old: bool,
    pub marks: BTreeMap<usize, Vec<Mark>>,
    pub bars: Vec<Bar>,
}

impl Lane {
    /// A lane in which nothing is yet.
    pub fn new(name: &str, about: &str) -> Lane {
        Lane {
            name: name.to_string(),
            about: about.to_string(),
            ..Lane::default()
        }
    }
}

/// The whole drawing.
#[derive(Clone, Debug, Default, PartialEq, Eq)]
pub struct Scene {
    pub title: String,
    pub about: Vec<String>,
    pub lanes: Vec<Lane>,
    pub flights: Vec<Flight>,
    pub names: Names,
}

/// Names of deltas: a letter for each line, in the order in which they are met, and the
/// number. Lines past the 52nd have a letter twice.
#[derive(Clone, Debug, Default, PartialEq, Eq)]
pub struct Names(Vec<Line>);

impl Names {
    pub fn name(&mut self, sequence: &Sequence) -> String {
        let mut own: Line = [0; 10];
        own.copy_from_slice(&sequence[..10]);
        let known = self.0.iter().position(|line| *line == own);
        let place = known.unwrap_or_else(|| {
            self.0.push(own);
            self.0.len() - 1
        });
        let letter = ('A'..='Z').chain('a'..='z').cycle().nth(place);
        let letters: String = letter.into_iter().cycle().take(1 + place / 52).collect();
        let number = u16::from_be_bytes([sequence[10], sequence[11]]);
        format!("{letters}{number}")
    }
}

impl Scene {
    /// Puts a mark into a lane.
    pub fn mark(&mut self, lane: usize, time: usize, mark: Mark) -> Spot {
        let marks = self.lanes[lane].marks.entry(time).or_default();
        marks.push(mark);
        let place = marks.len() - 1;
        Spot { lane, time, place }
    }

    /// Puts words or an open bar under a mark.
    pub fn bar(&mut self, kind: Kind, words: String, from: Spot) -> usize {
        let bars = &mut self.lanes[from.lane].bars;
        let to = None;
        bars.push(Bar {
            kind,
            words,
            from,
            to,
        });
        bars.len() - 1
    }

    /// The first mark of that kind in a lane.
    pub fn find(&self, lane: usize, wanted: &Mark) -> Option<Spot> {
        let mut cells = self.lanes[lane].marks.iter();
        cells.find_map(|(time, marks)| {
            let place = marks.iter().position(|mark| mark == wanted)?;
            let time = *time;
            Some(Spot { lane, time, place })
        })
    }

    /// A lane for what the old single queue makes of the same arrivals.
    pub fn add_queue(&mut self, lane: Lane, queued: &[Queued]) {
        let at = self.lanes.len();
        self.lanes.push(lane);
        let mut open = Vec::new();
        for own in queued {
            let name = self.names.name(&own.sequence);
            self.mark(at, own.arrived, Mark::Arrived);
            if own.executed == Some(own.arrived) {
                continue;
            }
            let (kind, mark, words) = match own.lacked {
                true => (Kind::Waits, Mark::Held(name.clone()), "waits"),
                false => (Kind::Behind, Mark::Behind(name.clone()), "stands behind it"),
            };
            let spot = self.mark(at, own.arrived, mark);
            let bar = self.bar(kind, format!("{name} {words}"), spot);
            open.push((own.sequence, bar));
        }
        for own in order_of(queued) {
            let name = self.names.name(&own.sequence);
            let executed = own.executed.unwrap_or(own.arrived);
            let spot = self.mark(at, executed, Mark::Executed(name));
            if let Some((_, bar)) = open.iter().find(|(sequence, _)| *sequence == own.sequence) {
                self.lanes[at].bars[*bar].to = Some(spot);
            }
        }
    }
}

/// What the queue executed, by time, and what was waited for before the rest.
fn order_of(queued: &[Queued]) -> Vec<Queued> {
    let mut order: Vec<Queued> = queued.to_vec();
    order.retain(|own| own.executed.is_some());
    order.sort_by_key(|own| {
        (
            own.executed,
            own.arrived != own.executed.unwrap_or(0),
            own.arrived,
        )
    });
    order
}
