//! Tells the events of a plant as marks, bars and flights.

use std::collections::BTreeMap;
use std::mem::discriminant;

use super::scene::{Flight, Kind, Lane, Mark, Scene, Spot};
use crate::plant::{Event, What};
use crate::wire::Sequence;

/// How many steps of a kind have their names, in a row.
const NAMED: usize = 6;

/// What a station has, as the events tell it: its log, and what is held with the bar of each.
#[derive(Clone, Debug, Default)]
struct Known {
    log: Vec<Sequence>,
    held: BTreeMap<Sequence, usize>,
}

/// The scene as it grows, and what has to be known for it.
struct Teller {
    scene: Scene,
    known: Vec<Known>,
    saved: Vec<Known>,
    /// How many steps the last mark of each station counts.
    counted: Vec<usize>,
    /// The delta that was composed last, and where.
    composed: Option<(usize, Sequence)>,
    /// Messages on their way: from where, to which lane, and which.
    flying: Vec<(Spot, usize, Sequence)>,
}

/// The scene of some events over lanes in which nothing is yet.
pub fn tell(lanes: Vec<Lane>, events: &[Event]) -> Scene {
    let known = vec![Known::default(); lanes.len()];
    let mut teller = Teller {
        scene: Scene::default(),
        saved: known.clone(),
        counted: vec![0; lanes.len()],
        known,
        composed: None,
        flying: Vec::new(),
    };
    teller.scene.lanes = lanes;
    for (place, event) in events.iter().enumerate() {
        let next = events.get(place + 1).map(|event| &event.what);
        let steps = matches!(next, Some(What::Undone(..) | What::Executed(..)));
        teller.event(event, steps);
    }
    teller.scene
}

impl Teller {
    /// One event; for a delivery, whether steps follow.
    fn event(&mut self, event: &Event, steps: bool) {
        let time = event.time;
        match &event.what {
            What::Composed(at, own, _) => {
                self.composed = Some((*at, *own));
                self.scene.mark(*at, time, Mark::Composed);
            }
            What::Delivered(at, own, code) => self.delivered(*at, time, own, *code, steps),
            What::Undone(at, own) => {
                self.known[*at].log.pop();
                self.step(*at, time, own, Mark::Undone);
            }
            What::Executed(at, own) => self.executed(*at, time, own),
            What::Sent(from, to, own) => self.sent(*from, *to, time, own),
            What::Lost(to, own) => {
                let name = self.scene.names.name(own);
                let spot = self.scene.mark(*to, time, Mark::Lost(name));
                self.land(spot, own, true);
            }
            What::Saved(at) => self.saved[*at] = self.known[*at].clone(),
            What::Restarted(at) => self.restarted(*at, time),
            What::NotComposed(..) | What::Sides(_) | What::Exchange => {}
            // A picture is of the hazard of crashes alone.
            What::Cut(..) | What::BackedUp(_) | What::Restored(_) => {}
            What::Cloned(..) | What::Damaged(..) => {}
            What::Purged(..) | What::NotPurged(..) | What::CatchUp => {}
        }
    }

    /// A message that is new and brings no step is held. One that is known and was not on
    /// its way, as in the last exchange, is left out.
    fn delivered(&mut self, at: usize, time: usize, own: &Sequence, code: u32, steps: bool) {
        let name = self.scene.names.name(own);
        let known = &self.known[at];
        let known = known.log.contains(own) || known.held.contains_key(own);
        let flew = self.flying.iter().any(|(_, to, of)| *to == at && of == own);
        if self.composed.take() != Some((at, *own)) && (!known || flew) {
            let spot = self.scene.mark(at, time, Mark::Arrived);
            self.land(spot, own, false);
        }
        if code != 0 {
            let refused = Mark::Refused(format!("{name}: {code}"));
            self.scene.mark(at, time, refused);
        } else if !steps && !known {
            let spot = self.scene.mark(at, time, Mark::Held(name.clone()));
            self.hold(spot, own, name);
        }
    }

    fn hold(&mut self, spot: Spot, own: &Sequence, name: String) {
        let bar = self.scene.bar(Kind::Waits, format!("{name} held"), spot);
        self.known[spot.lane].held.insert(*own, bar);
    }

    fn executed(&mut self, at: usize, time: usize, own: &Sequence) {
        let spot = self.step(at, time, own, Mark::Executed);
        self.known[at].log.push(*own);
        if let Some(bar) = self.known[at].held.remove(own) {
            self.scene.lanes[at].bars[bar].to = Some(spot);
        }
    }

    /// A mark for a step. Of many alike the first ones have their names, and one mark counts
    /// the rest.
    fn step(&mut self, at: usize, time: usize, own: &Sequence, of: fn(String) -> Mark) -> Spot {
        let name = self.scene.names.name(own);
        let marks = self.scene.lanes[at].marks.entry(time).or_default();
        let kind = discriminant(&of(String::new()));
        let alike = marks
            .iter()
            .rev()
            .take_while(|mark| discriminant(*mark) == kind);
        let alike = alike.count();
        if alike > NAMED {
            marks.pop();
        }
        self.counted[at] = if alike < NAMED {
            0
        } else {
            self.counted[at] + 1
        };
        let mark = match self.counted[at] {
            0 => of(name),
            rest => of(format!("+{rest}")),
        };
        self.scene.mark(at, time, mark)
    }

    /// One mark for all that is sent from a station at a time.
    fn sent(&mut self, from: usize, to: usize, time: usize, own: &Sequence) {
        let name = self.scene.names.name(own);
        let marks = self.scene.lanes[from].marks.entry(time).or_default();
        let mark = match marks.contains(&Mark::Composed) {
            true => Mark::Sent(String::new()),
            false => Mark::Sent(name),
        };
        let spot = match marks.last() == Some(&mark) {
            true => Spot {
                lane: from,
                time,
                place: marks.len() - 1,
            },
            false => self.scene.mark(from, time, mark),
        };
        self.flying.push((spot, to, *own));
    }

    /// A message that was on its way comes to its end.
    fn land(&mut self, to: Spot, own: &Sequence, lost: bool) {
        let mut flying = self.flying.iter();
        let found = flying.position(|(_, lane, of)| *lane == to.lane && of == own);
        if let Some(place) = found {
            let (from, ..) = self.flying.remove(place);
            self.scene.flights.push(Flight { from, to, lost });
        }
    }

    /// What was not saved is gone; what was held then is held again.
    fn restarted(&mut self, at: usize, time: usize) {
        let spot = self.scene.mark(at, time, Mark::Restarted);
        for bar in self.known[at].held.values() {
            self.scene.lanes[at].bars[*bar].to = Some(spot);
        }
        let held = std::mem::take(&mut self.saved[at].held);
        self.known[at].log.clone_from(&self.saved[at].log);
        self.known[at].held.clear();
        for own in held.keys() {
            let name = self.scene.names.name(own);
            self.hold(spot, own, name);
        }
        self.saved[at] = self.known[at].clone();
    }
}
