//! The stage of a story: four stations, and what is composed, sent, lost and delivered there,
//! one time after another.

use crate::boundary::Calls;
use crate::call::Composing;
use crate::plant::{Event, Station, What};
use crate::view::sequence_of;
use crate::wire::{line, Command};

/// The stations, and what happened so far.
pub struct Stage<'a> {
    calls: &'a dyn Calls,
    pub stations: Vec<Station>,
    pub time: usize,
    pub events: Vec<Event>,
    /// Time, station and message of what arrived.
    pub arrivals: Vec<(usize, usize, Vec<u8>)>,
}

impl<'a> Stage<'a> {
    /// Stations of no deltas, with the lines A to D of the examples.
    pub fn new(calls: &'a dyn Calls) -> Result<Stage<'a>, String> {
        let lines = [0x0A, 0x0B, 0x0C, 0x0D].map(line);
        let stations = lines.iter().map(|own| Station::new(calls, vec![*own]));
        Ok(Stage {
            calls,
            stations: stations.collect::<Result<_, _>>()?,
            time: 0,
            events: Vec::new(),
            arrivals: Vec::new(),
        })
    }

    fn note(&mut self, what: What) {
        let time = self.time;
        self.events.push(Event { time, what });
    }

    /// Composes at a station and delivers there.
    pub fn compose(
        &mut self,
        at: usize,
        command: Command,
        priority: Option<u32>,
    ) -> Result<Vec<u8>, String> {
        let composing = Composing {
            priority_flag: u32::from(priority.is_some()),
            priority: priority.unwrap_or(0),
            ..Composing::plain(&self.stations[at].lines[0], &command)
        };
        let (code, message) = self.stations[at].compose(self.calls, &composing);
        if code != 0 {
            return Err(format!("compose at {at} answers {code}"));
        }
        self.note(What::composed(at, &message));
        self.deliver(at, &message)?;
        Ok(message)
    }

    pub fn send(&mut self, from: usize, to: &[usize], message: &[u8]) {
        for to in to {
            self.note(What::Sent(from, *to, sequence_of(message)));
        }
    }

    pub fn lose(&mut self, to: &[usize], message: &[u8]) {
        for to in to {
            self.note(What::Lost(*to, sequence_of(message)));
        }
    }

    pub fn arrive(&mut self, to: &[usize], message: &[u8]) -> Result<(), String> {
        for at in to {
            self.deliver(*at, message)?;
            self.arrivals.push((self.time, *at, message.to_vec()));
        }
        Ok(())
    }

    fn deliver(&mut self, at: usize, message: &[u8]) -> Result<(), String> {
        let delivery = self.stations[at].deliver(self.calls, message)?;
        match delivery.code {
            0 => {}
            code => return Err(format!("deliver at {at} answers {code}")),
        }
        for what in What::delivered(at, message, &delivery) {
            self.note(what);
        }
        Ok(())
    }
}
