//! What goes over the network, and the last exchange.

use std::collections::BTreeSet;

use super::event::What;
use super::hazard::Hazard;
use super::motion::Plant;
use super::network::{Packet, Taken};
use super::station::Station;
use crate::call::hex;
use crate::view::{all_messages, sequence_of};

impl Plant<'_> {
    /// Delivers what came over the network: a wrong message is refused by its code, a right
    /// one is accepted. Where a duty is neglected, a right one may answer 7 or 8, and does so
    /// exactly if the station has its sequence under other bytes or is full.
    pub fn receive(&mut self, at: usize, message: &[u8]) -> Result<(), String> {
        let right = self.stations[at].memory.due(message);
        let wrong = self.outside.wrong.get(message).copied();
        let code = self.deliver(at, message)?.code;
        let may = wrong.is_some() || code == 0 || !self.duty.is_kept();
        match may && code == wrong.unwrap_or(right) {
            true => Ok(()),
            false => Err(format!("{} at {at} answers {code}", hex(message))),
        }
    }

    /// Some packet arrives or is lost.
    pub fn arrive(&mut self) -> Result<(), String> {
        match self.network.take(&mut self.random) {
            Some(Taken::Arrives(packet)) if self.damages() => self.arrive_damaged(packet),
            Some(Taken::Arrives(packet)) => self.receive(packet.to, &packet.message),
            Some(Taken::Lost(packet)) => {
                self.note(What::Lost(packet.to, sequence_of(&packet.message)));
                Ok(())
            }
            None => Ok(()),
        }
    }

    /// By chance, a packet is damaged.
    fn damages(&mut self) -> bool {
        self.duty.hazard() == Hazard::Damage && self.random.chance(1)
    }

    /// A packet arrives with one bit flipped. The transport drops it; or it is delivered, and
    /// if an empty station refuses it, it is one of the wrong messages from then on.
    fn arrive_damaged(&mut self, mut packet: Packet) -> Result<(), String> {
        let own = sequence_of(&packet.message);
        let bit = self.random.below(8 * packet.message.len());
        packet.message[bit / 8] ^= 1 << (bit % 8);
        self.note(What::Damaged(packet.to, own, bit));
        if self.duty.is_kept() {
            self.note(What::Lost(packet.to, own));
            return Ok(());
        }
        let mut empty = Station::new(self.calls, Vec::new())?;
        let code = empty.deliver(self.calls, &packet.message)?.code;
        if code != 0 {
            self.outside.wrong.insert(packet.message.clone(), code);
        }
        self.receive(packet.to, &packet.message)
    }

    /// Sends a delta to all other stations.
    pub fn send(&mut self, from: usize, message: &[u8]) {
        for to in (0..self.stations.len()).filter(|to| *to != from) {
            self.dispatch(from, to, message);
        }
    }

    fn dispatch(&mut self, from: usize, to: usize, message: &[u8]) {
        self.set_out(message);
        self.note(What::Sent(from, to, sequence_of(message)));
        let message = message.to_vec();
        self.network.send(Packet { from, to, message });
    }

    /// Keeps in mind that a right message is on its way.
    fn set_out(&mut self, message: &[u8]) {
        let of_sequence = self.sent.entry(sequence_of(message)).or_default();
        of_sequence.insert(message.to_vec());
    }

    /// A station tells another of a delta that it has.
    pub fn resend(&mut self, from: usize) {
        let known = all_messages(&self.stations[from].memory.image);
        let to = self.random.below(self.stations.len());
        if to != from && !known.is_empty() {
            let message = &known[self.random.below(known.len())];
            self.dispatch(from, to, message);
        }
    }

    /// A message from outside comes to a station, right or wrong.
    pub fn stranger_sends(&mut self, to: usize) {
        let right = self.outside.right.len();
        let place = self.random.below(right + self.outside.wrong.len());
        let message = match self.outside.right.get(place) {
            Some(message) => Some(message.clone()),
            None => self.outside.wrong.keys().nth(place - right).cloned(),
        };
        if let Some(message) = message {
            if place < right {
                self.set_out(&message);
            }
            let from = to;
            self.network.send(Packet { from, to, message });
        }
    }

    /// Much comes from outside before the first operator's turn.
    pub fn begin_from_outside(&mut self) -> Result<(), String> {
        for at in 0..self.stations.len() {
            for message in self.outside.right.clone() {
                if self.random.chance(80) {
                    self.set_out(&message);
                    self.receive(at, &message)?;
                }
            }
        }
        Ok(())
    }

    /// The network falls apart or comes together.
    pub fn part(&mut self, apart: bool) {
        match apart {
            true => self.network.split(&mut self.random),
            false => self.network.heal(),
        }
        self.note(What::Sides(self.network.sides.clone()));
    }

    /// What is in flight arrives or is lost; then all deltas of all stations, and all
    /// messages from outside, reach all, in any order.
    pub fn exchange(&mut self) -> Result<(), String> {
        self.part(false);
        while !self.network.is_quiet() {
            self.time += 1;
            self.arrive()?;
        }
        self.note(What::Exchange);
        for message in self.outside.right.clone() {
            self.set_out(&message);
        }
        let mut offers = self.offers();
        for at in 0..self.stations.len() {
            self.random.shuffle(&mut offers);
            for message in &offers {
                self.time += 1;
                self.receive(at, message)?;
            }
        }
        Ok(())
    }

    /// Every message that somebody has.
    fn offers(&self) -> Vec<Vec<u8>> {
        let images = self.stations.iter().map(|s| &s.memory.image);
        let known: BTreeSet<Vec<u8>> = images.flat_map(|image| all_messages(image)).collect();
        let outside = self.outside.right.iter().chain(self.outside.wrong.keys());
        known.union(&outside.cloned().collect()).cloned().collect()
    }
}
