//! A network that loses, repeats, reorders and splits, also one way.

use std::fmt::{self, Display, Formatter};

use crate::random::Random;

/// A message on its way.
#[derive(Clone, Debug, PartialEq, Eq)]
pub struct Packet {
    pub from: usize,
    pub to: usize,
    pub message: Vec<u8>,
}

/// What becomes of a packet that is taken from the network.
#[derive(Clone, Debug, PartialEq, Eq)]
pub enum Taken {
    Arrives(Packet),
    Lost(Packet),
}

/// On which side of a split each station is. No side hears the other; where the split is
/// one-way, the first still hears the second.
#[derive(Clone, Debug, PartialEq, Eq)]
pub struct Sides {
    pub second: Vec<bool>,
    pub one_way: bool,
}

impl Sides {
    /// Whether what one station sends can reach another.
    fn reach(&self, from: usize, to: usize) -> bool {
        self.second[from] == self.second[to] || (self.one_way && self.second[from])
    }

    /// Whether there are two.
    pub fn are_apart(&self) -> bool {
        self.second.contains(&true) && self.second.contains(&false)
    }
}

impl Display for Sides {
    /// A digit for each station, 0 for the first side and 1 for the second.
    fn fmt(&self, f: &mut Formatter<'_>) -> fmt::Result {
        for second in &self.second {
            write!(f, "{}", u8::from(*second))?;
        }
        f.write_str(if self.one_way { " one-way" } else { "" })
    }
}

/// Packets in flight, and the sides. Chances are of a hundred.
#[derive(Clone, Debug)]
pub struct Network {
    packets: Vec<Packet>,
    pub sides: Sides,
    loss: usize,
    repeat: usize,
}

impl Network {
    /// A whole network for so many stations.
    pub fn new(stations: usize, loss: usize, repeat: usize) -> Network {
        Network {
            packets: Vec::new(),
            sides: Sides {
                second: vec![false; stations],
                one_way: false,
            },
            loss,
            repeat,
        }
    }

    /// Whether nothing is in flight.
    pub fn is_quiet(&self) -> bool {
        self.packets.is_empty()
    }

    /// Takes a packet up.
    pub fn send(&mut self, packet: Packet) {
        self.packets.push(packet);
    }

    /// Any packet in flight: it arrives, or it is lost, always so across a split. One that
    /// arrives may stay in flight and arrive again.
    pub fn take(&mut self, random: &mut Random) -> Option<Taken> {
        if self.packets.is_empty() {
            return None;
        }
        let place = random.below(self.packets.len());
        let packet = self.packets.swap_remove(place);
        if !self.sides.reach(packet.from, packet.to) || random.chance(self.loss) {
            return Some(Taken::Lost(packet));
        }
        if random.chance(self.repeat) {
            self.packets.push(packet.clone());
        }
        Some(Taken::Arrives(packet))
    }

    /// Falls apart by chance, for both sides or for one.
    pub fn split(&mut self, random: &mut Random) {
        for second in &mut self.sides.second {
            *second = random.chance(50);
        }
        self.sides.one_way = random.chance(40);
    }

    /// Comes together.
    pub fn heal(&mut self) {
        self.sides.second.fill(false);
        self.sides.one_way = false;
    }

    /// One more station, on the first side.
    pub fn grow(&mut self) {
        self.sides.second.push(false);
    }
}

#[cfg(test)]
mod tests {
    use super::{Network, Packet, Taken};
    use crate::random::Random;

    /// Of two stations, the second on the second side: what arrives at which.
    fn arrivals(one_way: bool) -> [bool; 2] {
        let mut network = Network::new(2, 0, 0);
        network.sides.second[1] = true;
        network.sides.one_way = one_way;
        [0, 1].map(|to| {
            let from = 1 - to;
            let message = Vec::new();
            network.send(Packet { from, to, message });
            let taken = network.take(&mut Random::new(0));
            matches!(taken, Some(Taken::Arrives(_)))
        })
    }

    #[test]
    fn of_a_one_way_split_the_first_side_hears_the_second() {
        assert_eq!(arrivals(false), [false, false]);
        assert_eq!(arrivals(true), [true, false]);
    }
}
