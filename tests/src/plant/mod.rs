//! A plant in motion: stations over a network that loses, repeats, reorders and splits, with
//! operators who compose, restarts from saved images, purges, a hazard with a host's duty
//! against it, and a last exchange of everything.

mod disk;
mod event;
mod hazard;
mod motion;
mod network;
mod outage;
mod outside;
mod purging;
mod run;
mod station;
mod traffic;
mod watch;

pub use disk::{Left, SECTORS};
pub use event::{Event, What};
pub use hazard::{Duty, Hazard, HAZARDS};
pub use run::Run;
pub use station::{Delivery, Hardware, Memory, Station};

use crate::boundary::Calls;
use motion::Plant;

/// Runs the plant of a seed to its end, on an implementation of the calls. An error is a
/// promise broken on the way.
pub fn run(calls: &dyn Calls, seed: u64, duty: Duty) -> Result<Run, String> {
    let mut plant = Plant::new(calls, seed, duty)?;
    let worked = plant.work().and_then(|()| plant.exchange());
    match worked {
        Ok(()) => Ok(plant.ended()),
        Err(error) => Err(format!("time {}: {error}", plant.time)),
    }
}
