//! The plant's fault: a shift remark waits for a lost message, display changes go round it,
//! and a burner change that has nothing to do with it arrives at once.

use super::stage::Stage;
use crate::boundary::Calls;
use crate::plant::Event;
use crate::wire::{add, raise, set};

/// Tags of the story.
pub const BURNER: u8 = 20;
const DISPLAY: u8 = 40;
const REMARK: u8 = 60;

/// The stations, by place.
const SHIFT: usize = 0;
const DISPLAYS: usize = 1;
const BURNERS: usize = 2;
/// The station that only receives, and whose arrivals are put through the old queue.
pub const FURNACE: usize = 3;

/// What happened, what came to the furnace and when, and the images in the end.
#[derive(Clone, Debug, PartialEq, Eq)]
pub struct Story {
    pub events: Vec<Event>,
    pub arrivals: Vec<(usize, Vec<u8>)>,
    pub images: Vec<Vec<u8>>,
    /// C1.
    pub burner: Vec<u8>,
}

impl Story {
    /// What came to the furnace, end to end.
    pub fn deltas(&self) -> Vec<u8> {
        let messages = self.arrivals.iter();
        messages.flat_map(|(_, message)| message.clone()).collect()
    }
}

/// Plays the story on an implementation of the calls.
pub fn plant_fault(calls: &dyn Calls) -> Result<Story, String> {
    let mut stage = Stage::new(calls)?;
    let burner = play(&mut stage)?;
    let came = stage.arrivals.into_iter();
    let came = came.filter(|(_, at, _)| *at == FURNACE);
    Ok(Story {
        events: stage.events,
        arrivals: came.map(|(time, _, message)| (time, message)).collect(),
        images: stage.stations.into_iter().map(|s| s.memory.image).collect(),
        burner,
    })
}

/// The story, one time after another; the burner change is handed back.
fn play(stage: &mut Stage) -> Result<Vec<u8>, String> {
    stage.time = 1;
    let note = stage.compose(SHIFT, set(REMARK, 1), None)?;
    stage.send(SHIFT, &[DISPLAYS, BURNERS, FURNACE], &note);
    stage.time = 2;
    stage.lose(&[DISPLAYS, BURNERS, FURNACE], &note);
    let remark = stage.compose(SHIFT, add(REMARK, 5), Some(0))?;
    stage.send(SHIFT, &[DISPLAYS, BURNERS, FURNACE], &remark);
    stage.time = 3;
    stage.arrive(&[DISPLAYS, BURNERS, FURNACE], &remark)?;
    stage.time = 4;
    let one = stage.compose(DISPLAYS, set(DISPLAY, 7), None)?;
    stage.send(DISPLAYS, &[SHIFT, BURNERS, FURNACE], &one);
    stage.time = 5;
    stage.arrive(&[SHIFT, FURNACE], &one)?;
    let two = stage.compose(DISPLAYS, raise(DISPLAY, 9), None)?;
    stage.send(DISPLAYS, &[SHIFT, BURNERS, FURNACE], &two);
    stage.time = 6;
    stage.arrive(&[SHIFT, FURNACE], &two)?;
    let burner = stage.compose(BURNERS, set(BURNER, 850), None)?;
    stage.send(BURNERS, &[SHIFT, DISPLAYS, FURNACE], &burner);
    stage.time = 7;
    stage.arrive(&[SHIFT, DISPLAYS, FURNACE], &burner)?;
    // The way from the displays to the burners is slow.
    stage.time = 8;
    stage.arrive(&[BURNERS], &one)?;
    stage.time = 9;
    stage.arrive(&[BURNERS], &two)?;
    stage.time = 10;
    stage.send(SHIFT, &[DISPLAYS, BURNERS, FURNACE], &note);
    stage.time = 11;
    stage.arrive(&[DISPLAYS, BURNERS, FURNACE], &note)?;
    Ok(burner)
}
