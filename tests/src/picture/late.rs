//! A late change at the furnace, and a delivery of the generator's.

use super::arrival::Arrival;
use super::entry::{Entry, Look};
use super::rows::Rows;
use super::stage::Stage;
use crate::boundary::Calls;
use crate::generate::drafts;
use crate::plant::Station;
use crate::random::Random;
use crate::wire::{add, set, Draft};

/// Tags of the story.
const GAS: u8 = 10;
const AIR: u8 = 11;
const FEEDER: u8 = 12;
const BURNER: u8 = 20;
const DISPLAY: u8 = 40;
const REMARK: u8 = 60;
const TAGS: [(u8, &str); 6] = [
    (GAS, "gas"),
    (AIR, "air"),
    (FEEDER, "feeder"),
    (BURNER, "burner"),
    (DISPLAY, "display"),
    (REMARK, "remark"),
];

/// The stations, by place: gas and air, the feeder, burner and display, and the shift desk, whose
/// log is drawn.
const AIRS: usize = 0;
const FEEDERS: usize = 1;
const BURNERS: usize = 2;
const SHIFT: usize = 3;

const TITLE: &str = "A late change squeezes in: what you have read keeps its order";
const LINES: &str = "Each line joins a change to itself, and no two lines cross: of any two \
                     changes that stood in the log, the same one still stands first.";

/// As many sets of a seed as are tried.
const SETS: usize = 16;

/// The story on an implementation of the calls.
pub fn story(calls: &dyn Calls) -> Result<Rows, String> {
    let mut stage = Stage::new(calls)?;
    let late = play(&mut stage)?;
    let arrival = Arrival::at(calls, &mut stage.stations[SHIFT], &late)?;
    let rows = Rows::of(&arrival, &TAGS)?;
    Ok(Rows {
        title: TITLE.to_string(),
        about: about(&rows)?,
        ..rows
    })
}

/// What is told of the story: the late change must stand between others, what stands before it
/// must be kept, and one that lacked it must have been held.
fn about(rows: &Rows) -> Result<Vec<String>, String> {
    let place = rows.late()?;
    let own = &rows.new[place].name;
    let mut all = rows.new.iter();
    let freed = all.find(|entry| entry.lacks.as_ref() == Some(own));
    let start = &rows.new[..place];
    let kept = start.iter().all(|entry| entry.look == Look::Kept);
    let before = start.last().filter(|_| kept).map(|before| &before.name);
    let after = rows.new.get(place + 1).map(|after| &after.name);
    match (before, after, freed) {
        (Some(before), Some(after), Some(Entry { name: freed, .. })) => Ok(vec![
            format!(
                "Feeder change {own} comes late to the shift desk; {freed} needs {own}, and was \
                 held until then. Above is the desk's log before {own} came, below its log after."
            ),
            format!(
                "{own} goes to its place between {before} and {after}. What belongs after it is \
                 undone and executed again; what stands before it is not touched."
            ),
            LINES.to_string(),
        ]),
        _ => Err("the late change is not as the story tells it".to_string()),
    }
}

/// All that comes before the late change does, which is handed back.
fn play(stage: &mut Stage) -> Result<Vec<u8>, String> {
    let gas = stage.compose(AIRS, set(GAS, 420), None)?;
    stage.arrive(&[FEEDERS, BURNERS, SHIFT], &gas)?;
    let feeder = stage.compose(FEEDERS, set(FEEDER, 60), None)?;
    stage.arrive(&[AIRS, BURNERS, SHIFT], &feeder)?;
    let late = stage.compose(FEEDERS, add(FEEDER, 5), None)?;
    let burner = stage.compose(BURNERS, set(BURNER, 850), None)?;
    stage.arrive(&[AIRS, FEEDERS, SHIFT], &burner)?;
    let air = stage.compose(AIRS, set(AIR, 300), None)?;
    stage.arrive(&[FEEDERS, BURNERS, SHIFT], &air)?;
    let next = stage.compose(FEEDERS, add(FEEDER, 10), None)?;
    stage.arrive(&[SHIFT], &next)?;
    let display = stage.compose(BURNERS, set(DISPLAY, 7), None)?;
    stage.arrive(&[SHIFT], &display)?;
    stage.compose(SHIFT, set(REMARK, 1), Some(0))?;
    Ok(late)
}

/// Of the generator's sets of a seed the first one with a delivery that undoes, and of that set,
/// which comes in any order, the delivery that undoes most.
pub fn seed(calls: &dyn Calls, seed: u64) -> Result<Rows, String> {
    let mut random = Random::new(seed);
    for _ in 0..SETS {
        let count = random.pick(&[6, 12, 24, 64]);
        let mut drafts = drafts(&mut random, count);
        random.shuffle(&mut drafts);
        if let Some(most) = undoes_most(calls, &drafts)? {
            let rows = Rows::of(&most, &[])?;
            let own = &rows.new[rows.late()?].name;
            let undos = most.undos;
            let about =
                format!("Of {count} deltas that came to a station, {own} undid most: {undos}.");
            return Ok(Rows {
                title: format!("A late arrival squeezes in, seed {seed}"),
                about: vec![about, LINES.to_string()],
                ..rows
            });
        }
    }
    Err(format!("seed {seed}: no delivery undoes anything"))
}

/// The first delivery that undoes as many as any.
fn undoes_most(calls: &dyn Calls, drafts: &[Draft]) -> Result<Option<Arrival>, String> {
    let mut station = Station::new(calls, Vec::new())?;
    let mut most: Option<Arrival> = None;
    for draft in drafts {
        let arrival = Arrival::at(calls, &mut station, &draft.bytes())?;
        if arrival.undos > most.as_ref().map_or(0, |most| most.undos) {
            most = Some(arrival);
        }
    }
    Ok(most)
}
