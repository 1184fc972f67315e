//! Pictures of what stations do: the plant's fault beside the old single queue, any seed of the
//! plant in motion, and a log before and after a late arrival. One file a part: the stories, the
//! old queue, what is drawn, where it is, and the shapes.

mod arrival;
mod bands;
mod draw;
mod entry;
mod fault;
mod frame;
mod late;
mod layout;
mod queue;
mod rows;
mod scene;
mod stage;
pub mod story;
mod svg;
mod teller;

use crate::boundary::Calls;
use crate::plant::{run, Duty, Hazard};
use scene::Lane;
use teller::tell;

/// The plant's fault, run on an implementation of the calls.
pub fn fault(calls: &dyn Calls) -> Result<String, String> {
    Ok(draw::draw(&fault::scene(calls)?))
}

/// A log before and after a late change, run on an implementation of the calls.
pub fn late(calls: &dyn Calls) -> Result<String, String> {
    Ok(bands::draw(&late::story(calls)?))
}

/// The same of a seed of the generator.
pub fn late_seed(calls: &dyn Calls, seed: u64) -> Result<String, String> {
    Ok(bands::draw(&late::seed(calls, seed)?))
}

/// The plant in motion of a seed.
pub fn seed(calls: &dyn Calls, seed: u64) -> Result<String, String> {
    let run = run(calls, seed, Duty::Kept(Hazard::Crash))?;
    run.check(calls)?;
    let lanes = (0..run.memories.len()).map(|at| Lane::new(&format!("Station {at}"), ""));
    let mut scene = tell(lanes.collect(), &run.events);
    scene.title = format!("Plant in motion, seed {seed}");
    scene.about = vec![format!(
        "{} stations; in the end all that anybody has reaches all, and all images are equal.",
        run.memories.len()
    )];
    Ok(draw::draw(&scene))
}
