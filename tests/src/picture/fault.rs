//! The scene of the plant's fault: the story's stations, and below them the old single queue
//! over the same arrivals.

use super::queue::single_queue;
use super::scene::{Kind, Lane, Mark, Scene};
use super::story::{plant_fault, Story, FURNACE};
use super::teller::tell;
use crate::boundary::Calls;
use crate::view::{log, sequence_of};

const TITLE: &str = "A lost message, and who waits for it";
const ABOUT: [&str; 2] = [
    "A1 opens the shift's notes, and all its copies are lost. A2, a shift remark of low priority, \
     needs A1. B1 and B2 change displays, C1 a burner: they do not need the remark.",
    "Only the remark waits. With the old single queue all that came after it stood behind it, \
     the burner change too.",
];

pub fn scene(calls: &dyn Calls) -> Result<Scene, String> {
    let story = plant_fault(calls)?;
    let lanes = [
        ("Station A", "shift desk"),
        ("Station B", "displays"),
        ("Station C", "burner desk"),
        ("Station D", "furnace"),
    ];
    let lanes = lanes.map(|(name, about)| Lane::new(name, about));
    let mut scene = tell(lanes.to_vec(), &story.events);
    let old = scene.lanes.len();
    let lane = Lane {
        old: true,
        ..Lane::new("Old single queue", "the same arrivals at D")
    };
    scene.add_queue(lane, &single_queue(&story.arrivals));
    scene.title = TITLE.to_string();
    scene.about = ABOUT.map(str::to_string).to_vec();
    let end = end(&mut scene, &story)?;
    scene.about.push(end);
    tell_burner(&mut scene, &story, old)?;
    Ok(scene)
}

/// When the burner change is executed: at the furnace as it arrives, which must be so, and
/// where it stood in the old queue's lane.
fn tell_burner(scene: &mut Scene, story: &Story, old: usize) -> Result<(), String> {
    let burner = scene.names.name(&sequence_of(&story.burner));
    let mut arrivals = story.arrivals.iter();
    let arrived = arrivals.find(|(_, message)| *message == story.burner);
    let executed = scene.find(FURNACE, &Mark::Executed(burner.clone()));
    match (arrived, executed) {
        (Some((time, _)), Some(spot)) if *time == spot.time => {
            let words = format!("burner change {burner} is executed as it arrives, at {time}");
            scene.bar(Kind::Good, words, spot);
        }
        _ => return Err("the burner change is not executed as it arrives".to_string()),
    }
    let own = format!("{burner} ");
    let mut bars = scene.lanes[old].bars.iter_mut();
    if let Some(bar) = bars.find(|bar| bar.words.starts_with(&own)) {
        let until = bar
            .to
            .map_or("the end".to_string(), |to| to.time.to_string());
        bar.words = format!("burner change {burner} stands behind the remark until {until}");
    }
    Ok(())
}

/// What all stations end with, which must be the same.
fn end(scene: &mut Scene, story: &Story) -> Result<String, String> {
    let first = &story.images[0];
    if story.images.iter().any(|image| image != first) {
        return Err("the images differ".to_string());
    }
    let log: Vec<String> = log(first).iter().map(|own| scene.names.name(own)).collect();
    Ok(format!(
        "When A1 comes at last, it takes its place: what belongs after it is undone and executed \
         again. All stations end with the log {} and equal images.",
        log.join(" ")
    ))
}
