//! The scene put on the layout.

use super::frame;
use super::layout::{mark_width, width_of, Layout, LEFT};
use super::scene::{Bar, Flight, Kind, Mark, Scene};
use super::svg::Svg;

/// Half the height of a chip.
const HALF: usize = 10;
/// The least width, for the heading.
const LEAST: usize = 900;

/// The drawing.
pub fn draw(scene: &Scene) -> String {
    let layout = Layout::new(scene);
    let mut svg = Svg::default();
    let (width, _) = layout.size(LEAST, 0);
    heading(&mut svg, scene, &layout);
    lanes(&mut svg, scene, &layout, width);
    for flight in &scene.flights {
        fly(&mut svg, &layout, flight);
    }
    for (at, lane) in scene.lanes.iter().enumerate() {
        for (place, bar) in lane.bars.iter().enumerate() {
            wait(&mut svg, &layout, bar, layout.bar(at, place));
        }
        for (time, marks) in &lane.marks {
            for (place, mark) in marks.iter().enumerate() {
                let (lane, time) = (at, *time);
                let spot = super::scene::Spot { lane, time, place };
                put(&mut svg, mark, layout.spot(spot));
            }
        }
    }
    let lines = legend(&mut svg, scene, layout.bottom + 18, width);
    svg.finish(&scene.title, layout.size(LEAST, lines))
}

/// Title, what it is about, and the times.
fn heading(svg: &mut Svg, scene: &Scene, layout: &Layout) {
    let y = frame::heading(svg, &scene.title, &scene.about) + 2;
    svg.text("small", (16, y), "time");
    for (time, x) in &layout.columns {
        svg.text("small", (*x, y), &time.to_string());
    }
}

/// The ground of each lane, with its name.
fn lanes(svg: &mut Svg, scene: &Scene, layout: &Layout, width: usize) {
    for (lane, place) in scene.lanes.iter().zip(&layout.lanes) {
        let class = if lane.old { "old" } else { "lane" };
        svg.rect(class, (8, place.top), (width - 16, place.height), 6);
        for x in layout.columns.values() {
            svg.line(
                "tick",
                (*x - 8, place.top),
                (*x - 8, place.top + place.height),
            );
        }
        let y = place.top + 20;
        svg.line("axis", (LEFT - 8, y), (width - 16, y));
        svg.text("head", (16, place.top + 18), &lane.name);
        svg.text("small", (16, place.top + 34), &lane.about);
    }
}

/// The way of a message.
fn fly(svg: &mut Svg, layout: &Layout, flight: &Flight) {
    let class = if flight.lost { "missed" } else { "flight" };
    let ((from, y), (to, end)) = (layout.spot(flight.from), layout.spot(flight.to));
    svg.line(class, (from + 7, y), (to + 7, end));
}

/// A bar with its words, or words alone.
fn wait(svg: &mut Svg, layout: &Layout, bar: &Bar, y: usize) {
    let (x, _) = layout.spot(bar.from);
    let end = bar.to.map_or(layout.right, |to| layout.spot(to).0);
    let class = match bar.kind {
        Kind::Waits => "waits",
        Kind::Behind => "behind",
        Kind::Good => "",
    };
    if bar.kind == Kind::Good {
        svg.text("green", (x, y), &bar.words);
        return;
    }
    svg.rect(class, (x, y - 11), (end.saturating_sub(x).max(8), 15), 3);
    let fits = x + width_of(&bar.words) + 8 <= end;
    let name = bar.words.split(' ').next().unwrap_or("");
    let words = if fits { &bar.words } else { name };
    svg.text("", (x + 4, y), words);
}

/// A mark at its left edge and middle.
fn put(svg: &mut Svg, mark: &Mark, (x, y): (usize, usize)) {
    let middle = x + 7;
    match mark {
        Mark::Composed => {
            let corners = [(middle, y - 7), (x + 14, y), (middle, y + 7), (x, y)];
            svg.shape("composed", &corners);
        }
        Mark::Sent(name) => {
            svg.shape("sent", &[(x + 2, y - 6), (x + 13, y), (x + 2, y + 6)]);
            svg.text("blue", (x + 17, y + 4), name);
        }
        Mark::Arrived => svg.circle("arrived", (middle, y), 5),
        Mark::Restarted => {
            svg.rect("restarted", (x, y - HALF), (14, 2 * HALF), 2);
            svg.text("small mid", (middle, y + 4), "R");
        }
        Mark::Lost(name) => {
            svg.line("lost", (x + 2, y - 5), (x + 12, y + 5));
            svg.line("lost", (x + 2, y + 5), (x + 12, y - 5));
            svg.text("red", (x + 17, y + 4), name);
        }
        Mark::Held(name) => chip(svg, mark, ("held", "amber"), name, (x, y)),
        Mark::Behind(name) => chip(svg, mark, ("queued", "red"), name, (x, y)),
        Mark::Refused(name) => chip(svg, mark, ("restarted", "small"), name, (x, y)),
        Mark::Executed(name) => chip(svg, mark, ("executed", "light"), name, (x, y)),
        Mark::Undone(name) => {
            chip(svg, mark, ("undone", "red"), name, (x, y));
            svg.line("struck", (x + 3, y), (x + mark_width(mark) - 3, y));
        }
    }
}

/// A chip with a name: the classes of its ground and of its words.
fn chip(svg: &mut Svg, mark: &Mark, class: (&str, &str), name: &str, (x, y): (usize, usize)) {
    let width = mark_width(mark);
    svg.rect(class.0, (x, y - HALF), (width, 2 * HALF), 4);
    let words = format!("{} mid", class.1);
    svg.text(&words, (x + width / 2, y + 4), name);
}

/// What each mark means, in as many lines as it takes.
fn legend(svg: &mut Svg, scene: &Scene, top: usize, width: usize) -> usize {
    let name = || "A1".to_string();
    let all = [
        (Mark::Composed, "composed here"),
        (Mark::Sent(String::new()), "sent"),
        (Mark::Lost(name()), "lost on the way"),
        (Mark::Arrived, "arrived"),
        (Mark::Held(name()), "held: what it needs is missing"),
        (Mark::Behind(name()), "waits only because it stands behind"),
        (Mark::Executed(name()), "executed"),
        (Mark::Undone(name()), "undone"),
        (Mark::Restarted, "restarted from the saved image"),
        (Mark::Refused("A1: 7".to_string()), "refused, with its code"),
    ];
    let used = all.iter().filter(|(mark, _)| used(scene, mark));
    let (marks, words): (Vec<&Mark>, Vec<(usize, &str)>) = used
        .map(|(mark, words)| (mark, (mark_width(mark), *words)))
        .unzip();
    let lines = frame::legend(svg, &words, (top, width), |svg, place, at| {
        put(svg, marks[place], at);
    });
    lines + 1
}

/// Whether a mark of that kind is in the scene.
fn used(scene: &Scene, mark: &Mark) -> bool {
    let kind = std::mem::discriminant(mark);
    let marks = scene.lanes.iter().flat_map(|lane| lane.marks.values());
    marks
        .flatten()
        .any(|mark| std::mem::discriminant(mark) == kind)
}
