//! Where things are: columns for times, rows for lanes, and a place for each mark.

use std::collections::{BTreeMap, BTreeSet};

use super::scene::{Bar, Flight, Lane, Mark, Scene, Spot};

/// Space left of the first column, and between things.
pub const LEFT: usize = 172;
const MARGIN: usize = 16;
const GAP: usize = 4;
/// From one time to the next at least, and between the marks of two times in a lane.
const STEP: usize = 36;
/// What a flight goes to the right at least.
const FLIGHT: usize = 28;
const BETWEEN: usize = 16;
/// A lane: above its marks, and a line of words below them.
const MARKS: usize = 40;
const ROW: usize = 18;
const LANES_APART: usize = 8;
/// Lines of the heading.
const TITLE: usize = 34;
const ABOUT: usize = 18;
const AXIS: usize = 24;

/// The width of words of 12 pixels, on the safe side.
pub fn width_of(words: &str) -> usize {
    7 * words.chars().count()
}

/// The width of a mark.
pub fn mark_width(mark: &Mark) -> usize {
    match mark {
        Mark::Composed | Mark::Arrived | Mark::Restarted => 14,
        Mark::Sent(name) | Mark::Lost(name) => 14 + width_of(name) + 4,
        Mark::Refused(name)
        | Mark::Held(name)
        | Mark::Behind(name)
        | Mark::Executed(name)
        | Mark::Undone(name) => 12 + width_of(name),
    }
}

/// The upper edge and the height of a lane, and the row of each of its bars.
#[derive(Clone, Debug, PartialEq, Eq)]
pub struct Place {
    pub top: usize,
    pub height: usize,
    pub rows: Vec<usize>,
}

/// Where everything is.
#[derive(Clone, Debug, PartialEq, Eq)]
pub struct Layout {
    /// The left edge of each time's column.
    pub columns: BTreeMap<usize, usize>,
    pub lanes: Vec<Place>,
    /// The right edge of the last column.
    pub right: usize,
    /// The lower edge of the last lane.
    pub bottom: usize,
    within: Vec<Edges>,
}

/// Left edges of the marks of a lane within their column.
type Edges = BTreeMap<usize, Vec<usize>>;

impl Layout {
    pub fn new(scene: &Scene) -> Layout {
        let within: Vec<_> = scene.lanes.iter().map(edges).collect();
        let (columns, right) = columns(&within, &scene.flights);
        let mut bottom = TITLE + ABOUT * scene.about.len() + AXIS;
        let mut lanes = Vec::new();
        for lane in &scene.lanes {
            let place = place(lane, bottom);
            bottom = place.top + place.height + LANES_APART;
            lanes.push(place);
        }
        Layout {
            columns,
            lanes,
            right,
            bottom,
            within,
        }
    }

    /// The left edge of a mark, and the height at which it is in the middle.
    pub fn spot(&self, spot: Spot) -> (usize, usize) {
        let column = self.columns[&spot.time];
        let edge = self.within[spot.lane][&spot.time][spot.place];
        (column + edge, self.lanes[spot.lane].top + MARKS / 2)
    }

    /// The base line of the words of a bar.
    pub fn bar(&self, lane: usize, bar: usize) -> usize {
        let place = &self.lanes[lane];
        place.top + MARKS + ROW * place.rows[bar] + 10
    }

    /// The size of the drawing with some lines below the lanes.
    pub fn size(&self, least: usize, lines: usize) -> (usize, usize) {
        let width = (self.right + MARGIN).max(least);
        (width, self.bottom + ABOUT * lines + MARGIN)
    }
}

/// The left edge of each time, and the right edge of all. A time begins past the one before
/// it, past the marks that its lanes have so far, and past where what arrives set out; other
/// lanes' marks may still go on.
fn columns(within: &[Edges], flights: &[Flight]) -> (BTreeMap<usize, usize>, usize) {
    let times = within.iter().flat_map(|lane| lane.keys().copied());
    let times: BTreeSet<usize> = times.collect();
    let mut ends = vec![LEFT; within.len()];
    let mut columns: BTreeMap<usize, usize> = BTreeMap::new();
    let mut next = LEFT;
    for time in times {
        let lanes = (0..within.len()).filter(|lane| within[*lane].contains_key(&time));
        let landing = flights.iter().filter(|flight| flight.to.time == time);
        let set_out = landing.filter_map(|Flight { from, .. }| {
            let edge = within[from.lane][&from.time][from.place];
            Some(columns.get(&from.time)? + edge + FLIGHT)
        });
        let free = lanes.clone().map(|lane| ends[lane]);
        let start = free.chain(set_out).fold(next, usize::max);
        for lane in lanes {
            let width = within[lane][&time].last().copied().unwrap_or(0);
            ends[lane] = start + width + BETWEEN;
        }
        columns.insert(time, start);
        next = start + STEP;
    }
    (columns, ends.into_iter().fold(next, usize::max))
}

/// The left edge of each mark within its column, and the right edge of the last.
fn edges(lane: &Lane) -> Edges {
    let of_marks = |marks: &Vec<Mark>| {
        let mut edges = vec![0];
        let mut edge = 0;
        for mark in marks {
            edge += mark_width(mark) + GAP;
            edges.push(edge);
        }
        edges
    };
    let cells = lane.marks.iter();
    cells
        .map(|(time, marks)| (*time, of_marks(marks)))
        .collect()
}

/// A lane's place: each bar gets the first row that is free from its begin to its end.
fn place(lane: &Lane, top: usize) -> Place {
    let mut ends: Vec<usize> = Vec::new();
    let mut rows = Vec::new();
    for bar in &lane.bars {
        let free = ends.iter().position(|end| *end < bar.from.time);
        let row = free.unwrap_or(ends.len());
        ends.resize(ends.len().max(row + 1), 0);
        ends[row] = end(bar);
        rows.push(row);
    }
    let height = MARKS + ROW * ends.len();
    Place { top, height, rows }
}

fn end(bar: &Bar) -> usize {
    bar.to.map_or(usize::MAX, |to| to.time)
}
