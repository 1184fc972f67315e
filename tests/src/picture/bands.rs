//! Two rows of boxes drawn, with a line from each delta to itself. A long log is cut into bands,
//! one below the other; a band has the old row's part of what its new row has.

use std::ops::Range;

use super::entry::{Entry, Look};
use super::frame;
use super::layout::{width_of, LEFT};
use super::rows::Rows;
use super::svg::Svg;

/// As many boxes as a row has at most.
const MOST: usize = 8;
/// Between boxes, before those that are held, and right of all.
const GAP: usize = 20;
/// A box: the line of its name, and each line of small print.
const NAME: usize = 24;
const PRINT: usize = 14;
/// Beside the boxes of a row: the lane's edge, and a bracket with its word.
const EDGE: usize = 8;
const BRACKET: usize = 24;
/// Between the rows of a band, where the lines are, and between bands.
const BETWEEN: usize = 64;
const BANDS: usize = 22;
/// A line of words below all.
const WORDS: usize = 26;
/// The least width, for heading and legend.
const LEAST: usize = 1_000;

/// How boxes and lines look.
const STYLE: &str = ".again{fill:#dcefdd;stroke:#2e7d32;stroke-width:1.3}
.freed{fill:#f3c14b;stroke:#a86500;stroke-width:1.3}
.same{stroke:#2e7d32;stroke-width:1.6}
.bracket{stroke:#56636f}
.print{font-size:11px}
.pale{font-size:11px;fill:#ffffff}
";

const ORDER: &str = "In small print what orders the log beside needs: lower block first, then \
                     priority before none and the greater first, then lower group, then lower \
                     sequence.";

/// A box at its left edge, and the word of its bracket.
struct Placed<'a> {
    x: usize,
    entry: &'a Entry,
    word: &'static str,
}

/// The word of boxes that are beside the log.
const HELD: &str = "held";
/// The words over the arrival.
const ARRIVES: &str = "arrives late";

/// The size of all boxes and of the drawing's width.
struct Grid {
    wide: usize,
    high: usize,
    width: usize,
}

/// The drawing.
pub fn draw(rows: &Rows) -> String {
    let grid = Grid::new(rows);
    let mut svg = Svg::with(STYLE);
    let mut y = frame::heading(&mut svg, &rows.title, &rows.about);
    for first in (0..rows.new.len()).step_by(MOST) {
        let last = rows.new.len().min(first + MOST);
        band(&mut svg, rows, &grid, first..last, y);
        y += 2 * grid.lane() + BETWEEN + BANDS;
    }
    let lines = legend(&mut svg, rows, (y, grid.width));
    y += WORDS * lines;
    svg.text("small", (16, y), ORDER);
    svg.finish(&rows.title, (grid.width, y + WORDS))
}

impl Grid {
    fn new(rows: &Rows) -> Grid {
        let entries = || rows.new.iter();
        let words = entries().flat_map(|entry| [entry.words(false), entry.words(true)]);
        let words: Vec<Vec<String>> = words.collect();
        let lines = words.iter().map(Vec::len).max().unwrap_or(0);
        let names = entries().map(|entry| &entry.name);
        let wide = words.iter().flatten().chain(names).map(|w| width_of(w));
        let wide = wide.max().unwrap_or(0).max(width_of(ARRIVES)) + 12;
        let boxes = LEFT + rows.new.len().min(MOST) * (wide + GAP) + GAP;
        Grid {
            wide,
            high: NAME + PRINT * lines,
            width: boxes.max(LEAST),
        }
    }

    /// The left edge of a box.
    fn x(&self, slot: usize) -> usize {
        LEFT + slot * (self.wide + GAP)
    }

    /// The height of a row with its bracket.
    fn lane(&self) -> usize {
        2 * EDGE + BRACKET + self.high
    }
}

/// The part of the log after in a range of places, and above it what the log before has of it.
fn band(svg: &mut Svg, rows: &Rows, grid: &Grid, range: Range<usize>, top: usize) {
    let below = top + grid.lane() + BETWEEN;
    let (from, to) = (top + EDGE + BRACKET, below + EDGE);
    let (old, new) = (old(rows, grid, &range), new(rows, grid, &range));
    let places = || rows.places.iter().copied();
    let first = places().filter(|place| *place < range.start).count();
    let joined = places().filter(|place| range.contains(place));
    let count = joined.clone().count();
    lane(svg, grid, "Log before", first..first + count, top);
    lane(svg, grid, "Log after", range.clone(), below);
    let half = grid.wide / 2;
    for (slot, place) in joined.enumerate() {
        let (old, new) = (grid.x(slot) + half, grid.x(place - range.start) + half);
        svg.line("same", (old, from + grid.high), (new, to));
    }
    for placed in new.iter().filter(|placed| placed.entry.look == Look::Late) {
        svg.text("blue mid", (placed.x + half, below - 6), ARRIVES);
    }
    boxes(svg, grid, &old, from);
    boxes(svg, grid, &new, to);
    brackets(svg, grid, &old, (from - 8, from - 4, from - 13));
    let end = to + grid.high;
    brackets(svg, grid, &new, (end + 8, end + 4, end + 21));
}

/// The ground of a row, with its name and the places that it has.
fn lane(svg: &mut Svg, grid: &Grid, name: &str, places: Range<usize>, top: usize) {
    svg.rect("lane", (8, top), (grid.width - 16, grid.lane()), 6);
    let middle = top + grid.lane() / 2;
    svg.text("head", (16, middle), name);
    if !places.is_empty() {
        let words = format!("places {} to {}", places.start, places.end - 1);
        svg.text("small", (16, middle + 16), &words);
    }
}

/// The old row: its part of the log, and beside it what is held.
fn old<'a>(rows: &'a Rows, grid: &Grid, range: &Range<usize>) -> Vec<Placed<'a>> {
    let mut placed = Vec::new();
    for place in rows.places.iter().filter(|place| range.contains(place)) {
        let (x, entry) = (grid.x(placed.len()), &rows.new[*place]);
        let kept = entry.look == Look::Kept;
        let word = if kept { "kept" } else { "undone" };
        placed.push(Placed { x, entry, word });
    }
    let part = &rows.new[range.clone()];
    for entry in part.iter().filter(|entry| entry.look == Look::Freed) {
        let (x, word) = (grid.x(placed.len()) + GAP, HELD);
        placed.push(Placed { x, entry, word });
    }
    placed
}

/// The new row.
fn new<'a>(rows: &'a Rows, grid: &Grid, range: &Range<usize>) -> Vec<Placed<'a>> {
    let part = rows.new[range.clone()].iter().enumerate();
    let placed = part.map(|(slot, entry)| {
        let kept = entry.look == Look::Kept;
        let word = if kept { "kept" } else { "executed" };
        let x = grid.x(slot);
        Placed { x, entry, word }
    });
    placed.collect()
}

/// The classes of a box, of its name and of its small print.
fn classes(look: Look, held: bool) -> (&'static str, &'static str, &'static str) {
    match look {
        _ if held => ("held", "amber mid", "print mid"),
        Look::Kept => ("executed", "light mid", "pale mid"),
        Look::Again => ("again", "green mid", "print mid"),
        Look::Late => ("composed", "light mid", "pale mid"),
        Look::Freed => ("freed", "amber mid", "print mid"),
    }
}

fn boxes(svg: &mut Svg, grid: &Grid, row: &[Placed], top: usize) {
    for Placed { x, entry, word } in row {
        let held = *word == HELD;
        let (ground, name, print) = classes(entry.look, held);
        svg.rect(ground, (*x, top), (grid.wide, grid.high), 4);
        let middle = x + grid.wide / 2;
        svg.text(name, (middle, top + 16), &entry.name);
        for (line, words) in entry.words(held).iter().enumerate() {
            svg.text(print, (middle, top + 16 + PRINT * (line + 1)), words);
        }
    }
}

/// A bracket over each stretch of boxes that have the same word: the heights of the bracket, of
/// the ends that it turns to the boxes, and of the word.
fn brackets(svg: &mut Svg, grid: &Grid, row: &[Placed], (y, end, base): (usize, usize, usize)) {
    let mut rest = row;
    while let Some(first) = rest.first() {
        let count = rest.iter().take_while(|p| p.word == first.word).count();
        let (left, right) = (first.x, rest[count - 1].x + grid.wide);
        svg.line("bracket", (left, y), (right, y));
        svg.line("bracket", (left, y), (left, end));
        svg.line("bracket", (right, y), (right, end));
        svg.text("small", (left, base), first.word);
        rest = &rest[count..];
    }
}

/// What each box that is there means; the lines that it takes.
fn legend(svg: &mut Svg, rows: &Rows, at: (usize, usize)) -> usize {
    let mut looks = vec![
        (Look::Kept, false, "kept"),
        (Look::Again, false, "undone and executed again"),
        (Look::Late, false, ARRIVES),
        (Look::Freed, true, "held: what it needs is not in the log"),
        (Look::Freed, false, "held before, executed now"),
    ];
    looks.retain(|(look, ..)| rows.new.iter().any(|entry| entry.look == *look));
    let wide = 12 + width_of("A1");
    let words: Vec<_> = looks.iter().map(|(.., words)| (wide, *words)).collect();
    frame::legend(svg, &words, at, |svg, place, (x, y)| {
        let (look, held, _) = looks[place];
        let (ground, name, _) = classes(look, held);
        svg.rect(ground, (x, y - 10), (wide, 20), 4);
        svg.text(name, (x + wide / 2, y + 4), "A1");
    })
}
