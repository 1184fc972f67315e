//! What stands around a picture: the heading above, and below what its marks mean.

use super::layout::width_of;
use super::svg::Svg;

/// Left of all words.
const LEFT: usize = 16;
/// From one line of words to the next, above and below.
const ABOUT: usize = 18;
const LEGEND: usize = 24;

/// Title, and what it is about; the base line of what may follow.
pub fn heading(svg: &mut Svg, title: &str, about: &[String]) -> usize {
    svg.text("title", (LEFT, 26), title);
    let mut y = 46;
    for words in about {
        svg.text("", (LEFT, y), words);
        y += ABOUT;
    }
    y
}

/// What each mark means, in as many lines as it takes, which are counted. A mark is put by its
/// place among these widths and words.
pub fn legend(
    svg: &mut Svg,
    marks: &[(usize, &str)],
    (top, width): (usize, usize),
    put: impl Fn(&mut Svg, usize, (usize, usize)),
) -> usize {
    let (mut x, mut y) = (LEFT, top);
    let mut lines = 1;
    for (place, (wide, words)) in marks.iter().enumerate() {
        let whole = wide + width_of(words) + 28;
        if x + whole > width {
            (x, y) = (LEFT, y + LEGEND);
            lines += 1;
        }
        put(svg, place, (x, y));
        svg.text("", (x + wide + 6, y + 4), words);
        x += whole;
    }
    lines
}
