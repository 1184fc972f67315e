//! What a line of a picture says.

#![deny(warnings)]

/// The value of an attribute in a line of a picture.
pub fn attribute<'a>(line: &'a str, name: &str) -> &'a str {
    let (_, rest) = line.split_once(&format!(" {name}=\"")).unwrap_or(("", ""));
    rest.split('"').next().unwrap_or("")
}

/// The same as a number; 0 where it is none.
pub fn number(line: &str, name: &str) -> usize {
    attribute(line, name).parse().unwrap_or(0)
}

/// The words in a line of text.
pub fn text(line: &str) -> &str {
    let (_, text) = line.split_once('>').unwrap_or(("", ""));
    text.trim_end_matches("</text>")
}
