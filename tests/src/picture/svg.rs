//! Plain SVG: shapes at places, each with a class that says how it looks.

use std::fmt::Write;

/// How each class looks. Colours are for the drawing's own light ground.
const STYLE: &str = "
text{font-family:Helvetica,Arial,sans-serif;font-size:12px;fill:#1c2733}
.ground{fill:#fdfdfb}
.title{font-size:17px;font-weight:bold}
.head{font-weight:bold;font-size:13px}
.small{font-size:11px;fill:#56636f}
.mid{text-anchor:middle}
.lane{fill:#eef2f6}
.old{fill:#faeceb}
.axis{stroke:#c3ccd5}
.tick{stroke:#dde3e9}
.flight{stroke:#8fa6bd;stroke-width:1.2;fill:none}
.missed{stroke:#c62828;stroke-width:1.4;stroke-dasharray:4 3;fill:none}
.lost{stroke:#c62828;stroke-width:2.4;fill:none}
.composed{fill:#1f5fbf}
.sent{fill:#1f5fbf}
.arrived{fill:#fdfdfb;stroke:#1f5fbf;stroke-width:1.8}
.executed{fill:#2e7d32}
.undone{fill:#fdfdfb;stroke:#c62828;stroke-width:1.3}
.held{fill:#fff0c2;stroke:#a86500;stroke-width:1.3;stroke-dasharray:3 2}
.queued{fill:#f7d4d1;stroke:#b71c1c;stroke-width:1.3;stroke-dasharray:3 2}
.restarted{fill:#fdfdfb;stroke:#56636f}
.light{fill:#ffffff;font-weight:bold}
.blue{fill:#174a96;font-weight:bold}
.red{fill:#b71c1c;font-weight:bold}
.amber{fill:#7a4a00;font-weight:bold}
.green{fill:#1b5e20;font-weight:bold}
.struck{stroke:#c62828;stroke-width:1.3}
.waits{fill:#f3c14b}
.behind{fill:#e06c65}
";

/// A drawing as it grows. Places are in pixels from the upper left corner.
#[derive(Clone, Debug, Default)]
pub struct Svg {
    body: String,
    /// Classes beside those that all drawings have.
    classes: &'static str,
}

impl Svg {
    /// A drawing with classes of its own.
    pub fn with(classes: &'static str) -> Svg {
        let body = String::new();
        Svg { body, classes }
    }

    /// A rectangle with round corners.
    pub fn rect(&mut self, class: &str, at: (usize, usize), size: (usize, usize), round: usize) {
        let ((x, y), (width, height)) = (at, size);
        let _ = writeln!(
            self.body,
            "<rect class=\"{class}\" x=\"{x}\" y=\"{y}\" width=\"{width}\" height=\"{height}\" \
             rx=\"{round}\"/>"
        );
    }

    /// A line.
    pub fn line(&mut self, class: &str, from: (usize, usize), to: (usize, usize)) {
        let ((x1, y1), (x2, y2)) = (from, to);
        let _ = writeln!(
            self.body,
            "<line class=\"{class}\" x1=\"{x1}\" y1=\"{y1}\" x2=\"{x2}\" y2=\"{y2}\"/>"
        );
    }

    /// A circle.
    pub fn circle(&mut self, class: &str, (x, y): (usize, usize), radius: usize) {
        let _ = writeln!(
            self.body,
            "<circle class=\"{class}\" cx=\"{x}\" cy=\"{y}\" r=\"{radius}\"/>"
        );
    }

    /// A filled shape by its corners.
    pub fn shape(&mut self, class: &str, corners: &[(usize, usize)]) {
        let corners: Vec<String> = corners.iter().map(|(x, y)| format!("{x},{y}")).collect();
        let corners = corners.join(" ");
        let _ = writeln!(
            self.body,
            "<polygon class=\"{class}\" points=\"{corners}\"/>"
        );
    }

    /// A line of text, if there are words; its base line begins at the place.
    pub fn text(&mut self, class: &str, (x, y): (usize, usize), words: &str) {
        if words.is_empty() {
            return;
        }
        let words = words.replace('&', "&amp;").replace('<', "&lt;");
        let _ = writeln!(
            self.body,
            "<text class=\"{class}\" x=\"{x}\" y=\"{y}\">{words}</text>"
        );
    }

    /// The whole file.
    pub fn finish(self, title: &str, (width, height): (usize, usize)) -> String {
        format!(
            "<svg xmlns=\"http://www.w3.org/2000/svg\" width=\"{width}\" height=\"{height}\" \
             viewBox=\"0 0 {width} {height}\">\n<title>{title}</title>\n<style>{STYLE}{}</style>\n\
             <rect class=\"ground\" width=\"{width}\" height=\"{height}\"/>\n{}</svg>\n",
            self.classes, self.body
        )
    }
}
