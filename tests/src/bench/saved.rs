//! A table saved by one run, and a later run held against it.
//!
//! The machine is not the same twice: times of the same code differ by some 15 % from run
//! to run, and by half on a busy machine. The ratio to the second implementation, taken
//! within each run, differs less, as long as that is the same code in both.

use std::fs;

use crate::bench::report::{greatest, Row};
use crate::bench::sides::FIRST;

const HEAD: &str = "case, nanoseconds: library, worst, second, worst, copy";

/// Writes the table of a run.
pub fn save(rows: &[Row], file: &str) -> Result<(), String> {
    let mut text = format!("{HEAD}; first side: {FIRST}\n");
    for (spec, timing) in rows {
        let (library, second) = (timing.library(), timing.second());
        text += &format!(
            "{spec}\t{:.1}\t{:.1}\t{:.1}\t{:.1}\t{:.1}\n",
            library.median, library.worst, second.median, second.worst, timing.copy.median
        );
    }
    fs::write(file, text).map_err(|error| format!("{file}: {error}"))
}

/// The medians of the library and of the second implementation, then.
#[derive(Clone, Debug, PartialEq)]
pub struct Then {
    name: String,
    library: f64,
    second: f64,
}

/// A table as it was saved. It must be one of the library.
pub fn read(file: &str) -> Result<Vec<Then>, String> {
    let text = fs::read_to_string(file).map_err(|error| format!("{file}: {error}"))?;
    parse(&text).ok_or_else(|| format!("{file} is no table that was saved of the library"))
}

fn parse(text: &str) -> Option<Vec<Then>> {
    let rest = text.strip_prefix(HEAD)?;
    let rows = rest.strip_prefix("; first side: library\n")?;
    rows.lines().map(row).collect()
}

fn row(line: &str) -> Option<Then> {
    let fields: Vec<&str> = line.split('\t').collect();
    Some(Then {
        name: fields.first()?.to_string(),
        library: fields.get(1)?.parse().ok()?,
        second: fields.get(3)?.parse().ok()?,
    })
}

/// Prints what became of each case, and where least was won.
pub fn print(rows: &[Row], then: &[Then], file: &str) {
    println!();
    println!("Against {file}. The first pair of columns is {FIRST}/second, each of its own run;");
    println!("`now/then` is the one over the other and is what to look at. `time` is the time of");
    println!("{FIRST} now over that of then, with all that the machine did differently.");
    println!(
        "{:<22}{:>10}{:>10}{:>10}{:>10}",
        "case", "now", "then", "now/then", "time"
    );
    let found = |row: &Row| then.iter().find(|then| then.name == row.0.to_string());
    let change =
        |row: &Row| found(row).map_or(f64::NEG_INFINITY, |then| row.1.ratio() / then.ratio());
    for row in rows {
        if let Some(then) = found(row) {
            let time = row.1.library().median / then.library;
            println!(
                "{:<22}{:>10.2}{:>10.2}{:>10.2}{time:>10.2}",
                then.name,
                row.1.ratio(),
                then.ratio(),
                change(row)
            );
        }
    }
    for count in [0, 63] {
        let rows = rows
            .iter()
            .filter(|row| row.0.count == count && found(row).is_some());
        if let Some(row) = greatest(rows, change) {
            println!(
                "Least was won at {count} deltas: {}, {:.2}.",
                row.0,
                change(row)
            );
        }
    }
}

impl Then {
    fn ratio(&self) -> f64 {
        self.library / self.second
    }
}

#[cfg(test)]
mod tests {
    use super::{parse, Then, HEAD};

    #[test]
    fn a_table_is_read_back_and_nothing_else_is() {
        let row = "chain-latest-0\t9.5\t20.0\t2.0\t4.0\t1.0";
        let then = Then {
            name: "chain-latest-0".to_string(),
            library: 9.5,
            second: 2.0,
        };
        let text = format!("{HEAD}; first side: library\n{row}\n");
        assert_eq!(parse(&text), Some(vec![then]));
        assert_eq!(parse(&format!("{HEAD}; first side: itself\n{row}\n")), None);
        assert_eq!(parse(&text.replace('\t', " ")), None);
        assert_eq!(parse(""), None);
    }
}
