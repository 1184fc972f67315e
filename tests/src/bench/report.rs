//! The tables of the benchmark.

use crate::bench::cases::{Arrival, Case, Shape, Spec, COUNTS, FLOORED, GROWING};
use crate::bench::measure::{clock, measure, Effort, Timing};
use crate::bench::sides::{FIRST, NAMES};

/// A case and its times.
pub type Row = (Spec, Timing);

/// Measures the cases and prints a line for each, then the growth with the number of
/// deltas. Stops at a case on which the sides differ.
pub fn run(specs: &[Spec], effort: Effort) -> Result<Vec<Row>, String> {
    print_head();
    let mut rows: Vec<Row> = Vec::new();
    let mut rest = specs;
    while let Some(first) = rest.first() {
        let group = rest.iter().take_while(|spec| together(first, spec)).count();
        let (now, later) = rest.split_at(group);
        let cases: Vec<Case> = now.iter().map(Spec::build).collect();
        for (spec, timing) in now.iter().zip(measure(&cases, effort)?) {
            print_row(spec, &timing);
            rows.push((*spec, timing));
        }
        rest = later;
    }
    print_growth(&rows);
    print_floors(&rows);
    print_extremes(&rows);
    Ok(rows)
}

/// Whether two cases are measured in the same rounds: those of one row of the growth, and the
/// purges of one shape.
fn together(one: &Spec, two: &Spec) -> bool {
    let purge = |spec: &Spec| matches!(spec.arrival, Arrival::Purge(_));
    let alike = one.arrival == two.arrival || (purge(one) && purge(two));
    one.shape == two.shape && alike
}

/// Says that there is no library, if so.
pub fn print_sides() {
    if !cfg!(feature = "library-deliver") {
        println!("NO LIBRARY: built without the feature `library`. The column `{FIRST}` is the");
        println!("second implementation once more, and what differs from it is noise.");
    } else if !cfg!(feature = "library-purge") {
        println!("NO PURGE OF THE LIBRARY: built without the feature `library-purge`. Of purges");
        println!("the column `{FIRST}` is the second implementation once more.");
    }
}

fn print_head() {
    print_sides();
    println!("Nanoseconds a call: the median over the rounds, and the worst of them. In a round");
    println!("all sides take turns, and who goes first alternates; the cases that differ only in");
    println!("the number of deltas, or of those that are purged, share their rounds. A whole log");
    println!("is as many calls as it has places.");
    println!("Each timed call follows an untimed one of the same side, and gets a fresh copy of");
    println!("image and step buffer, made outside the timed part. Calls that write nothing, and");
    println!(
        "those on texts, which write nothing that they read, are timed in batches on one such"
    );
    println!("copy, and the worst is that of a batch.");
    println!();
    println!("What flatters whom:");
    println!("- the library: the second implementation allocates in every call, was written to be");
    println!("  read and not to be fast, and is built with overflow checks;");
    println!(
        "- the second: it compares bytes by the C library's memcmp, which is made for this very"
    );
    println!("  processor, and finds its memory warm; the library is built for any x86-64;");
    println!(
        "- both: buffers, code and the branches of that very input are warm from the copy and"
    );
    println!("  the call before. A station that gets a delivery now and then waits longer;");
    println!("- neither: the worst round has in it whatever else the machine did meanwhile.");
    println!(
        "The clock itself takes {:.0} ns. Copy: 16,384 bytes.",
        clock()
    );
    println!();
    print!("{:<22}", "case");
    for side in &NAMES[..2] {
        print!("{side:>10}{:>10}", "worst");
    }
    let (ratio, copies) = (format!("{FIRST}/2nd"), format!("{FIRST}/copy"));
    print!("{ratio:>13}{copies:>14}{:>8}", "rounds");
    if let Some(side) = NAMES.get(2) {
        let ratio = format!("{FIRST}/{side}");
        print!("{side:>10}{:>10}{ratio:>16}", "worst");
    }
    println!();
}

fn print_row(spec: &Spec, timing: &Timing) {
    print!("{:<22}", spec.to_string());
    for side in [timing.library(), timing.second()] {
        print!("{:>10.0}{:>10.0}", side.median, side.worst);
    }
    let copies = timing.library().median / timing.copy.median;
    print!("{:>13.2}{copies:>14.1}{:>8}", timing.ratio(), timing.rounds);
    if let Some(earlier) = timing.earlier() {
        let ratio = timing.library().median / earlier.median;
        print!(
            "{:>10.0}{:>10.0}{ratio:>16.2}",
            earlier.median, earlier.worst
        );
    }
    println!();
}

/// The counts between which growth is given.
const FEW: usize = 16;
const MANY: usize = 63;

/// The times at both counts and the slope between them, for each side.
fn print_growth(rows: &[Row]) {
    if !rows.iter().any(|(spec, _)| spec.count == FEW) {
        return;
    }
    println!();
    println!("Growth from {FEW} to {MANY} deltas as a slope: the logarithm of the times' ratio over that");
    println!("of the counts'. 1 is twice the time for twice the deltas, 2 is four times.");
    print!("{:<22}", "shape and arrival");
    for side in NAMES {
        print!("{:>12}{FEW:>4}{MANY:>10}{:>8}", side, "slope");
    }
    println!();
    for (shape, arrival) in GROWING {
        let at = |count| time(rows, shape, arrival, count);
        if let (Some(few), Some(many)) = (at(FEW), at(MANY)) {
            print!("{:<22}", format!("{shape}-{arrival}"));
            for (few, many) in few.sides.iter().zip(&many.sides) {
                let slope = slope(few.median, many.median);
                print!("{:>16.0}{:>10.0}{slope:>8.2}", few.median, many.median);
            }
            println!();
        }
    }
}

/// What 32 floors cost: the time of a case behind them over that of the same without.
fn print_floors(rows: &[Row]) {
    let mut lines = Vec::new();
    for (shape, arrival) in GROWING {
        let plain = FLOORED.iter().find(|(floored, _)| *floored == shape);
        for count in COUNTS {
            let with = time(rows, shape, arrival, count);
            let without = plain.and_then(|(_, plain)| time(rows, *plain, arrival, count));
            if let (Some(with), Some(without)) = (with, without) {
                let name = format!("{shape}-{arrival}-{count}");
                lines.push(format!("{name:<22}{}", ratios(with, without)));
            }
        }
    }
    if !lines.is_empty() {
        println!();
        println!("32 floors: the time of a case over that of the same without floors, {NAMES:?}.");
        lines.iter().for_each(|line| println!("{line}"));
    }
}

/// The ratio of two timings, for each side.
fn ratios(one: &Timing, other: &Timing) -> String {
    let sides = one.sides.iter().zip(&other.sides);
    let ratios = sides.map(|(one, other)| format!("{:>10.2}", one.median / other.median));
    ratios.collect()
}

/// What was measured of a shape and an arrival at a count.
fn time(rows: &[Row], shape: Shape, arrival: Arrival, count: usize) -> Option<&Timing> {
    let wanted = Spec::new(shape, arrival, count);
    let mut rows = rows.iter();
    rows.find(|(spec, _)| *spec == wanted).map(|row| &row.1)
}

/// The exponent of a power of the count that takes the one time to the other.
fn slope(few: f64, many: f64) -> f64 {
    (many / few).ln() / (MANY as f64 / FEW as f64).ln()
}

/// The cases that are worst by time and by ratio. A whole log is many calls, and has no place
/// among the times of one.
fn print_extremes(rows: &[Row]) {
    println!();
    let time = |row: &Row| row.1.library().median;
    let single = rows.iter().filter(|row| row.0.arrival != Arrival::Whole);
    if let Some((spec, timing)) = greatest(single, time) {
        let median = timing.library().median;
        println!("Slowest: {spec}, {median:.0} ns.");
    }
    let ratio = |row: &Row| row.1.ratio();
    if let Some((spec, timing)) = greatest(rows.iter(), ratio) {
        println!("Slowest against the second: {spec}, {:.2}.", timing.ratio());
    }
}

/// The row of the greatest value.
pub fn greatest<'a>(
    rows: impl Iterator<Item = &'a Row>,
    value: impl Fn(&Row) -> f64,
) -> Option<&'a Row> {
    rows.max_by(|one, two| value(one).total_cmp(&value(two)))
}

#[cfg(test)]
mod tests {
    use super::slope;

    #[test]
    fn the_slope_is_the_exponent() {
        let near = |found: f64, wanted: f64| (found - wanted).abs() < 1e-9;
        assert!(near(slope(32.0, 126.0), 1.0));
        assert!(near(slope(256.0, 3_969.0), 2.0));
        assert!(near(slope(7.0, 7.0), 0.0));
    }
}
