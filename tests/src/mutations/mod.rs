//! The table of `mutations.txt`: changes of the second implementation, each of which the
//! tests must catch.

pub mod trial;

/// The tests that are run on each change first: those of few inputs.
pub const QUICK: [&str; 22] = [
    "examples",
    "codes",
    "edges_message",
    "edges_image",
    "edges_log",
    "edges_floors",
    "floors",
    "purge",
    "edges_purge",
    "edges_compose",
    "edges_buffers",
    "edges_steps",
    "edges_text",
    "published",
    "plant_fault",
    "story",
    "late_picture",
    "format",
    "listing",
    "sequences",
    "print_log",
    "lowest_code",
];

/// The tests that are run after those: of many inputs. The tests of the differential runner
/// are not among them, as they would compare the second implementation with itself. The
/// last one sees nearly every change by digests, which name no rule.
pub const SLOW: [&str; 16] = [
    "accepted",
    "generator",
    "limits",
    "limits_floors",
    "limits_purges",
    "purge_small",
    "purge_runs",
    "brute_force",
    "hostile",
    "round_trips",
    "properties",
    "late_arrivals",
    "hardware",
    "plant",
    "hazards",
    "offsets",
];

/// One change: in a file of `src/reference`, one text for another.
#[derive(Clone, Debug, Default, PartialEq, Eq)]
pub struct Mutation {
    pub name: String,
    pub file: String,
    pub old: String,
    pub new: String,
    /// The suite and the test that names the rule, and must fail.
    pub by: Option<(String, String)>,
    /// Why no call can show it, where that is so.
    pub equivalent: Option<String>,
}

impl Mutation {
    /// The source with the change, if its text stands there exactly once.
    pub fn apply(&self, source: &str) -> Result<String, String> {
        match source.matches(&self.old).count() {
            1 => Ok(source.replacen(&self.old, &self.new, 1)),
            count => Err(format!("its text stands {count} times in {}", self.file)),
        }
    }

    /// The change of one block of the table.
    fn read(block: &str) -> Result<Mutation, String> {
        let mut mutation = Mutation::default();
        for line in block.lines().filter(|line| !line.starts_with('#')) {
            let (key, value) = line.split_once(": ").unwrap_or((line, ""));
            let value = value.to_string();
            match key {
                "name" => mutation.name = value,
                "file" => mutation.file = value,
                "old" => mutation.old = value,
                "new" => mutation.new = value,
                "equivalent" => mutation.equivalent = Some(value),
                "by" => {
                    let (suite, test) = value.split_once(' ').unwrap_or((&value, ""));
                    mutation.by = Some((suite.to_string(), test.to_string()));
                }
                _ => return Err(format!("not understood: {line}")),
            }
        }
        let parts = [&mutation.name, &mutation.file, &mutation.old, &mutation.new];
        if parts.iter().any(|part| part.is_empty()) || mutation.old == mutation.new {
            return Err(format!("not a change: {block}"));
        }
        Ok(mutation)
    }
}

/// The changes of the table. Lines that begin with # are remarks.
pub fn read(table: &str) -> Result<Vec<Mutation>, String> {
    let is_remark = |block: &&str| block.lines().all(|line| line.starts_with('#'));
    let blocks = table.split("\n\n").map(str::trim);
    blocks
        .filter(|block| !block.is_empty() && !is_remark(block))
        .map(Mutation::read)
        .collect()
}
