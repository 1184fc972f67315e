//! Every path that docs/PROMISES.md cites exists, every test is in the file named with it,
//! every must-fail edit is there, and every definition, law and function is declared where it is
//! said to be. Cited is what stands between backquotes: a path; a path, a colon and names, with
//! commas between; in a column of tests, the name of one more of the same file; in a column of
//! must-fail edits, CRATE/NAME, or NAME alone for one more of the same crate; in the columns of
//! definitions and of laws, CRATE::NAME, FILE.NAME, and NAME or .NAME of a field, which stand where
//! the one before them in the cell does. A star, CRATE and NAME stand for anything.
//! And every end theorem is cited, so that one that is gone is missed.

#![deny(warnings)]

#[path = "common/sources.rs"]
mod sources;

use std::fs;
use std::path::{Path, PathBuf};

use sources::{laws, root, Place, Sources};

const FOLDERS: [&str; 6] = ["crates/", "tests/", "docs/", "include/", "samples/", ".ci/"];

/// Whether a name is that of a pattern, in which stars stand for anything.
fn fits(pattern: &str, name: &str) -> bool {
    match pattern.split_once('*') {
        None => pattern == name,
        Some((start, rest)) => name.strip_prefix(start).map_or(false, |tail| {
            (0..=tail.len()).any(|at| tail.is_char_boundary(at) && fits(rest, &tail[at..]))
        }),
    }
}

/// The files and folders of a path with stars in it.
fn found(path: &str) -> Vec<PathBuf> {
    let mut places = vec![root()];
    for part in path.trim_end_matches('/').split('/') {
        let part = part.replace("CRATE", "*").replace("NAME", "*");
        let entries = places.iter().filter_map(|place| fs::read_dir(place).ok());
        let entries = entries.flatten().filter_map(|entry| entry.ok());
        places = entries
            .filter(|entry| fits(&part, &entry.file_name().to_string_lossy()))
            .map(|entry| entry.path())
            .collect();
    }
    places
}

/// Whether a file has a test of this name; a file that is not Rust, the name.
fn has(file: &Path, name: &str) -> bool {
    let text = fs::read_to_string(file).unwrap_or_default();
    match file
        .extension()
        .map_or(false, |extension| extension == "rs")
    {
        true => text.contains(&format!("#[test]\nfn {name}()")),
        false => text.contains(name),
    }
}

/// The texts between backquotes.
fn quoted(text: &str) -> Vec<&str> {
    text.split('`').skip(1).step_by(2).collect()
}

/// What a citation of a path, alone or with names, cites in vain.
fn missing_path(cited: &str) -> Vec<String> {
    let (path, names) = cited.split_once(": ").unwrap_or((cited, ""));
    let files = found(path);
    if files.is_empty() {
        return vec![format!("{path} is not there")];
    }
    let names = names.split(',').map(str::trim);
    names
        .filter(|name| !name.is_empty() && !files.iter().any(|file| has(file, name)))
        .map(|name| format!("{path} has no {name}"))
        .collect()
}

/// Whether a word is like the name of a test.
fn is_name(word: &str) -> bool {
    let is_part = |c: char| c.is_ascii_lowercase() || c.is_ascii_digit() || c == '_';
    word.contains('_') && word.chars().all(is_part)
}

/// What a cell of tests cites in vain beside paths: names of the file cited before them.
fn missing_names(cell: &str) -> Vec<String> {
    let mut missing = Vec::new();
    let mut file = "";
    for cited in quoted(cell) {
        if is_path(cited) {
            file = cited.split(": ").next().unwrap_or("");
        } else if is_name(cited) && file.is_empty() {
            missing.push(format!("no file is named for {cited}"));
        } else if is_name(cited) {
            missing.extend(missing_path(&format!("{file}: {cited}")));
        }
    }
    missing
}

/// Whether a citation is a path.
fn is_path(cited: &str) -> bool {
    FOLDERS.iter().any(|folder| cited.starts_with(folder))
}

/// The must-fail edits among what a cell cites.
fn edits_in(cell: &str) -> String {
    let edits = quoted(cell).into_iter().filter(|cited| cited.contains('/'));
    edits.map(|edit| format!("`{edit}`")).collect()
}

/// What a cell of must-fail edits cites in vain.
fn missing_edits(cell: &str) -> Vec<String> {
    let mut missing = Vec::new();
    let mut of = "";
    for cited in quoted(cell) {
        if is_path(cited) {
            continue;
        }
        let (name_of, name) = cited.split_once('/').unwrap_or((of, cited));
        of = name_of;
        let path = format!("crates/{of}/must-fail/{name}.edit");
        if found(&path).is_empty() {
            missing.push(format!("{path} is not there"));
        }
    }
    missing
}

/// A name that a cell of definitions or of laws cites, and where it is looked for.
struct Citation<'a> {
    text: &'a str,
    name: &'a str,
    place: Place,
}

impl Citation<'_> {
    /// Whether it is declared there, or is the name of a file there, or of a crate.
    fn is_known(&self, sources: &Sources) -> bool {
        let is_crate = self.text == self.name && root().join("crates").join(self.name).is_dir();
        is_crate || sources.has(self.name, &self.place) || sources.has_file(self.name, &self.place)
    }
}

/// The names of a cell, without paths and edits. One that says no place stands where the one
/// before it does, and where none is said, anywhere.
fn citations<'a>(sources: &Sources, cell: &'a str) -> Vec<Citation<'a>> {
    let cited = quoted(cell)
        .into_iter()
        .filter(|cited| !cited.contains('/'));
    let mut place = Place::Anywhere;
    let citation = |text: &'a str| {
        let mut name = text;
        if let Some((path, of_code)) = text.rsplit_once("::") {
            place = Place::Code(path.split("::").next().unwrap_or("").to_string());
            name = of_code;
        } else if let Some((stem, of_file)) = text.split_once('.') {
            if !stem.is_empty() {
                place = Place::Files(stem.to_string());
            }
            name = of_file;
        } else if sources.has_file(text, &Place::Anywhere) {
            place = Place::Files(text.to_string());
        }
        let place = place.clone();
        Citation { text, name, place }
    };
    cited
        .flat_map(|cited| cited.split(' '))
        .map(citation)
        .collect()
}

/// What a cell of definitions, laws and contracts cites in vain.
fn unknown_names(sources: &Sources, cell: &str) -> Vec<String> {
    let citations = citations(sources, cell).into_iter();
    citations
        .filter(|citation| !citation.is_known(sources))
        .map(|citation| format!("nothing is called {}", citation.text))
        .collect()
}

/// A line of a text, and where it is a row of a table, its cells and the headings over them.
struct Row<'a> {
    number: usize,
    line: &'a str,
    heads: Vec<&'a str>,
    cells: Vec<&'a str>,
}

impl<'a> Row<'a> {
    /// The cell under a heading.
    fn cell(&self, heading: &str) -> &'a str {
        let place = |head: &&str| head.trim().starts_with(heading);
        let place = self.heads.iter().position(place);
        let cell = place.and_then(|place| self.cells.get(place));
        cell.copied().unwrap_or("")
    }

    /// The cells in which definitions, laws and functions are cited.
    fn named(&self) -> [&'a str; 3] {
        ["Definition", "Law or contract", "Place"].map(|heading| self.cell(heading))
    }
}

/// The lines of a text; the headings are those of the last table's head.
fn rows(text: &str) -> Vec<Row<'_>> {
    let mut heads: Vec<&str> = Vec::new();
    let mut rows = Vec::new();
    for (number, line) in (1..).zip(text.lines()) {
        let cells: Vec<&str> = line.split('|').collect();
        if cells.len() == 1 {
            heads.clear();
        } else if heads.is_empty() {
            heads = cells.clone();
        }
        let heads = heads.clone();
        rows.push(Row {
            number,
            line,
            heads,
            cells,
        });
    }
    rows
}

/// Everything that a text cites in vain.
fn missing(text: &str) -> Vec<String> {
    let sources = Sources::read();
    let mut missing = Vec::new();
    for row in rows(text) {
        let paths = quoted(row.line).into_iter().filter(|cited| is_path(cited));
        let names = missing_names(row.cell("Example or test"));
        let edits = missing_edits(row.cell("Must-fail edit"));
        let placed = missing_edits(&edits_in(row.cell("Place")));
        let named = row.named();
        let unknown = named.iter().flat_map(|cell| unknown_names(&sources, cell));
        let all = paths.flat_map(missing_path).chain(names).chain(edits);
        let all = all.chain(placed).chain(unknown);
        missing.extend(all.map(|what| format!("line {}: {what}", row.number)));
    }
    missing
}

#[test]
fn every_citation_of_promises_is_there() {
    let text = fs::read_to_string(root().join("docs/PROMISES.md")).expect("the page is there");
    let missing = missing(&text);
    assert!(
        missing.is_empty(),
        "docs/PROMISES.md cites what is not there:\n{}",
        missing.join("\n")
    );
}

/// The laws of the crates on which nothing stands, or little, so that the proofs go on without them.
const END_THEOREMS: [&str; 4] = [
    "crates/claims/specs/Claims.antt",
    "crates/claims/specs/OwnCalls.antt",
    "crates/theorems/specs/Theorems.antt",
    "crates/theorems/specs/LateTheorems.antt",
];

#[test]
fn every_end_theorem_is_cited() {
    let sources = Sources::read();
    let page = fs::read_to_string(root().join("docs/PROMISES.md")).expect("the page is there");
    let cells = rows(&page).into_iter().flat_map(|row| row.named());
    let cited: Vec<Citation> = cells.flat_map(|cell| citations(&sources, cell)).collect();
    for file in END_THEOREMS.map(|path| root().join(path)) {
        let text = fs::read_to_string(&file).expect("the file is there");
        let stem = file.file_stem().expect("a name").to_string_lossy();
        let place = Place::Files(stem.to_string());
        let laws = laws(&text);
        assert!(laws.len() > 2, "{stem} has {laws:?} alone");
        let is_cited = |law: &&str| cited.iter().any(|c| c.name == *law && c.place == place);
        let rest: Vec<_> = laws.into_iter().filter(|law| !is_cited(law)).collect();
        assert!(
            rest.is_empty(),
            "{stem}: docs/PROMISES.md does not cite {rest:?}"
        );
    }
}

#[test]
fn laws_are_found() {
    let text = "-- a remark\n\
                pub record Law (b : List) : Type 0 where\n\
                \x20 pub field : b\n\
                \n\
                pub law : (b : List) → Law b\n\
                law b = other\n\
                module _ (b : List) where\n\
                \x20 pub inner : Law b\n\
                helper : Law\n\
                abbrev pub Name : Type\n\
                pub abbrev-not : Law";
    assert_eq!(laws(text), ["law", "inner", "abbrev-not"]);
}

/// The test itself: what it lets through and what it does not.
#[test]
fn citations_in_vain_are_listed() {
    let right = "see `tests/tests/promises.rs: citations_in_vain_are_listed`, `tests/src/*.rs`,\n\
                 `tests/tests/NAME.rs` and `docs/PROMISES.md`, `anything`";
    assert_eq!(missing(right), Vec::<String>::new());
    let wrong = "| Example or test | Must-fail edit |\n\
                 |---|---|\n\
                 | `tests/promises.rs` | `model/none`, `nor_this` |\n\
                 | `tests/tests/promises.rs: quoted, root`, `no_such` | – |\n\
                 | `no_file` and `tests/tests/promises.rs` and `Definition` | |\n\
                 \n\
                 | a | b |\n\
                 | `no_file` | `model/none` |\n\
                 \n\
                 | Definition | Law or contract |\n\
                 |---|---|\n\
                 | `Run.Agreement .equal`, `Codes`, `lowest_code` | `deliver::delivery::deliver`, `deliver::answer` |\n\
                 | `Run.Agreemen`, `Codes.Agreement`, `lowest_cod` | `deliver::delivery::delive`, `.equa` |";
    let listed = [
        "line 3: tests/promises.rs is not there",
        "line 3: crates/model/must-fail/none.edit is not there",
        "line 3: crates/model/must-fail/nor_this.edit is not there",
        "line 4: tests/tests/promises.rs has no quoted",
        "line 4: tests/tests/promises.rs has no root",
        "line 4: tests/tests/promises.rs has no no_such",
        "line 5: no file is named for no_file",
        "line 13: nothing is called Run.Agreemen",
        "line 13: nothing is called Codes.Agreement",
        "line 13: nothing is called lowest_cod",
        "line 13: nothing is called deliver::delivery::delive",
        "line 13: nothing is called .equa",
    ];
    assert_eq!(missing(wrong), listed);
}
