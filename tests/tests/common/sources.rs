//! The definitions, the laws and the code under `crates/`, and where a name is declared.

use std::fs;
use std::path::{Path, PathBuf};

pub fn root() -> PathBuf {
    Path::new(env!("CARGO_MANIFEST_DIR")).join("..")
}

/// Where a name is looked for.
#[derive(Clone, Debug, PartialEq, Eq)]
pub enum Place {
    Anywhere,
    /// The files of a name.
    Files(String),
    /// The code of a crate.
    Code(String),
}

impl Place {
    fn has(&self, file: &Path) -> bool {
        match self {
            Place::Anywhere => true,
            Place::Files(stem) => is_named(file, stem),
            Place::Code(of) => file.starts_with(root().join("crates").join(of).join("src")),
        }
    }
}

fn is_named(file: &Path, stem: &str) -> bool {
    file.file_stem().map_or(false, |is| is == stem)
}

/// Every file of a kind below a folder, but for what rt has made in a crate's `out`.
fn files_below(folder: &Path, ending: &str) -> Vec<PathBuf> {
    let mut files = Vec::new();
    for entry in fs::read_dir(folder).into_iter().flatten().flatten() {
        let path = entry.path();
        if path.is_dir() && !path.ends_with("out") {
            files.extend(files_below(&path, ending));
        } else if path.extension().map_or(false, |is| is == ending) {
            files.push(path);
        }
    }
    files
}

/// Whether a line declares a name: the words before it are those of a declaration, and behind it
/// the name has ended.
fn declares(line: &str, name: &str) -> bool {
    const BEFORE: [&str; 12] = [
        "pub",
        "abbrev",
        "unfoldable",
        "record",
        "data",
        "module",
        "fn",
        "struct",
        "enum",
        "const",
        "extern",
        "\"C\"",
    ];
    let mut rest = line.trim_start();
    while let Some((word, behind)) = rest.split_once(' ') {
        if !BEFORE.contains(&word) {
            break;
        }
        rest = behind;
    }
    let ended = |c: char| !c.is_alphanumeric() && !"_-\u{b7}\u{2032}'".contains(c);
    rest.strip_prefix(name)
        .map_or(false, |behind| behind.chars().next().map_or(true, ended))
}

/// The files, each with its text.
pub struct Sources {
    files: Vec<(PathBuf, String)>,
}

impl Sources {
    pub fn read() -> Sources {
        let mut files = files_below(&root().join("crates"), "antt");
        files.extend(files_below(&root().join("crates"), "rt"));
        let text = |path: PathBuf| {
            let text = fs::read_to_string(&path).unwrap_or_default();
            (path, text)
        };
        Sources {
            files: files.into_iter().map(text).collect(),
        }
    }

    /// Whether a name is declared at a place.
    pub fn has(&self, name: &str, place: &Place) -> bool {
        let mut chosen = self.files.iter().filter(|(path, _)| place.has(path));
        chosen.any(|(_, text)| text.lines().any(|line| declares(line, name)))
    }

    /// Whether a place has a file of this name.
    pub fn has_file(&self, stem: &str, place: &Place) -> bool {
        let mut paths = self.files.iter().map(|(path, _)| path);
        paths.any(|path| place.has(path) && is_named(path, stem))
    }
}

/// The laws that a file passes on: public, with a name in small letters and a type, and no field of a record.
pub fn laws(text: &str) -> Vec<&str> {
    let mut record = None;
    let mut laws = Vec::new();
    for line in text.lines().filter(|line| !line.is_empty()) {
        let depth = line.len() - line.trim_start().len();
        if record.map_or(false, |of| depth <= of) {
            record = None;
        }
        let words = line.trim_start();
        if words.starts_with("pub record ") {
            record = Some(depth);
        }
        let declared = words
            .strip_prefix("pub ")
            .and_then(|rest| rest.split_once(" : "));
        if let (None, Some((name, _))) = (record, declared) {
            if name.starts_with(|c: char| c.is_ascii_lowercase()) && !name.contains(' ') {
                laws.push(name);
            }
        }
    }
    laws
}
