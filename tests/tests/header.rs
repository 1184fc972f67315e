//! What `include/bivamolune.h` gives beside the calls is run by a host in C, all of it; and the
//! calls that it declares are those that are compared, which are all that the archive exports.

#![deny(warnings)]

use std::collections::BTreeSet;
use std::fs;
use std::path::Path;

/// A file of the repository.
fn file(path: &str) -> String {
    let root = Path::new(env!("CARGO_MANIFEST_DIR")).join("..");
    fs::read_to_string(root.join(path)).expect("the file is there")
}

/// The words of a text in C.
fn words(text: &str) -> BTreeSet<&str> {
    let is_part = |character: char| character.is_ascii_alphanumeric() || character == '_';
    text.split(|character| !is_part(character)).collect()
}

/// The names of the inline functions that a text in C defines.
fn inline_functions(text: &str) -> Vec<&str> {
    let definitions = text.split("static inline ").skip(1);
    let heads = definitions.filter_map(|definition| definition.split('(').next());
    let names = heads.filter_map(|head| head.rsplit(&[' ', '*'][..]).next());
    names.collect()
}

/// The names of the functions that a text in C declares, each at the start of a line.
fn declared_functions(text: &str) -> BTreeSet<&str> {
    let starts = |line: &&str| line.starts_with(|c: char| c.is_ascii_alphabetic());
    let lines = text.lines().filter(starts);
    let heads = lines.filter(|line| !line.starts_with("static"));
    let heads = heads.filter_map(|line| line.split_once('(').map(|(head, _)| head));
    heads
        .filter_map(|head| head.rsplit(&[' ', '*'][..]).next())
        .collect()
}

#[test]
fn names_are_found() {
    let text =
        "static inline int f(int a) { return a; }\nint g(void);\nstatic inline const char *h(";
    assert_eq!(inline_functions(text), ["f", "h"]);
    assert_eq!(declared_functions(text), BTreeSet::from(["g"]));
    assert!(words("f(h_i, 3)").contains("h_i") && !words("f(h_i)").contains("h"));
}

#[test]
fn every_inline_function_is_run() {
    let (header, host) = (
        file("include/bivamolune.h"),
        file("tests/c/inline_functions.c"),
    );
    let functions = inline_functions(&header);
    assert!(functions.len() >= 20, "{functions:?}");
    let run = words(&host);
    let missing: Vec<_> = functions
        .iter()
        .filter(|name| !run.contains(*name))
        .collect();
    assert!(missing.is_empty(), "{missing:?}");
}

/// With the archive's own list (`boundary`), the archive exports what the header declares and
/// nothing else.
#[cfg(feature = "library")]
#[test]
fn every_declared_function_is_compared() {
    let header = file("include/bivamolune.h");
    let compared = bivamolune_tests::boundary::COMPARED.iter().copied();
    assert_eq!(declared_functions(&header), compared.collect());
}

/// The public functions of a Rattle source, each from its name to its body: parameters and clauses.
fn contracts(text: &str) -> Vec<String> {
    let mut found = Vec::new();
    let mut open = false;
    for line in text.lines() {
        let head = line.replace("extern \"C\" ", "");
        if head.starts_with("pub fn ") {
            found.push(String::new());
            open = true;
        }
        open &= line != "{";
        if let (true, Some(contract)) = (open, found.last_mut()) {
            contract.push_str(&head);
            contract.push('\n');
        }
    }
    found
}

/// The definitions that the clauses of a Rattle source name.
fn imports(text: &str) -> Vec<&str> {
    let starts = |line: &&str| line.starts_with("ghost use ");
    text.lines().filter(starts).collect()
}

#[test]
fn contracts_are_found() {
    let text = "pub extern \"C\" fn f(\n    a: u32,\n) -> u32\n    ensures { result ≡ a }\n{\n    a\n}\nfn g()\n{\n}\n";
    let contract = "pub fn f(\n    a: u32,\n) -> u32\n    ensures { result ≡ a }\n";
    assert_eq!(contracts(text), [contract]);
    assert_eq!(imports("ghost use a.{b};\nuse c;\n"), ["ghost use a.{b};"]);
}

/// The theorems of the host speak of the functions of `bivamolune`, and what C calls are the exports of `bivamolune_c`: these have
/// the same parameters and clauses, over the same definitions.
#[test]
fn an_export_promises_what_the_library_does() {
    let mut exported = 0;
    for name in ["lib", "composition", "reads", "texts"] {
        let library = file(&format!("crates/bivamolune/src/{name}.rt"));
        let exports = file(&format!("crates/bivamolune_c/src/{name}.rt"));
        assert_eq!(contracts(&exports), contracts(&library), "{name}");
        assert_eq!(imports(&exports), imports(&library), "{name}");
        exported += contracts(&exports).len();
    }
    assert_eq!(exported, 8);
}
