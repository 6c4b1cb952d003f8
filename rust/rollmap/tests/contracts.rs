//! Every public function of every crate has a contract that says what it gives,
//! and no exported one asks anything of its caller. The proofs hold what a contract
//! says; this test sees that none is lost.

use std::collections::BTreeMap;
use std::fs;
use std::path::{Path, PathBuf};

/// The folder of the crates.
fn crates() -> PathBuf {
    Path::new(env!("CARGO_MANIFEST_DIR")).join("../../crates")
}

/// The source files of all crates.
fn sources() -> Vec<PathBuf> {
    let entries = |folder: &Path| -> Vec<PathBuf> {
        let entries = fs::read_dir(folder).into_iter().flatten();
        entries.map(|entry| entry.unwrap().path()).collect()
    };
    let folders = entries(&crates()).into_iter().map(|it| it.join("src"));
    let files = folders.flat_map(|folder| entries(&folder));
    files
        .filter(|file| file.extension().is_some_and(|it| it == "rt"))
        .collect()
}

/// A public function: its name, whether it is exported, and its text from `pub` to
/// the brace that opens its body, which ends a line: where there are clauses it is a
/// line of its own. A method's text is moved to the left as far as it is indented.
struct Public {
    name: String,
    exported: bool,
    head: String,
}

/// The public functions of a source, methods among them.
fn public_functions(source: &str) -> Vec<Public> {
    let mut found = Vec::new();
    let mut lines = source.lines();
    while let Some(line) = lines.next() {
        let start = line.trim_start();
        let exported = start.starts_with("pub extern \"C\" fn ");
        if !exported && !start.starts_with("pub fn ") {
            continue;
        }
        let indent = &line[..line.len() - start.len()];
        let outdented = |line: &'_ str| line.strip_prefix(indent).unwrap_or(line).to_owned();
        let mut head = vec![start.to_owned()];
        while !head[head.len() - 1].ends_with('{') {
            let Some(line) = lines.next() else { break };
            head.push(outdented(line));
        }
        let (_, after) = start.split_once("fn ").unwrap();
        let end = after.find(['(', '<']).unwrap();
        found.push(Public {
            name: after[..end].to_owned(),
            exported,
            head: head.join("\n"),
        });
    }
    found
}

/// The public functions of all crates, by their files' names.
fn all() -> Vec<(String, Public)> {
    let functions = sources().into_iter().flat_map(|file| {
        let source = fs::read_to_string(&file).unwrap();
        let name = file.display().to_string();
        public_functions(&source)
            .into_iter()
            .map(move |it| (name.clone(), it))
    });
    functions.collect()
}

#[test]
fn every_public_function_says_what_it_gives() {
    let functions = all();
    assert!(functions.len() > 90, "{} functions", functions.len());
    for (file, function) in functions {
        let says = function.head.contains("\n    ensures ");
        assert!(says, "{} of {file} has no ensures", function.name);
    }
}

#[test]
fn no_exported_function_asks_anything() {
    let exported: Vec<_> = all().into_iter().filter(|(_, it)| it.exported).collect();
    let header = fs::read_to_string(crates().join("../include/rollmap.h")).unwrap();
    let declared = header
        .lines()
        .filter(|line| line.starts_with("struct rollmap_") && line.contains('('));
    assert_eq!(exported.len(), declared.count());
    for (file, function) in exported {
        let asks = function.head.contains("\n    requires ");
        assert!(!asks, "{} of {file} has a requires", function.name);
        assert!(header.contains(&format!(" {}(", function.name)));
    }
}

/// The clauses of each public function of a crate, by its name.
fn clauses(of: &str) -> BTreeMap<String, Vec<String>> {
    let source = fs::read_to_string(crates().join(of).join("src/lib.rt")).unwrap();
    let functions = public_functions(&source).into_iter().map(|it| {
        let lines = it.head.lines().map(str::trim);
        let clauses = lines.filter(|it| it.starts_with("ensures ") || it.starts_with("requires "));
        (it.name.clone(), clauses.map(str::to_owned).collect())
    });
    functions.collect()
}

#[test]
fn each_export_has_the_clauses_of_its_call() {
    let exported = clauses("rollmap_c");
    assert!(!exported.is_empty());
    assert_eq!(exported, clauses("rollmap"));
}

#[test]
fn a_lost_contract_is_seen() {
    let source = "pub fn kept() -> u32\n    ensures { result ≡ 1 }\n{\n    1\n}\n\n\
                  pub extern \"C\" fn lost(n: u32) -> u32\n    requires { n ≤ 1 }\n{\n    1\n}\n\n\
                  impl Size {\n    pub fn held(self) -> u32\n        ensures { result ≡ 1 }\n    {\n        1\n    }\n\n    \
                  pub fn dropped(self) -> u32 {\n        1\n    }\n\n    \
                  pub fn kept_too(self) -> u32\n        ensures { result ≡ 1 }\n    {\n        1\n    }\n}\n";
    let functions = public_functions(source);
    let names: Vec<_> = functions.iter().map(|it| it.name.as_str()).collect();
    assert_eq!(names, ["kept", "lost", "held", "dropped", "kept_too"]);
    assert!(functions[0].head.contains("\n    ensures ") && !functions[0].exported);
    assert!(!functions[1].head.contains("\n    ensures ") && functions[1].exported);
    assert!(functions[1].head.contains("\n    requires "));
    assert!(functions[2].head.contains("\n    ensures ") && !functions[2].exported);
    assert!(!functions[3].head.contains("\n    ensures "));
    assert!(functions[4].head.contains("\n    ensures "));
}

#[test]
fn methods_are_among_the_functions_read() {
    let methods = ["is_there", "size_to_search", "clashes", "reel", "bound"];
    let functions = all();
    for method in methods {
        assert!(
            functions.iter().any(|(_, it)| it.name == method),
            "{method}"
        );
    }
}
