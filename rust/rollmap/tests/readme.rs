//! The README's example in C: it is compiled as it stands there and run, and prints what
//! the README says. Its example in Rust is a documentation test of this crate. The lines
//! that it shows of the sample are those of the sample.

use std::fs;
use std::path::{Path, PathBuf};
use std::process::Command;

use oracle::mark::write_marks;
use oracle::sample::{marks, Layout};
use oracle::sheet::join;

/// The archive that this crate was built with.
const ARCHIVE: &str = env!("ROLLMAP_ARCHIVE");

const README: &str = include_str!("../../../README.md");

/// The blocks of the README in a language.
fn blocks(language: &str) -> Vec<&'static str> {
    let fence = format!("```{language}\n");
    let rests = README.split(fence.as_str()).skip(1);
    let block = |rest: &'static str| rest.split_once("```").expect("a block ends").0;
    rests.map(block).collect()
}

/// A path in the folder of this test's files.
fn scratch(name: &str) -> PathBuf {
    Path::new(env!("CARGO_TARGET_TMPDIR")).join(name)
}

#[test]
fn the_example_in_c() {
    let (source, program) = (scratch("readme.c"), scratch("readme"));
    let [example] = blocks("c")[..] else {
        panic!("one example in C");
    };
    fs::write(&source, example).expect("the folder can be written");
    let compiled = Command::new("cc")
        .args(["-std=c99", "-Wall", "-Wextra", "-Werror", "-I"])
        .arg(Path::new(env!("CARGO_MANIFEST_DIR")).join("../../include"))
        .args([source.as_os_str(), ARCHIVE.as_ref(), "-o".as_ref()])
        .arg(&program)
        .status();
    assert!(compiled.expect("there is a compiler").success());
    let output = Command::new(program).output().expect("it runs");
    assert!(output.status.success());
    let [_, printed] = blocks("text")[..] else {
        panic!("what the sample prints, and what the example in C prints");
    };
    assert_eq!(String::from_utf8_lossy(&output.stdout), printed);
}

#[test]
fn the_sample_begins_as_the_readme_says() {
    let sheet = join(&[&write_marks(&marks(Layout::Clustered, 300, 1))]);
    let text = oracle::report::print(&sheet);
    assert!(text.starts_with(blocks("text")[0]));
}
