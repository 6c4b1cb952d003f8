//! The session of the README's section 'The tool', executed as it stands there.

mod common;

use std::env;
use std::path::Path;
use std::process::Command;

use common::Folder;

const README: &str = include_str!("../../../README.md");

/// The section on the tool.
fn section() -> &'static str {
    let (_, rest) = README
        .split_once("\n## The tool\n")
        .expect("the section is there");
    rest.split_once("\n## ").expect("another follows").0
}

/// The blocks of the section in a language.
fn blocks(language: &str) -> Vec<&'static str> {
    let fence = format!("```{language}\n");
    let (_, rests) = section().split_once(fence.as_str()).expect("there is one");
    let block = |rest: &'static str| rest.split_once("```").expect("a block ends").0;
    rests.split(fence.as_str()).map(block).collect()
}

/// The lines that are typed, each with what is then printed.
fn session() -> Vec<(&'static str, &'static str)> {
    let typed = |block: &'static str| block.strip_prefix("$ ").expect("it begins with a prompt");
    let calls = blocks("console")
        .into_iter()
        .flat_map(move |it| typed(it).split("\n$ "));
    let calls = calls.map(|call| call.split_once('\n').unwrap_or((call, "")));
    calls.collect()
}

/// What a line that is typed prints, and with which status it ends.
fn typed(folder: &Folder, line: &str) -> (String, i32) {
    let tool = Path::new(env!("CARGO_BIN_EXE_rollmap")).parent().unwrap();
    let others = env::var_os("PATH").unwrap_or_default();
    let folders = env::split_paths(&others).collect::<Vec<_>>();
    let path = env::join_paths([tool.to_owned()].into_iter().chain(folders)).unwrap();
    let mut shell = Command::new("sh");
    let output = shell
        .args(["-c", line])
        .env("PATH", path)
        .current_dir(folder.path())
        .output();
    let output = output.expect("there is a shell");
    let text = [output.stdout, output.stderr].concat();
    (
        String::from_utf8(text).unwrap(),
        output.status.code().unwrap(),
    )
}

#[test]
fn the_session_goes_as_the_readme_says() {
    let folder = Folder::new("readme");
    let [table] = blocks("csv")[..] else {
        panic!("one table");
    };
    folder.write("reel.csv", table);
    let session = session();
    assert!(session.len() > 8);
    let mut unexplained = Vec::new();
    for (line, printed) in session {
        let (text, status) = typed(&folder, line);
        assert_eq!(text.trim_end(), printed.trim_end(), "{line}");
        if status != 0 {
            unexplained.push((line, status));
        }
    }
    // The one call that does not end with 0 finds the mark that the sheet lacks.
    let lacks = "rollmap hold defects.csv reel.sheet --zoom 5 --unexplained";
    assert_eq!(unexplained, [(lacks, 1)]);
}
