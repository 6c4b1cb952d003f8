//! The pages of help: each command has one, with all that a page has.

mod common;

use common::Folder;
use rollmap_tool::commands::COMMANDS;

/// What each page has, in this order.
const HEADINGS: [&str; 6] = [
    "NAME",
    "SYNOPSIS",
    "DESCRIPTION",
    "OPTIONS",
    "EXIT STATUS",
    "EXAMPLES",
];

/// The headings of a page: its lines that begin at the margin.
fn headings(page: &str) -> Vec<&str> {
    let lines = page.lines();
    lines
        .filter(|line| !line.is_empty() && !line.starts_with(' '))
        .collect()
}

/// The text between a heading and the next one.
fn section<'a>(page: &'a str, heading: &str) -> &'a str {
    let (_, rest) = page
        .split_once(&format!("{heading}\n"))
        .expect("the heading is there");
    let next = HEADINGS
        .iter()
        .filter_map(|next| rest.find(&format!("\n{next}\n")));
    &rest[..next.min().unwrap_or(rest.len())]
}

/// The options that a text names.
fn options(text: &str) -> Vec<&str> {
    let words = text.split(|it: char| !it.is_ascii_lowercase() && it != '-');
    let mut options: Vec<&str> = words
        .filter(|word| word.len() > 2 && word.starts_with("--"))
        .collect();
    options.sort_unstable();
    options.dedup();
    options
}

/// The pages that are written.
fn pages() -> impl Iterator<Item = (&'static str, &'static str)> {
    let written = COMMANDS.iter().filter(|command| !command.help.is_empty());
    written.map(|command| (command.name, command.help))
}

#[test]
fn every_page_has_what_a_page_has() {
    assert!(pages().count() >= 11);
    for (name, page) in pages() {
        assert_eq!(headings(page), HEADINGS, "{name}");
        assert!(page.starts_with(&format!("NAME\n    rollmap {name} - ")));
        assert!(section(page, "SYNOPSIS").contains(&format!("rollmap {name} ")));
        assert!(section(page, "EXAMPLES").contains(&format!("        rollmap {name} ")));
        assert!(section(page, "EXIT STATUS").contains("    0   "));
        let long = page.lines().find(|line| line.chars().count() > 80);
        assert_eq!(long, None, "{name}");
    }
}

#[test]
fn the_options_of_the_synopsis_are_those_that_are_explained() {
    for (name, page) in pages() {
        let explained = section(page, "OPTIONS")
            .lines()
            .filter(|line| line.starts_with("    --"));
        let explained: String = explained.collect::<Vec<_>>().join("\n");
        let mut named = options(&explained);
        named.retain(|option| *option != "--help");
        assert_eq!(options(section(page, "SYNOPSIS")), named, "{name}");
    }
}

#[test]
fn a_page_is_printed_in_each_way_that_it_is_asked_for() {
    let folder = Folder::new("help");
    for (name, page) in pages() {
        for call in [
            format!("help {name}"),
            format!("{name} --help"),
            format!("{name} a -h"),
        ] {
            assert_eq!(folder.call(&call).ended(0).out, page);
        }
    }
    let overview = folder.call("--help").ended(0).out;
    for call in ["-h", "help", "help --help"] {
        assert_eq!(folder.call(call).ended(0).out, overview);
    }
    for command in COMMANDS {
        assert!(overview.contains(&format!("    {:<10}{}\n", command.name, command.summary)));
    }
    assert!(overview.lines().all(|line| line.chars().count() <= 80));
}

#[test]
fn options_that_are_explained_are_taken_and_others_are_not() {
    let folder = Folder::new("options");
    for (name, page) in pages() {
        for option in options(section(page, "SYNOPSIS")) {
            let called = folder.call(&format!("{name} {option}"));
            assert!(
                !called.err.contains("there is no option"),
                "{name} {option}"
            );
        }
        let called = folder.call(&format!("{name} --nothing")).ended(2);
        assert!(
            called.err.contains("there is no option --nothing"),
            "{called:?}"
        );
        assert!(called.err.contains(&format!("(see rollmap help {name})")));
    }
}

#[test]
fn without_a_command_the_way_to_help_is_said() {
    let folder = Folder::new("no-command");
    for call in ["", "nothing", "help nothing", "nothing --help"] {
        let called = folder.call(call).ended(2);
        assert!(called.err.contains("rollmap --help"), "{called:?}");
    }
}
