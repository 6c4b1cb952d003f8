//! The command `rollmap`: holds a defect list against the reel, and tells of each hidden mark
//! why it is hidden.
//!
//! Every answer about touching, rank, living and reach comes from the proved library, by the
//! bindings [`rollmap`]; what is here reads tables and arguments, looks things up, and says
//! them in words. That is tested, and not proved: `docs/TOOL.md` has which is which.

#![deny(unsafe_code, missing_docs)]

use std::ffi::OsString;
use std::process::ExitCode;

pub mod answer;
pub mod args;
pub mod commands;
pub mod csv;
pub mod files;
pub mod help;
pub mod hold;
pub mod picture;
pub mod progress;
pub mod reel;
pub mod rules;
pub mod serve;
pub mod table;
pub mod trouble;
pub mod why;
pub mod words;

pub use reel::Reel;
pub use trouble::{Status, Trouble};

/// Runs the command that the words name, or prints the help that they ask for.
///
/// # Errors
///
/// Whatever keeps it from running to its end.
pub fn run(words: &[OsString]) -> Result<Status, Trouble> {
    match words {
        [] => Err(args::usage(
            "a command is missing, see rollmap --help".to_owned(),
        )),
        [name, rest @ ..] if name == "help" => help::print(rest),
        [first, ..] if help::is_asked(std::slice::from_ref(first)) => help::print(&[]),
        [name, rest @ ..] if help::is_asked(rest) => help::print(std::slice::from_ref(name)),
        [name, rest @ ..] => {
            let command = commands::find(name)?;
            (command.run)(rest).map_err(|trouble| trouble.of_command(command.name))
        }
    }
}

/// Says what went wrong, if anything did, and answers the status to end with.
pub fn finish(outcome: Result<Status, Trouble>) -> ExitCode {
    match outcome {
        Ok(status) => status.number().into(),
        Err(trouble) => {
            if !trouble.is_closed_pipe() {
                eprintln!("rollmap: {trouble}");
            }
            trouble.status().into()
        }
    }
}
