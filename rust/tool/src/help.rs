//! The pages of help.

use std::ffi::OsString;

use crate::commands::{find, COMMANDS};
use crate::{files, Status, Trouble};

/// The words that ask for a page of help.
const ASKING: [&str; 2] = ["--help", "-h"];

/// Whether the words of a command ask for its page of help.
pub fn is_asked(words: &[OsString]) -> bool {
    let mut words = words.iter().take_while(|word| *word != "--");
    words.any(|word| ASKING.iter().any(|asking| word == asking))
}

/// Prints the page of a command, or the one that names all commands.
///
/// # Errors
///
/// [`Trouble::Usage`] where there is no such command.
pub fn print(words: &[OsString]) -> Result<Status, Trouble> {
    match words.first() {
        Some(name) if !is_asked(words) => files::print(find(name)?.help)?,
        _ => files::print(&overview())?,
    }
    Ok(Status::Fine)
}

/// The page that names all commands.
pub fn overview() -> String {
    let line = |name: &str, summary: &str| format!("    {name:<10}{summary}\n");
    let commands = COMMANDS.iter().map(|it| line(it.name, it.summary));
    let lines: String = commands.collect();
    include_str!("help/rollmap.txt").replace("    COMMANDS\n", &lines)
}
