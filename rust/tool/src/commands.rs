//! The commands by their names.

mod files;
mod hold;
mod jobs;
mod list;
mod make;

use std::ffi::OsString;

use crate::{args, picture, serve, Status, Trouble};

/// A command: its name, what it does in a line, its page of help, and what runs it.
pub struct Command {
    /// The word that it is called by.
    pub name: &'static str,
    /// What it does.
    pub summary: &'static str,
    /// The page that `rollmap help` prints for it.
    pub help: &'static str,
    /// Runs it with the words behind its name.
    pub run: fn(&[OsString]) -> Result<Status, Trouble>,
}

/// Every command, in the order in which a session comes to them.
pub const COMMANDS: &[Command] = &[
    Command {
        name: "make",
        summary: "make a sheet from a table of marks",
        help: include_str!("help/make.txt"),
        run: make::make,
    },
    Command {
        name: "log-in",
        summary: "make a sheet from a winder's log",
        help: include_str!("help/log-in.txt"),
        run: make::log_in,
    },
    Command {
        name: "schedule",
        summary: "work out when each mark goes, and because of which other",
        help: include_str!("help/schedule.txt"),
        run: jobs::schedule,
    },
    Command {
        name: "judge",
        summary: "tell whether a sheet's schedule is the one worked out here",
        help: include_str!("help/judge.txt"),
        run: jobs::judge_sheet,
    },
    Command {
        name: "hold",
        summary: "hold a list against the reel: where is each mark, and why",
        help: include_str!("help/hold.txt"),
        run: hold::hold_list,
    },
    Command {
        name: "why",
        summary: "say why a mark goes",
        help: include_str!("help/why.txt"),
        run: hold::why_mark,
    },
    Command {
        name: "add",
        summary: "add a mark",
        help: include_str!("help/add.txt"),
        run: jobs::add,
    },
    Command {
        name: "take-out",
        summary: "take marks out",
        help: include_str!("help/take-out.txt"),
        run: jobs::take_out,
    },
    Command {
        name: "counts",
        summary: "count the marks that live at each stop",
        help: include_str!("help/counts.txt"),
        run: jobs::count,
    },
    Command {
        name: "list",
        summary: "give the table of a sheet back",
        help: include_str!("help/list.txt"),
        run: list::list,
    },
    Command {
        name: "log-out",
        summary: "write the winder's log of a sheet",
        help: include_str!("help/log-out.txt"),
        run: list::log_out,
    },
    Command {
        name: "picture",
        summary: "draw a view as SVG",
        help: picture::HELP,
        run: picture::run,
    },
    Command {
        name: "serve",
        summary: "look at the reel on a page of this machine",
        help: serve::HELP,
        run: serve::run,
    },
];

/// The command of that name.
///
/// # Errors
///
/// [`Trouble::Usage`] where there is none.
pub fn find(name: &OsString) -> Result<&'static Command, Trouble> {
    let found = COMMANDS.iter().find(|command| name == command.name);
    found.ok_or_else(|| {
        args::usage(format!(
            "there is no command {}, see rollmap --help",
            name.display()
        ))
    })
}
