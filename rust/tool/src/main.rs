//! The command `rollmap`: reads its arguments, and ends with the status of what it did.

#![deny(unsafe_code, missing_docs)]

use std::env;
use std::process::ExitCode;

fn main() -> ExitCode {
    let words: Vec<_> = env::args_os().skip(1).collect();
    rollmap_tool::finish(rollmap_tool::run(&words))
}
