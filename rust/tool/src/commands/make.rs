//! `rollmap make` and `rollmap log-in`: a sheet from a table, and one from a winder's log.

use std::ffi::OsString;

use rollmap::{
    assemble_to_vec, log_to_marks_vec, mark_count, marks_to_vec, popups_to_vec, Code, MOST_MARKS,
    NO_POPUP,
};

use super::files::{choices, save, Input, CHOICES, OUTPUT};
use crate::args::{Args, Options};
use crate::csv::wrong;
use crate::table::Table;
use crate::words;
use crate::{Status, Trouble};

/// The options of both commands.
pub const OPTIONS: Options = Options {
    values: &[CHOICES[0], CHOICES[1], OUTPUT],
    flags: &[],
};

/// The ending of a sheet's name.
const ENDING: &str = "sheet";

/// Runs `rollmap make`.
pub fn make(words: &[OsString]) -> Result<Status, Trouble> {
    let mut args = Args::read(words, OPTIONS)?;
    let input = Input::read(&mut args, "TABLE")?;
    args.end()?;
    let table = Table::read(&input.bytes).map_err(|wrong| input.trouble(wrong))?;
    if let Some(listed) = table.marks.get(MOST_MARKS) {
        let what = format!("a sheet has at most {MOST_MARKS} marks, and this is one more");
        return Err(input.trouble(wrong(listed.line, None, &what)));
    }
    let marks: Vec<_> = table.marks.iter().map(|listed| listed.mark).collect();
    let popups = table
        .marks
        .iter()
        .map(|listed| listed.popup.unwrap_or(NO_POPUP));
    let popups = table
        .has_popups
        .then(|| popups_to_vec(&popups.collect::<Vec<_>>()));
    write_sheet(&args, &input, &marks_to_vec(&marks), popups.as_deref())
}

/// Runs `rollmap log-in`.
pub fn log_in(words: &[OsString]) -> Result<Status, Trouble> {
    let mut args = Args::read(words, OPTIONS)?;
    let input = Input::read(&mut args, "LOG")?;
    args.end()?;
    let marks = input.answer(log_to_marks_vec(&input.bytes))?;
    write_sheet(&args, &input, &marks, None)
}

/// Puts the sheet together and writes it.
fn write_sheet(
    args: &Args,
    input: &Input,
    marks: &[u8],
    popups: Option<&[u8]>,
) -> Result<Status, Trouble> {
    let choices = choices(args)?;
    let mut parts = vec![(Code::Marks, marks)];
    parts.extend(popups.map(|popups| (Code::Popups, popups)));
    parts.extend(choices.iter().map(|(code, byte)| (*code, byte.as_slice())));
    parts.sort_by_key(|(code, _)| *code);
    let sheet = input.answer(assemble_to_vec(&parts))?;
    let count = words::marks(mark_count(&sheet).unwrap_or(0));
    save(&input.output_with(args, ENDING)?, &sheet, &count)?;
    Ok(Status::Fine)
}
