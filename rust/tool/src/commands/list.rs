//! `rollmap list` and `rollmap log-out`: the table of a sheet, and its winder's log.

use std::ffi::OsString;

use rollmap::{check, marks, marks_to_log_vec, part, popups, Code, Mark};

use super::files::{save, Input, OUTPUT};
use crate::args::{Args, Options};
use crate::{files, table, words};
use crate::{Reel, Status, Trouble};

/// The flag by which the removals are listed in place of the marks.
const REMOVALS: &str = "--removals";

/// The options of `rollmap list`.
pub const LIST_OPTIONS: Options = Options {
    values: &[OUTPUT],
    flags: &[REMOVALS],
};

/// The options of `rollmap log-out`.
pub const LOG_OUT_OPTIONS: Options = Options {
    values: &[OUTPUT],
    flags: &[],
};

/// The ending of a log's name.
const ENDING: &str = "log";

/// Runs `rollmap list`.
pub fn list(words: &[OsString]) -> Result<Status, Trouble> {
    let mut args = Args::read(words, LIST_OPTIONS)?;
    let input = Input::read(&mut args, "SHEET")?;
    args.end()?;
    let text = if args.flag(REMOVALS) {
        let reel = Reel::open(input.bytes.clone()).map_err(|trouble| input.trouble(trouble))?;
        table::write_removals(&reel.records)
    } else {
        input.answer(check(&input.bytes))?;
        marks_table(&input.bytes)
    };
    let output = args.value(OUTPUT).unwrap_or(files::STANDARD);
    files::write(output, text.as_bytes())?;
    Ok(Status::Fine)
}

/// The table of an accepted sheet, with a column for popups where it has part 5.
fn marks_table(sheet: &[u8]) -> String {
    let marks: Vec<Mark> = marks(sheet).into_iter().flatten().collect();
    let popups: Vec<u32> = popups(sheet).into_iter().flatten().collect();
    let has_popups = part(sheet, Code::Popups).is_some();
    table::write_marks(&marks, has_popups.then_some(popups.as_slice()))
}

/// Runs `rollmap log-out`.
pub fn log_out(words: &[OsString]) -> Result<Status, Trouble> {
    let mut args = Args::read(words, LOG_OUT_OPTIONS)?;
    let input = Input::read(&mut args, "SHEET")?;
    args.end()?;
    input.answer(check(&input.bytes))?;
    let log = input.answer(marks_to_log_vec(
        part(&input.bytes, Code::Marks).unwrap_or(&[]),
    ))?;
    let records = words::counted(log.len() / rollmap::LOG_RECORD_BYTES, "record");
    save(
        &input.output_with(&args, ENDING)?,
        &log,
        &(records + left_out(&input.bytes)),
    )?;
    Ok(Status::Fine)
}

/// What a log has no place for.
fn left_out(sheet: &[u8]) -> &'static str {
    let beyond = [Code::Edition, Code::Popups, Code::Shape];
    if beyond.iter().any(|&code| part(sheet, code).is_some()) {
        "; a log has no place for the sheet's edition, popups and shape"
    } else {
        ""
    }
}
