//! `rollmap hold` and `rollmap why`: what is where, and why.

use std::ffi::OsString;

use rollmap::View;

use super::files::Input;
use crate::answer::{difference, Answer};
use crate::args::{parsed, usage, Args, Options, VIEW_OPTIONS};
use crate::hold::hold;
use crate::rules::{breach, differing};
use crate::table::{read_removals, Table, COLUMNS, POPUP};
use crate::why::why;
use crate::{files, words};
use crate::{Reel, Status, Trouble};

/// The flag by which a list of removals is held against ours.
const REMOVALS: &str = "--removals";

/// The flag by which a sheet is scheduled afresh, whatever schedule it has.
const AFRESH: &str = "--afresh";

/// The flag by which the explained rows are left out.
const UNEXPLAINED: &str = "--unexplained";

/// The options of `rollmap hold`.
pub const HOLD_OPTIONS: Options = Options {
    values: &VIEW_OPTIONS,
    flags: &[REMOVALS, AFRESH, UNEXPLAINED],
};

/// The options of `rollmap why`.
pub const WHY_OPTIONS: Options = Options {
    values: &[],
    flags: &[AFRESH],
};

/// Runs `rollmap hold`.
pub fn hold_list(words: &[OsString]) -> Result<Status, Trouble> {
    let mut args = Args::read(words, HOLD_OPTIONS)?;
    let list = Input::read(&mut args, "LIST")?;
    let sheet = Input::read(&mut args, "SHEET")?;
    args.end()?;
    if args.flag(REMOVALS) {
        takes_no_view(&args)?;
        return hold_removals(&list, &open(&args, &sheet)?);
    }
    hold_marks(&args, &list, &open(&args, &sheet)?)
}

/// Sees that no option is there that a list of removals is not held by.
fn takes_no_view(args: &Args) -> Result<(), Trouble> {
    let mut values = VIEW_OPTIONS.into_iter();
    let view = values.find(|name| args.value(name).is_some());
    match view.or(args.flag(UNEXPLAINED).then_some(UNEXPLAINED)) {
        Some(name) => Err(usage(format!("{name} does not go with {REMOVALS}"))),
        None => Ok(()),
    }
}

/// Opens a sheet.
fn open(args: &Args, sheet: &Input) -> Result<Reel, Trouble> {
    let opened = if args.flag(AFRESH) {
        Reel::afresh(sheet.bytes.clone())
    } else {
        Reel::open(sheet.bytes.clone())
    };
    opened.map_err(|trouble| sheet.trouble(trouble))
}

/// Holds a list of marks against the reel.
fn hold_marks(args: &Args, list: &Input, reel: &Reel) -> Result<Status, Trouble> {
    let view = args.view()?;
    let table = Table::read(&list.bytes).map_err(|wrong| list.trouble(wrong))?;
    let held = hold(&table.marks, reel, view)?;
    let answer = Answer {
        list: &table.marks,
        reel,
        held: &held,
    };
    let rows = answer.table(!args.flag(UNEXPLAINED));
    let title = title(view, table.has_popups);
    files::print(&format!("{title}\n{rows}{}", answer.numbers()))?;
    match held.numbers.not_explained() {
        0 => Ok(Status::Fine),
        _ => Ok(Status::Unexplained),
    }
}

/// What is held, and by which fields.
fn title(view: View, has_popups: bool) -> String {
    let mut fields: Vec<String> = COLUMNS.map(str::to_owned).to_vec();
    if has_popups {
        fields.push(POPUP.to_owned());
    }
    format!("held by {} at {}", words::and(&fields), words::view(view))
}

/// Holds a list of removals against ours.
fn hold_removals(list: &Input, reel: &Reel) -> Result<Status, Trouble> {
    let n = reel.marks.len();
    let removals = read_removals(&list.bytes, n).map_err(|wrong| list.trouble(wrong))?;
    let differing = differing(&removals, reel);
    if differing.is_empty() {
        let all = words::marks(n);
        files::print(&format!("ours, {all} one by one: both rules are kept\n"))?;
        return Ok(Status::Fine);
    }
    let breach = breach(&removals, reel)?;
    files::print(&difference(&removals, reel, &differing, breach))?;
    Ok(Status::Unexplained)
}

/// Runs `rollmap why`.
pub fn why_mark(words: &[OsString]) -> Result<Status, Trouble> {
    let mut args = Args::read(words, WHY_OPTIONS)?;
    let sheet = Input::read(&mut args, "SHEET")?;
    let word = args.word("MARK")?;
    args.end()?;
    let mark: usize = parsed(&word, "MARK", "the number of a mark")?;
    let reel = open(&args, &sheet)?;
    let n = reel.marks.len();
    if mark >= n {
        let what = format!("the sheet has {}, and no mark {mark}", words::marks(n));
        return Err(sheet.trouble(usage(what)));
    }
    files::print(&(why(&reel, mark).join("\n") + "\n"))?;
    Ok(Status::Fine)
}
