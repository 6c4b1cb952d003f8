//! The jobs on files: `rollmap schedule`, `judge`, `add`, `take-out` and `counts`.

use std::ffi::OsString;
use std::fmt::Write;

use rollmap::{
    add_to_vec, count_to_vec, counts, judge, mark_count, records, schedule_to_vec, take_out_to_vec,
    Counts, Group, Mark, Record, Refusal, STOPS,
};

use super::files::{save, Input, OUTPUT};
use crate::args::{parsed, usage, Args, Options};
use crate::progress::Progress;
use crate::why::{ending, links};
use crate::{files, table, words};
use crate::{Reel, Status, Trouble};

/// The options of `rollmap schedule`, `take-out` and `counts`.
pub const OPTIONS: Options = Options {
    values: &[OUTPUT],
    flags: &[],
};

/// The options of `rollmap judge`.
pub const JUDGE_OPTIONS: Options = Options {
    values: &[],
    flags: &[],
};

/// The options of `rollmap add`: the fields of the new mark.
pub const ADD_OPTIONS: Options = Options {
    values: &[
        "--x",
        "--y",
        "--radius",
        "--priority",
        "--kind",
        "--tag",
        "--popup",
        OUTPUT,
    ],
    flags: &[],
};

/// Runs `rollmap schedule`.
pub fn schedule(words: &[OsString]) -> Result<Status, Trouble> {
    let mut args = Args::read(words, OPTIONS)?;
    let input = Input::read(&mut args, "SHEET")?;
    args.end()?;
    let scheduled = input.answer(schedule_to_vec(&input.bytes))?;
    let records = records(&scheduled).into_iter().flatten();
    let (never, gone): (Vec<_>, Vec<_>) = records.partition(|it| *it == Record::Never);
    let (all, gone, never) = (gone.len() + never.len(), gone.len(), never.len());
    let words = format!("{} scheduled: {gone} go, {never} stay", words::marks(all));
    save(&input.output(&args), &scheduled, &words)?;
    Ok(Status::Fine)
}

/// Runs `rollmap judge`.
pub fn judge_sheet(words: &[OsString]) -> Result<Status, Trouble> {
    let mut args = Args::read(words, JUDGE_OPTIONS)?;
    let input = Input::read(&mut args, "SHEET")?;
    args.end()?;
    let (status, verdict) = match judge(&input.bytes) {
        Ok(()) => (Status::Fine, "scheduled here, byte for byte".to_owned()),
        Err(refusal @ Refusal::Judgement) => (
            Status::Unexplained,
            format!("the schedule is not ours, {refusal}"),
        ),
        Err(refusal) => return Err(input.trouble(refusal)),
    };
    let name = files::name(&input.path);
    files::print(&format!("{name}: {verdict}\n"))?;
    Ok(status)
}

/// Runs `rollmap add`.
pub fn add(words: &[OsString]) -> Result<Status, Trouble> {
    let mut args = Args::read(words, ADD_OPTIONS)?;
    let input = Input::read(&mut args, "SHEET")?;
    args.end()?;
    let mark = new_mark(&args)?;
    let popup = field(&args, "--popup", Some("0"), table::popup)?;
    let sheet = input.answer(add_to_vec(&input.bytes, mark, popup))?;
    let reel = Reel::open(sheet)?;
    let number = reel.marks.len() - 1;
    let endings = links(&reel, number).take(1).map(ending);
    let words = format!("mark {number} added. {}", endings.collect::<String>());
    save(&input.output(&args), &reel.bytes, &words)?;
    Ok(Status::Fine)
}

/// The mark that the options name.
fn new_mark(args: &Args) -> Result<Mark, Trouble> {
    Ok(Mark {
        x: field(args, "--x", None, table::x_or_y)?,
        y: field(args, "--y", None, table::x_or_y)?,
        radius: field(args, "--radius", Some("0"), table::radius)?,
        priority: field(args, "--priority", None, table::priority_or_tag)?,
        kind: field(args, "--kind", None, table::kind)?,
        tag: field(args, "--tag", Some("0"), table::priority_or_tag)?,
    })
}

/// A field of the new mark, read as a table's cell is.
fn field<T>(
    args: &Args,
    option: &str,
    otherwise: Option<&str>,
    read: impl Fn(&str) -> Result<T, String>,
) -> Result<T, Trouble> {
    let value = args.value(option).or(otherwise);
    let value = value.ok_or_else(|| usage(format!("{option} is missing")))?;
    read(value.trim()).map_err(|what| usage(format!("{option}: {what}")))
}

/// Runs `rollmap take-out`.
pub fn take_out(words: &[OsString]) -> Result<Status, Trouble> {
    let mut args = Args::read(words, OPTIONS)?;
    let mut input = Input::read(&mut args, "SHEET")?;
    let numbers = numbers_downwards(&args.rest())?;
    let mut progress = Progress::new("taking out", numbers.len());
    for &number in &numbers {
        input.bytes = input.answer(take_out_to_vec(&input.bytes, number))?;
        progress.step();
    }
    let left = words::marks(mark_count(&input.bytes).unwrap_or(0));
    let words = format!("{} taken out, {left} left", words::marks(numbers.len()));
    save(&input.output(&args), &input.bytes, &words)?;
    Ok(Status::Fine)
}

/// The numbers of the marks that are taken out, the highest first: so each is still the
/// number of the same mark when its turn comes.
fn numbers_downwards(words: &[String]) -> Result<Vec<u32>, Trouble> {
    let number = |word: &String| parsed(word, "MARK", "the number of a mark");
    let mut numbers = words.iter().map(number).collect::<Result<Vec<u32>, _>>()?;
    numbers.sort_unstable_by(|a, b| b.cmp(a));
    if numbers.is_empty() {
        return Err(usage("MARK is missing".to_owned()));
    }
    match numbers.windows(2).find(|pair| pair[0] == pair[1]) {
        Some(pair) => Err(usage(format!("mark {} is there twice", pair[0]))),
        None => Ok(numbers),
    }
}

/// Runs `rollmap counts`.
pub fn count(words: &[OsString]) -> Result<Status, Trouble> {
    let mut args = Args::read(words, OPTIONS)?;
    let input = Input::read(&mut args, "SHEET")?;
    args.end()?;
    let counted = input.answer(count_to_vec(&input.bytes))?;
    if let Some(output) = args.value(OUTPUT) {
        files::write(output, &counted)?;
    }
    if args.value(OUTPUT) != Some(files::STANDARD) {
        let counts = counts(&counted).expect("a counted sheet has counts");
        files::print(&counts_table(&counts))?;
    }
    Ok(Status::Fine)
}

/// How many marks of each group live at each stop, and how many in all.
fn counts_table(counts: &Counts) -> String {
    let mut text = format!("{:>4} {:>9}", "stop", "zoom");
    for group in Group::ALL {
        write!(text, "  {}", words::group_name(group)).expect("text can grow");
    }
    text += "    all\n";
    for stop in 0..STOPS as u8 {
        let at = counts.at(stop).expect("every stop has counts");
        write!(text, "{stop:>4} {:>9}", words::zoom_of(1 << stop)).expect("text can grow");
        for (group, count) in Group::ALL.into_iter().zip(at) {
            let width = words::group_name(group).len();
            write!(text, "  {count:>width$}").expect("text can grow");
        }
        let all: u32 = at.into_iter().map(u32::from).sum();
        writeln!(text, "  {all:>5}").expect("text can grow");
    }
    text
}
