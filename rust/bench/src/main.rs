//! Times the proved library against the same jobs in plain Rust, in one run and on the
//! same bytes, and prints tables of the times and their ratios.

#![deny(unsafe_code)]

mod plain;
mod race;

use std::hint::black_box;

use oracle::mark::{write_marks, Mark};
use oracle::popup::write_popups;
use oracle::rank::Edition;
use oracle::sample::{marks, popups, Layout, Popups};
use oracle::shape::Shape;
use oracle::sheet::{join, join_parts};
use oracle::view::{Edges, Window};
use rollmap::{
    map_bytes, scheduled_bytes, work_bytes, Refusal, Turn, View, Work, Zoom, COUNTED_BYTES,
    FARTHEST_EDGE, NO_POPUP,
};

use plain::schedule::Desk;
use race::{race, Micros};

/// A layout of data, by the words for it.
type Data = (&'static str, Layout);

const UNIFORM: Data = ("uniform", Layout::Uniform);
const CLUSTERED: Data = ("clustered", Layout::Clustered);
const REEL: Data = ("reel", Layout::Reel);
const LINE: Data = ("line", Layout::Line);
const ONE_PLACE: Data = ("one place", Layout::OnePlace);
const HUGE_RADIUS: Data = ("huge radius", Layout::HugeRadius);
const FEW_HUGE: Data = ("1 % huge radius", Layout::FewHuge);
const WITHIN_10: Data = ("within 10 units", Layout::Within10);
const HOUSE_RADII: Data = ("house radii", Layout::HouseRadii);
const LOG_RADII: Data = ("radii by logarithm", Layout::LogRadii);

/// The data that scheduling is timed on.
const SCHEDULED: [Data; 10] = [
    UNIFORM,
    CLUSTERED,
    REEL,
    LINE,
    ONE_PLACE,
    WITHIN_10,
    HOUSE_RADII,
    HUGE_RADIUS,
    FEW_HUGE,
    LOG_RADII,
];

/// The data that it is timed on by editions, with popups and as squares.
const DATA: [Data; 6] = [UNIFORM, CLUSTERED, LINE, ONE_PLACE, HUGE_RADIUS, FEW_HUGE];

/// The data that changes are timed on.
const CHANGED: [Data; 3] = [UNIFORM, CLUSTERED, REEL];

/// The data that judging is timed on.
const JUDGED: [Data; 7] = [
    UNIFORM,
    CLUSTERED,
    REEL,
    LINE,
    ONE_PLACE,
    HUGE_RADIUS,
    FEW_HUGE,
];

/// The data that viewing is timed on.
const VIEWED: [Data; 4] = [UNIFORM, CLUSTERED, REEL, FEW_HUGE];

/// The data that growth, checking and counting are timed on.
const ORDINARY: [Data; 2] = [UNIFORM, CLUSTERED];

/// The popups that scheduling, judging and checking are timed with, beside the same marks
/// without.
const POPPING_UP: [(&str, Popups); 4] = [
    ("all 0", Popups::Zero),
    ("one in four", Popups::Few),
    ("all, at any zoom", Popups::Any),
    ("all, from zoom 256 on", Popups::Late),
];

/// Those that viewing is timed with.
const VIEWED_POPPING_UP: [(&str, Popups); 2] = [POPPING_UP[1], POPPING_UP[2]];

/// The numbers of marks that growth is seen over.
const SIZES: [usize; 3] = [256, 1_024, 4_096];

/// Besides, the small numbers that scheduling is timed on.
const SMALL: [usize; 2] = [16, 64];

/// The largest of them.
const MOST: usize = 4_096;

/// Rounds of scheduling and judging that the least time is taken of.
const ROUNDS: usize = 15;

/// Rounds of sorting all pairs, which is slow.
const PAIR_ROUNDS: usize = 2;

/// Rounds of a change, which is raced against scheduling that takes nearly as long.
const CHANGE_ROUNDS: usize = 60;

/// Rounds of what takes well under a millisecond.
const QUICK_ROUNDS: usize = 100;

/// The marks that are rearranged in a turn, in as many calls as it takes: of the most marks a
/// call takes microseconds.
const REARRANGED: usize = 10 * MOST;

fn main() {
    println!("{}", introduction());
    scheduling();
    editions();
    popping_up();
    squares();
    growth();
    changing();
    judging();
    judging_popups();
    judging_squares();
    checking();
    checking_popups();
    checking_counts();
    checking_squares();
    counting();
    viewing();
    viewing_popups();
    viewing_squares();
    walking();
    rearranging();
}

/// What the tables hold.
fn introduction() -> String {
    format!(
        "# Times of the proved library against plain Rust\n\n\
         Each time is the processor's, the least of {ROUNDS} rounds of scheduling and judging \
         ({PAIR_ROUNDS} where all pairs are sorted, and as worded), {CHANGE_ROUNDS} of changes and \
         {QUICK_ROUNDS} of the rest, in which the contenders take turns. Buffers and arrays \
         are allocated before and not cleared between rounds: they hold what the round before \
         left. Plain Rust sorts rank keys and halves the marks of the index by the standard \
         library, with `sort_unstable` and `select_nth_unstable`; the proved library has a radix \
         sort and a selection of its own. A ratio above 1 says that the proved library takes \
         longer."
    )
}

/// Prints a heading and the head of a table.
fn table(heading: &str, columns: &[&str]) {
    println!("\n## {heading}\n");
    println!("| {} |", columns.join(" | "));
    println!("|{}", "---|".repeat(columns.len()));
}

/// The sheet of one part with these marks.
fn one_part(marks: &[Mark]) -> Vec<u8> {
    join(&[&write_marks(marks)])
}

/// The scheduled sheet of these marks.
fn three_parts(marks: &[Mark]) -> Vec<u8> {
    rollmap::schedule_to_vec(&one_part(marks)).expect("the marks are taken")
}

/// The sheet of one part of a sample.
fn sheet_of(layout: Layout, n: usize) -> Vec<u8> {
    one_part(&marks(layout, n, 1))
}

/// The scheduled sheet of a sample.
fn scheduled(layout: Layout, n: usize) -> Vec<u8> {
    three_parts(&marks(layout, n, 1))
}

/// The least times of scheduling a sheet: proved, plain with the same cells, and plain
/// with a scan of all rows. All are seen to write the same bytes.
fn time_scheduling(sheet: &[u8], n: usize, calls: u32) -> [Micros; 3] {
    let (mut work, mut ours) = (vec![0; work_bytes(n)], vec![0; scheduled_bytes(n)]);
    let (mut by_cells, mut by_scan) = (Desk::default(), Desk::default());
    let (mut cells, mut scan) = (ours.clone(), ours.clone());
    let times = race(
        ROUNDS,
        calls,
        [
            &mut || _ = black_box(rollmap::schedule(sheet, Work(&mut work), &mut ours)),
            &mut || _ = black_box(by_cells.schedule_by_cells(sheet, &mut cells)),
            &mut || _ = black_box(by_scan.schedule(sheet, &mut scan)),
        ],
    );
    assert!(ours == cells && ours == scan, "all write the same bytes");
    times
}

/// The least time of scheduling by sorting all pairs, which is seen to write the
/// expected bytes.
fn time_pairs(sheet: &[u8], expected: &[u8]) -> Micros {
    let mut desk = Desk::default();
    let mut out = vec![0; expected.len()];
    let [pairs] = race(
        PAIR_ROUNDS,
        1,
        [&mut || _ = black_box(desk.schedule_by_pairs(sheet, &mut out))],
    );
    assert!(out == expected, "all pairs give the same bytes");
    pairs
}

fn scheduling() {
    table(
        "Scheduling 4,096 marks, from a sheet of one part to one of three",
        &[
            "data",
            "proved, ms",
            "plain Rust with the same cells, ms",
            "ratio",
            "plain Rust by a scan, ms",
            "times faster than the scan",
            "plain Rust by all pairs, ms",
            "times faster than all pairs",
        ],
    );
    for (name, layout) in SCHEDULED {
        let sheet = sheet_of(layout, MOST);
        let [proved, cells, scan] = time_scheduling(&sheet, MOST, 1);
        let pairs = time_pairs(&sheet, &scheduled(layout, MOST));
        println!(
            "| {name} | {:.2} | {:.2} | {:.2} | {:.2} | {:.1} | {:.0} | {:.0} |",
            proved.millis(),
            cells.millis(),
            proved.over(cells),
            scan.millis(),
            scan.over(proved),
            pairs.millis(),
            pairs.over(proved),
        );
    }
}

/// The sheet of a sample with an edition named in part 4.
fn named_sheet_of(edition: Edition, marks: &[Mark]) -> Vec<u8> {
    join_parts(&[(1, &write_marks(marks)), (4, &edition.write())])
}

/// The marks of a sample, with as few priorities as this.
fn with_priorities(layout: Layout, priorities: u16) -> Vec<Mark> {
    let mut marks = marks(layout, MOST, 1);
    marks
        .iter_mut()
        .for_each(|mark| mark.priority %= priorities);
    marks
}

/// The least times of scheduling two sheets of the same marks: proved of both, and plain of
/// the second.
fn time_two(first: &[u8], second: &[u8]) -> [Micros; 3] {
    let written = |sheet| {
        rollmap::schedule_to_vec(sheet)
            .expect("the marks are taken")
            .len()
    };
    let lengths = [first, second, second].map(written);
    let mut works = [(); 2].map(|()| vec![0; work_bytes(MOST)]);
    let mut outs = lengths.map(|length| vec![0; length]);
    let mut desk = Desk::default();
    let ([work_first, work_second], [of_first, of_second, plain]) = (&mut works, &mut outs);
    let times = race(
        ROUNDS,
        1,
        [
            &mut || _ = black_box(rollmap::schedule(first, Work(work_first), of_first)),
            &mut || _ = black_box(rollmap::schedule(second, Work(work_second), of_second)),
            &mut || _ = black_box(desk.schedule_by_cells(second, plain)),
        ],
    );
    assert!(of_second == plain, "both write the same bytes");
    times
}

/// The cells of a row for the times of scheduling two sheets.
fn scheduling_cells([first, second, plain]: [Micros; 3]) -> String {
    format!(
        "{:.2} | {:.2} | {:.2} | {:.2} | {:.2}",
        first.millis(),
        second.millis(),
        second.over(first),
        plain.millis(),
        second.over(plain),
    )
}

fn editions() {
    table(
        "Scheduling 4,096 marks by the second edition, against the first on the same marks",
        &[
            "data",
            "priorities",
            "proved by the first, ms",
            "proved by the second, ms",
            "ratio",
            "plain Rust by the second, ms",
            "ratio",
        ],
    );
    for (name, layout) in DATA {
        for priorities in [1, 16] {
            let marks = with_priorities(layout, priorities);
            let [first, second] = Edition::ALL.map(|edition| named_sheet_of(edition, &marks));
            let cells = scheduling_cells(time_two(&first, &second));
            println!("| {name} | {priorities} | {cells} |");
        }
    }
}

/// The sheet of some marks with popups in part 5.
fn popping_sheet_of(how: Popups, marks: &[Mark]) -> Vec<u8> {
    let part_5 = write_popups(&popups(how, marks, 1));
    join_parts(&[(1, &write_marks(marks)), (5, &part_5)])
}

/// The scheduled sheet of a sample with popups.
fn scheduled_popping_up(how: Popups, layout: Layout) -> Vec<u8> {
    let sheet = popping_sheet_of(how, &marks(layout, MOST, 1));
    rollmap::schedule_to_vec(&sheet).expect("the marks are taken")
}

fn popping_up() {
    table(
        "Scheduling 4,096 marks with popups, against the same marks without",
        &[
            "data",
            "popups",
            "proved without, ms",
            "proved with, ms",
            "ratio",
            "plain Rust with, ms",
            "ratio",
        ],
    );
    for (name, layout) in DATA {
        let marks = marks(layout, MOST, 1);
        for (popups, how) in POPPING_UP {
            let sheet = popping_sheet_of(how, &marks);
            let cells = scheduling_cells(time_two(&one_part(&marks), &sheet));
            println!("| {name} | {popups} | {cells} |");
        }
    }
}

/// The sheet of some marks with a shape named in part 7.
fn shaped_sheet_of(shape: Shape, marks: &[Mark]) -> Vec<u8> {
    join_parts(&[(1, &write_marks(marks)), (7, &shape.write())])
}

/// The scheduled sheets of a sample as disks and as squares.
fn scheduled_as_both(layout: Layout) -> [Vec<u8>; 2] {
    let marks = marks(layout, MOST, 1);
    Shape::ALL.map(|shape| {
        let sheet = shaped_sheet_of(shape, &marks);
        rollmap::schedule_to_vec(&sheet).expect("the marks are taken")
    })
}

fn squares() {
    table(
        "Scheduling 4,096 marks as squares, against the same marks as disks",
        &[
            "data",
            "proved as disks, ms",
            "proved as squares, ms",
            "ratio",
            "plain Rust as squares, ms",
            "ratio",
        ],
    );
    for (name, layout) in DATA {
        let marks = marks(layout, MOST, 1);
        let [disks, squares] = Shape::ALL.map(|shape| shaped_sheet_of(shape, &marks));
        let cells = scheduling_cells(time_two(&disks, &squares));
        println!("| {name} | {cells} |");
    }
}

/// How many times as long the last time is as the one before it, if there is one.
fn growth_of(times: &[Micros]) -> String {
    match times {
        [.., before, last] => format!("{:.1}", last.over(*before)),
        _ => String::from("-"),
    }
}

fn growth() {
    table(
        "Growth of scheduling with the number of marks",
        &[
            "data",
            "marks",
            "proved, µs",
            "times the row above",
            "plain Rust with the same cells, µs",
            "times the row above",
            "ratio",
            "plain Rust by a scan, µs",
        ],
    );
    for (name, layout) in ORDINARY {
        let (mut proved, mut plain) = (Vec::new(), Vec::new());
        for n in SMALL.into_iter().chain(SIZES) {
            let calls = (MOST / n) as u32;
            let [ours, theirs, scan] = time_scheduling(&sheet_of(layout, n), n, calls);
            proved.push(ours);
            plain.push(theirs);
            println!(
                "| {name} | {n} | {:.2} | {} | {:.2} | {} | {:.2} | {:.2} |",
                ours.0,
                growth_of(&proved),
                theirs.0,
                growth_of(&plain),
                ours.over(theirs),
                scan.0,
            );
        }
    }
}

/// The least times of a change that leaves these marks, and of scheduling them: from a
/// sheet of three parts, which is checked as the changed one is, and from one of one part.
/// All are seen to write the same bytes.
fn time_change(
    new: &[Mark],
    change: impl Fn(Work<'_>, &mut [u8]) -> Result<usize, Refusal>,
) -> [Micros; 3] {
    let n = new.len();
    let (whole, bare) = (three_parts(new), one_part(new));
    let mut works = [(); 3].map(|()| vec![0; work_bytes(n)]);
    let mut outs = [(); 3].map(|()| vec![0; scheduled_bytes(n)]);
    let ([work, work_whole, work_bare], [out, out_whole, out_bare]) = (&mut works, &mut outs);
    let times = race(
        CHANGE_ROUNDS,
        (MOST / n) as u32,
        [
            &mut || _ = black_box(change(Work(work), out)),
            &mut || _ = black_box(rollmap::schedule(&whole, Work(work_whole), out_whole)),
            &mut || _ = black_box(rollmap::schedule(&bare, Work(work_bare), out_bare)),
        ],
    );
    assert!(outs.iter().all(|out| *out == whole), "all write the sheet");
    times
}

/// The times of adding the last of these marks to the others.
fn time_adding(new: &[Mark]) -> [Micros; 3] {
    let (last, others) = new.split_last().expect("there is a mark");
    let (sheet, last) = (three_parts(others), rollmap::Mark::from_bytes(last.write()));
    time_change(new, |work, out| {
        rollmap::add(&sheet, last, NO_POPUP, work, out)
    })
}

/// The times of taking the middle one of these marks out.
fn time_taking_out(old: &[Mark]) -> [Micros; 3] {
    let (sheet, middle) = (three_parts(old), old.len() / 2);
    let new = [&old[..middle], &old[middle + 1..]].concat();
    time_change(&new, |work, out| {
        rollmap::take_out(&sheet, middle as u32, work, out)
    })
}

fn changing() {
    table(
        "Adding the last mark and taking the middle one out, against scheduling the new marks",
        &[
            "data",
            "change",
            "new number of marks",
            "change, µs",
            "scheduling three parts, µs",
            "ratio",
            "scheduling one part, µs",
            "ratio",
        ],
    );
    for (name, layout) in CHANGED {
        for n in SIZES {
            let new = marks(layout, n, 1);
            let old = marks(layout, MOST.min(n + 1), 1);
            for (change, n, [ours, whole, bare]) in [
                ("adding", n, time_adding(&new)),
                ("taking out", old.len() - 1, time_taking_out(&old)),
            ] {
                println!(
                    "| {name} | {change} | {n} | {:.1} | {:.1} | {:.2} | {:.1} | {:.2} |",
                    ours.0,
                    whole.0,
                    ours.over(whole),
                    bare.0,
                    ours.over(bare),
                );
            }
        }
    }
}

/// The least times of judging a scheduled sheet: proved; of scheduling it again, proved; and
/// of judging it in plain Rust by a scan and by all pairs. All are seen to accept it.
fn time_judging(sheet: &[u8]) -> [Micros; 4] {
    let mut work = vec![0; work_bytes(MOST)];
    let mut out = vec![0; sheet.len()];
    let [mut scan, mut pairs] = [(); 2].map(|()| Desk::default());
    assert!(rollmap::judge(sheet).is_ok());
    assert!(scan.judge_by_scan(sheet).is_ok() && pairs.judge_by_pairs(sheet).is_ok());
    let times = race(
        ROUNDS,
        1,
        [
            &mut || _ = black_box(rollmap::judge(black_box(sheet))),
            &mut || _ = black_box(rollmap::schedule(sheet, Work(&mut work), &mut out)),
            &mut || _ = black_box(scan.judge_by_scan(black_box(sheet))),
            &mut || _ = black_box(pairs.judge_by_pairs(black_box(sheet))),
        ],
    );
    assert!(out == sheet, "scheduling writes the sheet again");
    times
}

/// The least time of judging a sheet by all pairs as 02 words it, with nothing laid out for
/// speed.
fn time_wording(sheet: &[u8]) -> Micros {
    let [wording] = race(
        PAIR_ROUNDS,
        1,
        [&mut || _ = black_box(oracle::judge::judge(black_box(sheet)))],
    );
    wording
}

/// The cells of a row for the times of judging.
fn judging_cells([judging, scheduling, scan, pairs]: [Micros; 4]) -> String {
    format!(
        "{:.2} | {:.2} | {:.2} | {:.2} | {:.1} | {:.2} | {:.1}",
        judging.millis(),
        scheduling.millis(),
        judging.over(scheduling),
        scan.millis(),
        scan.over(judging),
        pairs.millis(),
        pairs.over(judging),
    )
}

/// The cells of the judge as it is worded, against the proved one.
fn worded_cells(judging: Micros, sheet: &[u8]) -> String {
    let wording = time_wording(sheet);
    format!("{:.0} | {:.0}", wording.millis(), wording.over(judging))
}

/// The columns of these cells.
const AS_WORDED: [&str; 2] = ["by all pairs as worded, ms", "times faster than that"];

/// The columns of the others.
const JUDGING_COLUMNS: [&str; 7] = [
    "judging, proved, ms",
    "scheduling, proved, ms",
    "judging over scheduling",
    "judging in plain Rust by a scan, ms",
    "times faster than the scan",
    "judging in plain Rust by all pairs, ms",
    "times faster than all pairs",
];

fn judging() {
    table(
        "Judging 4,096 marks, against scheduling them and against all pairs; all check the sheet \
         in each call",
        &[&["data"], &JUDGING_COLUMNS[..], &AS_WORDED].concat(),
    );
    for (name, layout) in JUDGED {
        let sheet = scheduled(layout, MOST);
        let times = time_judging(&sheet);
        let [cells, wording] = [judging_cells(times), worded_cells(times[0], &sheet)];
        println!("| {name} | {cells} | {wording} |");
    }
}

fn judging_popups() {
    table(
        "Judging 4,096 marks with popups, against scheduling them and against all pairs",
        &[&["data", "popups"], &JUDGING_COLUMNS[..]].concat(),
    );
    for (name, layout) in JUDGED {
        for (popups, how) in POPPING_UP {
            let cells = judging_cells(time_judging(&scheduled_popping_up(how, layout)));
            println!("| {name} | {popups} | {cells} |");
        }
    }
}

fn judging_squares() {
    table(
        "Judging 4,096 marks as squares, against scheduling them and against all pairs",
        &[&["data"], &JUDGING_COLUMNS[..]].concat(),
    );
    for (name, layout) in JUDGED {
        let [_, squares] = scheduled_as_both(layout);
        let cells = judging_cells(time_judging(&squares));
        println!("| {name} | {cells} |");
    }
}

/// The least times of checking a sheet: proved, and plain.
fn time_checking(sheet: &[u8], calls: u32) -> [Micros; 2] {
    assert!(rollmap::check(sheet).is_ok() && plain::sheet::open(sheet).is_ok());
    race(
        QUICK_ROUNDS,
        calls,
        [
            &mut || _ = black_box(rollmap::check(black_box(sheet))),
            &mut || _ = black_box(plain::sheet::open(black_box(sheet)).is_ok()),
        ],
    )
}

fn checking() {
    table(
        "Checking a scheduled sheet",
        &[
            "data",
            "marks",
            "proved, µs",
            "times the row above",
            "plain Rust, µs",
            "ratio",
        ],
    );
    for (name, layout) in ORDINARY {
        let mut proved = Vec::new();
        for n in SIZES {
            let calls = (MOST / n) as u32;
            let [ours, theirs] = time_checking(&scheduled(layout, n), calls);
            proved.push(ours);
            println!(
                "| {name} | {n} | {:.1} | {} | {:.1} | {:.2} |",
                ours.0,
                growth_of(&proved),
                theirs.0,
                ours.over(theirs),
            );
        }
    }
}

/// The least times of checking two sheets of the same marks: proved of both, and plain of the
/// second.
fn time_checking_two(first: &[u8], second: &[u8]) -> [Micros; 3] {
    let accepted = [first, second].map(|sheet| rollmap::check(sheet).is_ok());
    assert_eq!(accepted, [true; 2]);
    assert!(plain::sheet::open(second).is_ok());
    race(
        QUICK_ROUNDS,
        1,
        [
            &mut || _ = black_box(rollmap::check(black_box(first))),
            &mut || _ = black_box(rollmap::check(black_box(second))),
            &mut || _ = black_box(plain::sheet::open(black_box(second)).is_ok()),
        ],
    )
}

/// The columns of the times with a further part, against those without it.
const FURTHER_COLUMNS: [&str; 5] = [
    "proved without, µs",
    "proved with, µs",
    "ratio",
    "plain Rust with, µs",
    "ratio",
];

/// The columns of the times as squares, against those as disks.
const SQUARE_COLUMNS: [&str; 5] = [
    "proved as disks, µs",
    "proved as squares, µs",
    "ratio",
    "plain Rust as squares, µs",
    "ratio",
];

/// The cells of these columns, and of those with a further part.
fn further_cells([first, second, plain]: [Micros; 3]) -> String {
    format!(
        "{:.1} | {:.1} | {:.2} | {:.1} | {:.2}",
        first.0,
        second.0,
        second.over(first),
        plain.0,
        second.over(plain),
    )
}

/// Prints the table of checking sheets with a further part, against the same without it: those
/// of a layout that are given here, by the words for their popups, without the part and with it.
fn checking_further(heading: &str, sheets: impl Fn(Layout) -> Vec<(&'static str, [Vec<u8>; 2])>) {
    table(
        heading,
        &[&["data", "popups"], &FURTHER_COLUMNS[..]].concat(),
    );
    for (name, layout) in ORDINARY {
        for (popups, [without, with]) in sheets(layout) {
            let cells = further_cells(time_checking_two(&without, &with));
            println!("| {name} | {popups} | {cells} |");
        }
    }
}

fn checking_popups() {
    checking_further(
        "Checking a scheduled sheet of 4,096 marks with popups, against the same marks without",
        |layout| {
            let bare = scheduled(layout, MOST);
            let both = |how| [bare.clone(), scheduled_popping_up(how, layout)];
            POPPING_UP.map(|(popups, how)| (popups, both(how))).to_vec()
        },
    );
}

/// The scheduled sheets of a sample that are counted: without popups, and with popups of each
/// kind that checking is timed with; by the words for these.
fn sheets_to_count(layout: Layout) -> Vec<(&'static str, Vec<u8>)> {
    let popping_up = POPPING_UP.map(|(popups, how)| (popups, scheduled_popping_up(how, layout)));
    let mut sheets = vec![("none", scheduled(layout, MOST))];
    sheets.extend(popping_up);
    sheets
}

fn checking_counts() {
    checking_further(
        "Checking a scheduled sheet of 4,096 marks with counts, against the same without",
        |layout| {
            let both = |sheet: Vec<u8>| {
                let counted = rollmap::count_to_vec(&sheet).expect("it has a schedule");
                [sheet, counted]
            };
            let sheets = sheets_to_count(layout).into_iter();
            sheets
                .map(|(popups, sheet)| (popups, both(sheet)))
                .collect()
        },
    );
}

fn checking_squares() {
    table(
        "Checking a scheduled sheet of 4,096 marks as squares, against the same marks as disks",
        &[&["data"], &SQUARE_COLUMNS[..]].concat(),
    );
    for (name, layout) in ORDINARY {
        let [disks, squares] = scheduled_as_both(layout);
        let cells = further_cells(time_checking_two(&disks, &squares));
        println!("| {name} | {cells} |");
    }
}

/// The least times of counting a sheet: proved, plain, and of the proved check alone. Both
/// are seen to write the same bytes.
fn time_counting(sheet: &[u8]) -> [Micros; 3] {
    let mut outs = [(); 2].map(|()| vec![0; sheet.len() + COUNTED_BYTES]);
    let [ours, theirs] = &mut outs;
    let times = race(
        QUICK_ROUNDS,
        1,
        [
            &mut || _ = black_box(rollmap::count(black_box(sheet), black_box(ours))),
            &mut || _ = black_box(plain::count::count(black_box(sheet), black_box(theirs))),
            &mut || _ = black_box(rollmap::check(black_box(sheet))),
        ],
    );
    assert!(
        ours == theirs && ours.len() > sheet.len(),
        "both write the same bytes"
    );
    assert!(rollmap::counts(ours).is_some());
    times
}

fn counting() {
    table(
        "Counting 4,096 marks; both check the sheet in each call",
        &[
            "data",
            "popups",
            "proved, µs",
            "plain Rust, µs",
            "ratio",
            "times the check alone",
        ],
    );
    for (name, layout) in ORDINARY {
        for (popups, sheet) in sheets_to_count(layout) {
            let [ours, theirs, check] = time_counting(&sheet);
            println!(
                "| {name} | {popups} | {:.1} | {:.1} | {:.2} | {:.2} |",
                ours.0,
                theirs.0,
                ours.over(theirs),
                ours.over(check),
            );
        }
    }
}

/// A square of so many map units about a place, as much of it as there is.
fn square_about(x: i16, y: i16, half: i32) -> Edges {
    let side = |at: i16| {
        let edge = |edge: i32| edge.clamp(-FARTHEST_EDGE, FARTHEST_EDGE);
        [edge(i32::from(at) - half), edge(i32::from(at) + half)]
    };
    let ([x0, x1], [y0, y1]) = (side(x), side(y));
    Edges { x0, x1, y0, y1 }
}

/// The edges to which a quarter turn takes these.
fn quarter_turned(edges: Edges) -> Edges {
    let Edges { x0, x1, y0, y1 } = edges;
    Edges {
        x0: -y1,
        x1: -y0,
        y0: x0,
        y1: x1,
    }
}

/// A window as the bindings have it, at a wheel value.
fn bound(window: Window, wheel: f32) -> View {
    let Edges { x0, x1, y0, y1 } = window.edges;
    View {
        x0,
        x1,
        y0,
        y1,
        turn: Turn::from_quarters(window.turn).expect("there is such a turn"),
        zoom: Zoom::Wheel(wheel),
    }
}

/// The least times of a view at k/64: proved, plain, and of the proved check alone; then
/// proved and plain with a quarter turn, of the same places. All views are seen to show the
/// same. Answers how many marks are shown and looked at, too.
fn time_view(sheet: &[u8], edges: Edges, k: u32) -> ([usize; 2], [Micros; 5]) {
    let wheel = k as f32 / 64.0;
    let zoom = oracle::zoom::Zoom::Wheel(wheel);
    let (upright, turned) = (edges.unturned(), quarter_turned(edges).of_turned(1));
    let [ours, ours_turned] = [upright, turned].map(|window| bound(window, wheel));
    let mut maps = [(); 4].map(|()| vec![0; map_bytes(MOST)]);
    let [map, plain_map, map_turned, plain_map_turned] = &mut maps;
    let counts = [
        rollmap::view(sheet, ours, map).ok(),
        plain::view::view(sheet, upright, zoom, plain_map).ok(),
        rollmap::view(sheet, ours_turned, map_turned).ok(),
        plain::view::view(sheet, turned, zoom, plain_map_turned).ok(),
    ];
    let times = race(
        QUICK_ROUNDS,
        1,
        [
            &mut || _ = black_box(rollmap::view(sheet, ours, map)),
            &mut || _ = black_box(plain::view::view(sheet, upright, zoom, plain_map)),
            &mut || _ = black_box(rollmap::check(sheet)),
            &mut || _ = black_box(rollmap::view(sheet, ours_turned, map_turned)),
            &mut || _ = black_box(plain::view::view(sheet, turned, zoom, plain_map_turned)),
        ],
    );
    assert!(maps.iter().all(|map| *map == maps[0]), "all show the same");
    assert_eq!(counts, [counts[0]; 4]);
    let visited = plain::view::visited(sheet, upright, zoom);
    let count = counts[0].expect("the view is taken") as usize;
    ([count, visited.expect("the view is taken")], times)
}

/// The columns that say which view it is, and of how many marks.
const VIEW_COLUMNS: [&str; 4] = ["rectangle", "64 times the zoom", "shown", "looked at"];

/// The rectangles that are viewed of a sample, by the words for them: one about its first mark,
/// and all places.
fn rectangles(layout: Layout) -> [(&'static str, Edges); 2] {
    let first = marks(layout, MOST, 1)[0];
    let small = square_about(first.x, first.y, 500);
    [("1,000 wide", small), ("whole", Edges::WHOLE)]
}

fn viewing() {
    table(
        "Viewing 4,096 marks; both check the sheet in each call",
        &[
            &["data"],
            &VIEW_COLUMNS[..],
            &[
                "proved, µs",
                "plain Rust, µs",
                "ratio",
                "times the check alone",
                "proved with a quarter turn, µs",
                "times the view without it",
                "plain Rust with it, µs",
                "ratio",
            ],
        ]
        .concat(),
    );
    for (name, layout) in VIEWED {
        let sheet = scheduled(layout, MOST);
        for (size, edges) in rectangles(layout) {
            for k in [1, 64, 1_024, 16_384] {
                let ([count, visited], times) = time_view(&sheet, edges, k);
                let [ours, theirs, check, turned, theirs_turned] = times;
                println!(
                    "| {name} | {size} | {k} | {count} | {visited} | {:.1} | {:.1} | {:.2} | {:.2} \
                     | {:.1} | {:.2} | {:.1} | {:.2} |",
                    ours.0,
                    theirs.0,
                    ours.over(theirs),
                    ours.over(check),
                    turned.0,
                    turned.over(ours),
                    theirs_turned.0,
                    turned.over(theirs_turned),
                );
            }
        }
    }
}

/// The least times of a view at k/64 of two sheets of the same marks: proved of both, and
/// plain of the second. Answers how many marks of the second are shown and looked at, too.
fn time_viewing_two(
    first: &[u8],
    second: &[u8],
    edges: Edges,
    k: u32,
) -> ([usize; 2], [Micros; 3]) {
    let wheel = k as f32 / 64.0;
    let (zoom, window) = (oracle::zoom::Zoom::Wheel(wheel), edges.unturned());
    let view = bound(window, wheel);
    let mut maps = [(); 3].map(|()| vec![0; map_bytes(MOST)]);
    let [map_first, map_second, plain_map] = &mut maps;
    let times = race(
        QUICK_ROUNDS,
        1,
        [
            &mut || _ = black_box(rollmap::view(first, view, map_first)),
            &mut || _ = black_box(rollmap::view(second, view, map_second)),
            &mut || _ = black_box(plain::view::view(second, window, zoom, plain_map)),
        ],
    );
    assert!(map_second == plain_map, "both show the same");
    let shown = map_second.iter().map(|byte| byte.count_ones()).sum::<u32>();
    let visited = plain::view::visited(second, window, zoom);
    ([shown as usize, visited.expect("the view is taken")], times)
}

fn viewing_popups() {
    table(
        "Viewing 4,096 marks with popups, against the same marks without; all check the sheet in \
         each call",
        &[&["data", "popups"], &VIEW_COLUMNS[..], &FURTHER_COLUMNS].concat(),
    );
    for (name, layout) in VIEWED {
        let bare = scheduled(layout, MOST);
        for (popups, how) in VIEWED_POPPING_UP {
            let sheet = scheduled_popping_up(how, layout);
            for (size, edges) in rectangles(layout) {
                for k in [64, 1_024] {
                    let ([shown, visited], times) = time_viewing_two(&bare, &sheet, edges, k);
                    let cells = further_cells(times);
                    println!(
                        "| {name} | {popups} | {size} | {k} | {shown} | {visited} | {cells} |"
                    );
                }
            }
        }
    }
}

fn viewing_squares() {
    table(
        "Viewing 4,096 marks as squares, against the same marks as disks; all check the sheet in \
         each call",
        &[&["data"], &VIEW_COLUMNS[..], &SQUARE_COLUMNS].concat(),
    );
    for (name, layout) in VIEWED {
        let [disks, squares] = scheduled_as_both(layout);
        for (size, edges) in rectangles(layout) {
            for k in [64, 1_024] {
                let ([shown, visited], times) = time_viewing_two(&disks, &squares, edges, k);
                let cells = further_cells(times);
                println!("| {name} | {size} | {k} | {shown} | {visited} | {cells} |");
            }
        }
    }
}

/// The number of steps of a walk over a whole map with the proved library.
fn walk_proved(map: &[u8]) -> usize {
    let next = |start| {
        let step = rollmap::walk(black_box(map), MOST as u32, start);
        step.expect("the map is long enough")
    };
    std::iter::successors(next(0), |&mark| next(mark + 1)).count()
}

/// The number of steps of a walk over a whole map in plain Rust.
fn walk_plain(map: &[u8]) -> usize {
    let next = |start| plain::view::walk(black_box(map), MOST, start);
    std::iter::successors(next(0), |&mark| next(mark + 1)).count()
}

fn walking() {
    table(
        "Walking a whole map of 4,096 marks",
        &["shown", "proved, µs", "plain Rust, µs", "ratio"],
    );
    for byte in [0xff_u8, 0x10, 0x00] {
        let map = vec![byte; map_bytes(MOST)];
        let count = walk_plain(&map);
        assert_eq!(walk_proved(&map), count);
        let [ours, theirs] = race(
            QUICK_ROUNDS,
            5,
            [&mut || _ = black_box(walk_proved(&map)), &mut || {
                _ = black_box(walk_plain(&map))
            }],
        );
        println!(
            "| {count} | {:.2} | {:.2} | {:.2} |",
            ours.0,
            theirs.0,
            ours.over(theirs)
        );
    }
}

/// The least times of rearranging bytes: proved, and plain. Both are seen to write the same.
fn time_rearranging(
    given: &[u8],
    calls: u32,
    proved: fn(&[u8], &mut [u8]) -> Result<usize, Refusal>,
    plain: fn(&[u8], &mut [u8]) -> Result<usize, oracle::Refusal>,
) -> [Micros; 2] {
    let mut outs = [(); 2].map(|()| vec![0; given.len()]);
    let [ours, theirs] = &mut outs;
    let times = race(
        QUICK_ROUNDS,
        calls,
        [
            &mut || _ = black_box(proved(black_box(given), black_box(ours))),
            &mut || _ = black_box(plain(black_box(given), black_box(theirs))),
        ],
    );
    assert!(ours == theirs && ours != given, "both write the same bytes");
    times
}

fn rearranging() {
    table(
        "Rearranging marks by columns, and back",
        &[
            "direction",
            "marks",
            "proved, µs",
            "plain Rust, µs",
            "ratio",
        ],
    );
    for n in SIZES {
        // What the marks hold plays no part.
        let part_1 = write_marks(&marks(Layout::Reel, n, 1));
        let columns = rollmap::to_columns_vec(&part_1).expect("the marks are taken");
        let calls = (REARRANGED / n) as u32;
        let [to, from] = [
            time_rearranging(
                &part_1,
                calls,
                rollmap::to_columns,
                plain::columns::to_columns,
            ),
            time_rearranging(
                &columns,
                calls,
                rollmap::from_columns,
                plain::columns::from_columns,
            ),
        ];
        for (direction, [ours, theirs]) in [("to columns", to), ("from columns", from)] {
            println!(
                "| {direction} | {n} | {:.2} | {:.2} | {:.2} |",
                ours.0,
                theirs.0,
                ours.over(theirs)
            );
        }
    }
}
