//! What `docs/GUARDS.md` says to those who delete a guard, run row by row.

mod common;

use std::io::Write;
use std::process::{Command, Stdio};

use common::jobs::{records, records_among};
use common::{
    bound, one_part, rivals, some_records, three_parts, with_part_4, with_part_7, with_popups,
    Beyond, PROGRAM,
};
use oracle::mark::{read_marks, touching_value, Mark};
use oracle::record::{read_records, removals, Record};
use oracle::sample::{marks, popups, Generator, Layout, Popups, P1};
use oracle::turn::turned_marks;
use oracle::view::{map_and_count, Edges};
use oracle::zoom::remains;
use rollmap::{
    add_to_vec, count_to_vec, from_columns_vec, map_bytes, popups_bytes, schedule_to_vec,
    scheduled_bytes, take_out_to_vec, to_columns_vec, view_to_map, work_bytes, Code, Counts,
    Edition, Group, Refusal, Shape, Turn, View, Work, Zoom, EDITION_BYTES, NO_POPUP, SHAPE_BYTES,
};

const GUARDS: &str = include_str!("../../../docs/GUARDS.md");

/// The sheet of these marks as scheduling writes it.
fn scheduled(marks: &[Mark]) -> Vec<u8> {
    schedule_to_vec(&one_part(marks)).unwrap()
}

/// The sheet of these marks with an edition named, as scheduling writes it.
fn scheduled_by(edition: Edition, marks: &[Mark]) -> Vec<u8> {
    schedule_to_vec(&with_part_4(&one_part(marks), &edition.to_bytes())).unwrap()
}

/// The sheet of these marks with a shape named, as scheduling writes it.
fn scheduled_as(shape: Shape, marks: &[Mark]) -> Vec<u8> {
    schedule_to_vec(&with_part_7(&one_part(marks), &shape.to_bytes())).unwrap()
}

/// The sheet of these marks with these popups, as scheduling writes it.
fn scheduled_popping_up(marks: &[Mark], popups: &[u32]) -> Vec<u8> {
    schedule_to_vec(&with_popups(&one_part(marks), popups)).unwrap()
}

/// The sheets of a sample of every layout, without popups and with popups of every kind.
fn sheets_of_every_kind(n: usize, seed: u64) -> Vec<(Vec<u8>, Vec<Mark>)> {
    let mut sheets = Vec::new();
    for sample in Layout::ALL.map(|layout| marks(layout, n, seed)) {
        let drawn = Popups::ALL.map(|how| popups(how, &sample, seed));
        let popping_up = drawn.map(|popups| scheduled_popping_up(&sample, &popups));
        let all = [scheduled(&sample)].into_iter().chain(popping_up);
        sheets.extend(all.map(|sheet| (sheet, sample.clone())));
    }
    sheets
}

/// The numbers of the marks that a view of all places shows.
fn shown(sheet: &[u8], zoom: Zoom) -> Vec<u32> {
    let map = view_to_map(sheet, View::whole(zoom)).unwrap();
    map.iter().collect()
}

/// The number of the mark that removes each mark.
fn eliminators(sheet: &[u8]) -> Vec<Option<u16>> {
    let records = rollmap::records(sheet).unwrap();
    let eliminator = |record| match record {
        rollmap::Record::Never => None,
        rollmap::Record::Removed { eliminator, .. } => Some(eliminator),
    };
    records.map(eliminator).collect()
}

/// The zoom of which 64 times is k.
fn wheel(k: u32) -> Zoom {
    Zoom::Wheel(k as f32 / 64.0)
}

/// Whether two marks touch at k / 64, as disks.
fn touch(a: &Mark, b: &Mark, k: u64) -> bool {
    touch_as(oracle::shape::Shape::Disk, a, b, k)
}

/// Whether two marks touch at k / 64, as labels of a shape.
fn touch_as(shape: oracle::shape::Shape, a: &Mark, b: &Mark, k: u64) -> bool {
    let value = touching_value(shape, a, b);
    4_096 * value.numerator <= k * k * u64::from(value.denominator)
}

/// What the program prints for a sheet.
fn printed(sheet: &[u8]) -> String {
    let mut program = Command::new(PROGRAM)
        .stdin(Stdio::piped())
        .stdout(Stdio::piped())
        .spawn()
        .expect("the program is built: run `./build`");
    program.stdin.take().unwrap().write_all(sheet).unwrap();
    let output = program.wait_with_output().unwrap();
    String::from_utf8(output.stdout).unwrap()
}

#[test]
fn every_test_that_the_page_names_is_here_or_in_the_tool() {
    let own = concat!(
        include_str!("guards.rs"),
        include_str!("../../tool/tests/guards.rs")
    );
    let rows = GUARDS.lines().filter(|line| line.starts_with("| "));
    let last = rows.filter_map(|row| row.trim_end_matches(" |").rsplit_once(" | "));
    let cells = last
        .map(|(_, cell)| cell)
        .filter(|cell| cell.starts_with('`'));
    let sentences = GUARDS.lines().filter_map(|line| line.split_once("Test: "));
    let named = cells.chain(sentences.map(|(_, name)| name.trim_end_matches('.')));
    let names: Vec<&str> = named.flat_map(|names| names.split(", ")).collect();
    assert_eq!(names.len(), 48);
    for name in names {
        let test = format!("#[test]\nfn {}()", name.trim_matches('`'));
        assert!(own.contains(&test), "{name}");
    }
}

#[test]
fn a_foreign_schedule_is_accepted_and_scheduling_mends_it() {
    let pair = [Mark::plain(0, 0, 10, 9), Mark::plain(100, 0, 10, 5)];
    let foreign = three_parts(&pair, &[Record::NEVER; 2]);
    assert_eq!(rollmap::check(&foreign), Ok(()));
    assert_eq!(rollmap::judge(&foreign), Err(Refusal::Judgement));
    assert!(touch(&pair[0], &pair[1], 320));
    assert_eq!(shown(&foreign, wheel(320)), [0, 1]);

    let mended = schedule_to_vec(&foreign).unwrap();
    assert_eq!(shown(&mended, wheel(320)), [0]);
    assert_eq!(schedule_to_vec(&mended), Ok(mended));
}

#[test]
fn a_schedule_from_elsewhere_is_judged_and_not_worked_out_again() {
    let mut generator = Generator::new(91);
    let (mut accepted, mut refused) = (0, 0);
    for round in 0..400 {
        let marks = rivals(&mut generator, 1 + round % 12);
        let beyond = Beyond::draw(&mut generator, &marks);
        let records = some_records(&mut generator, beyond.reel(&marks));
        let proposed = beyond.with_records(&marks, &records);
        assert_eq!(rollmap::check(&proposed), Ok(()));
        let ours = schedule_to_vec(&proposed).unwrap();
        match rollmap::judge(&proposed) {
            Ok(()) => {
                assert_eq!(proposed, ours);
                accepted += 1;
            }
            Err(refusal) => {
                assert_eq!(refusal, Refusal::Judgement);
                assert_ne!(proposed, ours);
                refused += 1;
            }
        }
        assert_eq!(rollmap::judge(&ours), Ok(()));
    }
    assert!(accepted > 100 && refused > 100, "{accepted} {refused}");
    // Part 1 alone has no schedule to be judged.
    assert_eq!(rollmap::judge(&one_part(&P1)), Err(Refusal::Unscheduled));
}

// ---- the cut list

/// Two breaks of the house radius, so far apart, and how many a view at stop 0 shows.
fn two_breaks(apart: i16, radius: u16) -> (Vec<u8>, usize) {
    let mark = |x, priority| Mark {
        kind: 150,
        ..Mark::plain(x, 0, radius, priority)
    };
    let sheet = scheduled(&[mark(0, 2), mark(apart, 1)]);
    let count = shown(&sheet, Zoom::Stop(0)).len();
    (sheet, count)
}

#[test]
fn the_cut_list_reads_part_1() {
    // (200 + 200) / 64 is 6.25, and (16,383 + 16,383) / 64 a little under 512.
    for (radius, last_gone) in [(0, 6), (200, 6), (16_383, 511)] {
        for apart in [0, 1, last_gone - 1, last_gone, last_gone + 1] {
            let (sheet, count) = two_breaks(apart, radius);
            assert_eq!(count, if apart <= last_gone { 1 } else { 2 });
            let part_1 = rollmap::marks(&sheet).unwrap();
            assert!(part_1.map(|mark| mark.x).eq([0, apart]));
        }
    }
    // No mark is missing in part 1, whatever the sheet.
    for layout in Layout::ALL {
        let marks = marks(layout, 200, 3);
        let (given, sheet) = (one_part(&marks), scheduled(&marks));
        assert_eq!(
            rollmap::part(&sheet, Code::Marks),
            rollmap::part(&given, Code::Marks)
        );
    }
    // A refused sheet is not a reel without marks.
    let (empty, refused) = (scheduled(&[]), &scheduled(&P1)[1..]);
    assert_eq!(rollmap::part(&empty, Code::Marks), Some([].as_slice()));
    assert_eq!(rollmap::part(refused, Code::Marks), None);
}

#[test]
fn shown_marks_do_not_touch() {
    for (sheet, marks) in sheets_of_every_kind(150, 5) {
        for stop in 0..=16 {
            let shown = shown(&sheet, Zoom::Stop(stop));
            for (at, &a) in shown.iter().enumerate() {
                let others = shown[at + 1..].iter();
                let apart = |&b: &u32| !touch(&marks[a as usize], &marks[b as usize], 1 << stop);
                assert!(others.clone().all(apart));
            }
        }
    }
    // Marks of part 1, and of views at two zooms, do touch.
    assert!(touch(&P1[0], &P1[3], 16));
    let sheet = scheduled(&P1);
    assert!(shown(&sheet, wheel(1)).contains(&3) && shown(&sheet, wheel(16)).contains(&0));
}

#[test]
fn the_cut_list_keeps_its_120() {
    let patch = |x, radius| Mark {
        kind: 120,
        ..Mark::plain(x, 0, radius, 0)
    };
    let marks = [patch(0, 0), patch(1_000, 7), Mark::plain(2_000, 0, 0, 0)];
    let sheet = scheduled(&marks);
    let filled = rollmap::fill_to_vec(rollmap::part(&sheet, Code::Marks).unwrap()).unwrap();
    let radii = read_marks(&filled).into_iter().map(|mark| mark.radius);
    assert!(radii.eq([120, 7, 40]));
    // The sheet's own labels grow by 150.
    let gone = rollmap::Record::Removed {
        eliminator: 0,
        numerator: 1_000 * 1_000,
        denominator: 157 * 157,
    };
    assert_eq!(rollmap::records(&sheet).unwrap().nth(1), Some(gone));
}

#[test]
fn a_walk_is_by_number_and_not_by_rank() {
    let marks = [
        Mark::plain(0, 0, 1, 1),
        Mark::plain(9_000, 0, 1, 9),
        Mark::plain(-9_000, 0, 1, 5),
    ];
    assert_eq!(shown(&scheduled(&marks), Zoom::Stop(0)), [0, 1, 2]);
}

// ---- the panel

#[test]
fn the_panel_draws_at_the_zoom_that_it_asks_for() {
    let pair = [Mark::plain(0, 0, 10, 9), Mark::plain(100, 0, 10, 5)];
    let sheet = scheduled(&pair);
    let between = View::whole(Zoom::Wheel(319.5 / 64.0));
    assert_eq!(view_to_map(&sheet, between), Err(Refusal::Zoom));
    assert_eq!(shown(&sheet, wheel(319)), [0, 1]);
    assert!(!touch(&pair[0], &pair[1], 319));
    assert!(touch(&pair[0], &pair[1], 320));
}

#[test]
fn an_eliminator_may_be_gone_and_nobody_need_touch() {
    // 2 goes by 1 at zoom 1/2, and 1 by 0 at zoom 5.
    let marks = [
        Mark::plain(0, 0, 10, 9),
        Mark::plain(100, 0, 10, 5),
        Mark::plain(110, 0, 10, 1),
    ];
    let sheet = scheduled(&marks);
    assert_eq!(eliminators(&sheet), [None, Some(0), Some(1)]);
    assert_eq!(shown(&sheet, wheel(320)), [0]);
    assert!(!touch(&marks[0], &marks[2], 320), "nobody touches 2 there");
}

#[test]
fn following_eliminators_ends_at_a_mark_that_lives() {
    for (sheet, _) in sheets_of_every_kind(120, 4) {
        let eliminators = eliminators(&sheet);
        let part_2 = records(&sheet);
        for stop in 0..=16 {
            let shown = shown(&sheet, Zoom::Stop(stop));
            // From a mark that is removed: one that has not popped up is not gone.
            let gone = |m: &usize| !remains(part_2[*m].removal(), 1 << stop);
            for first in (0..part_2.len()).filter(gone) {
                let mut at = first;
                while !shown.contains(&(at as u32)) {
                    at = eliminators[at]
                        .expect("a mark that is never removed lives")
                        .into();
                }
            }
        }
    }
}

#[test]
fn of_equal_values_the_highest_ranked_is_named() {
    let marks = [
        Mark::plain(0, 0, 10, 0),
        Mark::plain(-50, 0, 10, 5),
        Mark::plain(50, 0, 10, 7),
    ];
    let expected = rollmap::Record::Removed {
        eliminator: 2,
        numerator: 2_500,
        denominator: 400,
    };
    let sheet = scheduled(&marks);
    assert_eq!(rollmap::records(&sheet).unwrap().next(), Some(expected));
}

#[test]
fn of_equal_priorities_the_second_edition_keeps_the_larger_label() {
    // A patch of the house radius, 150, between two written radii.
    let patch = Mark {
        kind: 100,
        ..Mark::plain(50, 0, 0, 5)
    };
    let marks = [Mark::plain(0, 0, 149, 5), patch, Mark::plain(90, 0, 10, 5)];
    let [first, second] = [Edition::First, Edition::Second].map(|it| scheduled_by(it, &marks));
    assert_eq!(shown(&first, Zoom::Stop(16)), [0]);
    assert_eq!(shown(&second, Zoom::Stop(16)), [1]);
    assert_eq!(eliminators(&second), [Some(1), None, Some(1)]);
    // A higher priority counts before any radius.
    let higher = [Mark::plain(0, 0, 1, 6), patch];
    let sheet = scheduled_by(Edition::Second, &higher);
    assert_eq!(shown(&sheet, Zoom::Stop(16)), [0]);
}

#[test]
fn a_mark_is_gone_at_its_own_removal_zoom() {
    let sheet = scheduled(&[Mark::plain(0, 0, 10, 9), Mark::plain(100, 0, 10, 5)]);
    assert_eq!(shown(&sheet, wheel(319)), [0, 1]);
    assert_eq!(shown(&sheet, wheel(320)), [0]);
}

// ---- the shift report

/// The removal zoom to the nearest 64th: the zoom in 128ths, halved, and an exact half
/// to the even number.
fn nearest_64th(numerator: u64, denominator: u64) -> u64 {
    let square = 16_384 * numerator;
    let halves = (square / denominator).isqrt();
    if halves % 4 == 1 && halves * halves * denominator == square {
        halves / 2
    } else {
        halves.div_ceil(2)
    }
}

/// The line that the report prints for a mark by its record.
fn line(m: usize, record: rollmap::Record) -> String {
    match record {
        rollmap::Record::Never => format!("{m} -\n"),
        rollmap::Record::Removed {
            eliminator,
            numerator,
            denominator,
        } => {
            let k = nearest_64th(numerator, u64::from(denominator));
            format!("{m} {eliminator} {numerator} {denominator} {k}\n")
        }
    }
}

/// The text of a scheduled sheet by its records.
fn text_of(sheet: &[u8]) -> String {
    let records = rollmap::records(sheet).unwrap();
    let first = format!("marks {}\n", records.len());
    let lines = records.enumerate().map(|(m, record)| line(m, record));
    first + &lines.collect::<String>()
}

#[test]
fn the_program_prints_2000_marks_and_part_2_has_the_rest() {
    for layout in Layout::ALL {
        let given = marks(layout, 2_000, 6);
        assert_eq!(printed(&one_part(&given)), text_of(&scheduled(&given)));
    }
    for n in [2_001, 4_096] {
        let given = marks(Layout::Clustered, n, 6);
        assert_eq!(printed(&one_part(&given)), "refused 14\n");
        let text = text_of(&scheduled(&given));
        assert_eq!(text.lines().count(), n + 1);
    }
    let foreign = three_parts(&P1, &[Record::NEVER; 4]);
    assert_eq!(printed(&foreign), text_of(&scheduled(&P1)));
}

#[test]
fn an_empty_reel_is_told_from_a_refused_and_an_unread_one() {
    assert_eq!(printed(&one_part(&[])), "marks 0\n");
    assert_eq!(printed(&[]), "refused 1\n");
    let unread = Command::new("sh")
        .args(["-c", "exec \"$0\" <&-", PROGRAM])
        .output()
        .unwrap();
    assert!(unread.stdout.is_empty() && !unread.stderr.is_empty());
    let text = printed(&one_part(&P1));
    assert_eq!(text.lines().next(), Some("marks 4"));
    assert_eq!(text.lines().count(), 1 + 4);
}

#[test]
fn the_printed_zoom_is_the_nearest_64th() {
    let sheet = scheduled(&P1);
    assert!(printed(&one_part(&P1)).ends_with("3 0 9 225 13\n"));
    // 64 times its removal zoom is 12.8.
    assert!(shown(&sheet, wheel(12)).contains(&3));
    assert!(!shown(&sheet, wheel(13)).contains(&3));
    // 320 is exact.
    assert!(shown(&sheet, wheel(319)).contains(&1));
    assert!(!shown(&sheet, wheel(320)).contains(&1));
    // One 64th below the printed zoom a mark lives, and one above it is gone.
    let sheet = scheduled(&marks(Layout::Clustered, 60, 8));
    for (m, record) in (0..).zip(rollmap::records(&sheet).unwrap()) {
        let rollmap::Record::Removed {
            numerator,
            denominator,
            ..
        } = record
        else {
            continue;
        };
        let k = nearest_64th(numerator, u64::from(denominator)) as u32;
        if (2..65_536).contains(&k) {
            assert!(shown(&sheet, wheel(k - 1)).contains(&m));
            assert!(!shown(&sheet, wheel(k + 1)).contains(&m));
        }
    }
}

/// The counts of a counted sheet.
fn counts(sheet: &[u8]) -> Counts {
    rollmap::counts(sheet).expect("the sheet is counted")
}

/// Sees that the counts of a sheet are the numbers of marks of each group that views of all
/// places show.
fn assert_counts_of_views(sheet: &[u8], counts: &Counts) {
    let kinds: Vec<u8> = rollmap::marks(sheet).unwrap().map(|it| it.kind).collect();
    for stop in 0..=16 {
        let shown = shown(sheet, Zoom::Stop(stop));
        for group in Group::ALL {
            let of_group = |&&m: &&u32| Group::of(kinds[m as usize]) == Some(group);
            let own = shown.iter().filter(of_group).count();
            assert_eq!(counts.get(stop, group), Some(own as u16));
        }
    }
}

#[test]
fn the_shift_report_reads_its_counts() {
    for (sheet, _) in sheets_of_every_kind(120, 14) {
        // Not counted yet is not a reel without marks.
        assert_eq!(rollmap::counts(&sheet), None);
        let counted = count_to_vec(&sheet).unwrap();
        assert_counts_of_views(&sheet, &counts(&counted));
        // A reel that changes keeps its counts up to date.
        let more = add_to_vec(&counted, bound(&P1[0]), NO_POPUP).unwrap();
        assert_counts_of_views(&more, &counts(&more));
        let fewer = take_out_to_vec(&more, 0).unwrap();
        assert_counts_of_views(&fewer, &counts(&fewer));
        // Counts that are not the sheet's are refused, and so is the sheet.
        let mut damaged = counted;
        *damaged.last_mut().unwrap() ^= 1;
        assert_eq!(rollmap::check(&damaged), Err(Refusal::Counts));
        assert_eq!(rollmap::counts(&damaged), None);
    }
    // A foreign schedule is counted as it is, until scheduling mends it and its counts.
    let foreign = count_to_vec(&three_parts(&P1, &[Record::NEVER; 4])).unwrap();
    assert_eq!(counts(&foreign).get(16, Group::Note), Some(4));
    let mended = schedule_to_vec(&foreign).unwrap();
    assert_eq!(counts(&mended).get(16, Group::Note), Some(1));
    // Marks alone have no schedule to be counted by.
    assert_eq!(count_to_vec(&one_part(&P1)), Err(Refusal::Unscheduled));
}

// ---- the overview

#[test]
fn a_view_is_the_full_scan() {
    for (sheet, marks) in sheets_of_every_kind(300, 7) {
        let removals = removals(&read_records(
            rollmap::part(&sheet, Code::Schedule).unwrap(),
        ));
        let beyond = Beyond::popping_up(rollmap::popups(&sheet).unwrap().collect());
        let reel = beyond.reel(&marks);
        for k in [1, 17, 64, 1_000, 65_536] {
            for half in [32_768, 5_000, 0] {
                let (x0, x1, y0, y1) = (-half, half, -half, half);
                for turn in Turn::ALL {
                    let zoom = wheel(k);
                    let view = View {
                        x0,
                        x1,
                        y0,
                        y1,
                        turn,
                        zoom,
                    };
                    let map = view_to_map(&sheet, view).unwrap();
                    let window = Edges { x0, x1, y0, y1 }.of_turned(turn.quarters());
                    let (scanned, _) = map_and_count(reel, &removals, window, k);
                    assert_eq!(map.as_bytes(), scanned);
                }
            }
        }
        let index = rollmap::part(&sheet, Code::Index).unwrap();
        let at = index.as_ptr() as usize - sheet.as_ptr() as usize;
        let mut wrong = sheet.clone();
        wrong.copy_within(at + 2..at + 4, at);
        let view = View::whole(Zoom::Stop(0));
        assert_eq!(view_to_map(&wrong, view), Err(Refusal::Index));
    }
    // A label that reaches in from outside is shown, up to the touch.
    let outside = scheduled(&[Mark::plain(10, 0, 3, 1)]);
    let up_to = |x1| View {
        x1,
        ..View::whole(wheel(64))
    };
    assert_eq!(view_to_map(&outside, up_to(7)).unwrap().count(), 1);
    assert_eq!(view_to_map(&outside, up_to(6)).unwrap().count(), 0);
}

#[test]
fn the_value_is_the_number_of_set_bits() {
    for n in [1, 7, 8, 9, 100] {
        let sheet = scheduled(&marks(Layout::Clustered, n, 8));
        for stop in 0..=16 {
            let mut map = vec![0xff; map_bytes(n) + 3];
            let view = View::whole(Zoom::Stop(stop));
            let count = rollmap::view(&sheet, view, &mut map).unwrap();
            let (own, behind) = map.split_at(map_bytes(n));
            let ones: u32 = own.iter().map(|byte| byte.count_ones()).sum();
            assert_eq!(count, ones);
            assert_eq!(behind, [0xff; 3]);
        }
    }
}

#[test]
fn a_stop_and_its_wheel_value_show_the_same() {
    for layout in Layout::ALL {
        let sheet = scheduled(&marks(layout, 100, 9));
        for stop in 0..=16 {
            let by_stop = view_to_map(&sheet, View::whole(Zoom::Stop(stop)));
            let by_wheel = view_to_map(&sheet, View::whole(wheel(1 << stop)));
            assert_eq!(by_stop, by_wheel);
        }
    }
}

#[test]
fn an_old_map_is_lent_as_it_is() {
    let sheet = scheduled(&P1);
    let mut map = [0xff];
    let view = View::whole(wheel(320));
    assert_eq!(rollmap::view(&sheet, view, &mut map), Ok(2));
    assert_eq!(map, [0b0101]);
    let refused = View::whole(Zoom::Stop(17));
    assert_eq!(rollmap::view(&sheet, refused, &mut map), Err(Refusal::Zoom));
    assert_eq!(map, [0b0101]);
}

#[test]
fn a_turned_view_needs_no_turned_sheet() {
    for turn in Turn::ALL {
        let places = marks(Layout::Clustered, 120, 5);
        let sheet = scheduled(&places);
        let copy = scheduled(&turned_marks(turn.quarters(), &places).unwrap());
        for k in [1, 64, 1_000] {
            let zoom = wheel(k);
            for low in [-32_768, 0] {
                let asked = View {
                    x0: low,
                    y1: -low,
                    turn,
                    ..View::whole(zoom)
                };
                let unturned = View {
                    turn: Turn::None,
                    ..asked
                };
                assert_eq!(view_to_map(&sheet, asked), view_to_map(&copy, unturned));
            }
        }
    }
}

#[test]
fn one_mark_is_asked_for_by_its_number() {
    let sheet = scheduled(&P1);
    let map = view_to_map(&sheet, View::whole(wheel(320))).unwrap();
    assert!((0..9).filter(|&mark| map.contains(mark)).eq([0, 2]));
    assert_eq!(rollmap::is_shown(map.as_bytes(), 4, 2), Ok(true));
    assert_eq!(rollmap::is_shown(map.as_bytes(), 2, 2), Ok(false));
}

// ---- the scanner and the operator's station

#[test]
fn a_change_is_scheduling_by_hand() {
    for layout in Layout::ALL {
        let marks = marks(layout, 60, 10);
        let (&last, others) = marks.split_last().unwrap();
        assert_eq!(
            add_to_vec(&scheduled(others), bound(&last), NO_POPUP),
            Ok(scheduled(&marks))
        );
        assert_eq!(
            take_out_to_vec(&scheduled(&marks), 0),
            Ok(scheduled(&marks[1..]))
        );
    }
    let bare = one_part(&P1);
    assert_eq!(take_out_to_vec(&bare, 0), Err(Refusal::Unscheduled));
    let added = add_to_vec(&bare, bound(&P1[0]), NO_POPUP);
    assert_eq!(added, Err(Refusal::Unscheduled));
    // The buffers of the old number of marks are too short for one more.
    let (mut work, mut out) = (vec![0; work_bytes(4)], vec![0; scheduled_bytes(4)]);
    let (sheet, new) = (scheduled(&P1), bound(&P1[0]));
    let added = rollmap::add(&sheet, new, NO_POPUP, Work(&mut work), &mut out);
    assert_eq!(added, Err(Refusal::Buffer));
}

#[test]
fn changes_as_they_come_are_the_merged_list() {
    let marks = marks(Layout::Grid, 20, 11);
    let mut sheet = scheduled(&marks[..10]);
    for mark in &marks[10..] {
        sheet = add_to_vec(&sheet, bound(mark), NO_POPUP).unwrap();
        sheet = take_out_to_vec(&sheet, 3).unwrap();
    }
    let merged = [&marks[..3], &marks[13..]].concat();
    assert_eq!(sheet, scheduled(&merged));
    // The same two marks in the other order are another sheet.
    let twins = [Mark::plain(0, 0, 1, 5), Mark::plain(9, 0, 1, 5)];
    let one_by_one = |order: [usize; 2]| {
        let first = add_to_vec(&scheduled(&[]), bound(&twins[order[0]]), NO_POPUP).unwrap();
        add_to_vec(&first, bound(&twins[order[1]]), NO_POPUP).unwrap()
    };
    let staying = |sheet: &[u8]| {
        let [m] = shown(sheet, Zoom::Stop(16))[..] else {
            panic!("one of the two");
        };
        rollmap::marks(sheet).unwrap().nth(m as usize).unwrap().x
    };
    assert_eq!(staying(&one_by_one([0, 1])), 0);
    assert_eq!(staying(&one_by_one([1, 0])), 9);
}

#[test]
fn numbers_drop_by_one_above_the_mark_taken_out() {
    // 3 goes by 2, and 1 and 2 by 0.
    let marks = [
        Mark::plain(0, 0, 10, 9),
        Mark::plain(-5_000, 0, 10, 1),
        Mark::plain(100, 0, 10, 5),
        Mark::plain(110, 0, 10, 1),
    ];
    let sheet = scheduled(&marks);
    let all = [None, Some(0), Some(0), Some(2)];
    assert_eq!(eliminators(&sheet), all);
    let fewer = take_out_to_vec(&sheet, 1).unwrap();
    assert_eq!(eliminators(&fewer), [None, Some(0), Some(1)]);
    let left = [0, 2, 3].map(|m: usize| bound(&marks[m]));
    assert!(rollmap::marks(&fewer).unwrap().eq(left));
    // Marks 1 and 3 of the first sheet, from the highest down.
    let both = [3, 1].iter().fold(sheet, |sheet, &m| {
        take_out_to_vec(&sheet, m).expect("there is such a mark")
    });
    assert_eq!(both, scheduled(&[marks[0], marks[2]]));
}

#[test]
fn an_addition_is_taken_back_by_taking_out_the_last_mark() {
    let new = bound(&Mark::plain(50, 50, 0, 7));
    let there_and_back = |sheet: &[u8]| {
        let more = add_to_vec(sheet, new, NO_POPUP).unwrap();
        let last = rollmap::mark_count(sheet).unwrap();
        take_out_to_vec(&more, last as u32).unwrap()
    };
    for layout in Layout::ALL {
        let sheet = scheduled(&marks(layout, 40, 12));
        assert_eq!(there_and_back(&sheet), sheet);
    }
    let foreign = three_parts(&P1, &[Record::NEVER; 4]);
    assert_eq!(there_and_back(&foreign), scheduled(&P1));
    // A mark that was struck out comes back at the end.
    let fewer = take_out_to_vec(&scheduled(&P1), 0).unwrap();
    let back = add_to_vec(&fewer, bound(&P1[0]), NO_POPUP).unwrap();
    assert_eq!(back, scheduled(&[P1[1], P1[2], P1[3], P1[0]]));
}

#[test]
fn a_mark_that_no_view_shows_is_struck_out_by_its_number() {
    let (sheet, count) = two_breaks(6, 0);
    assert_eq!((count, rollmap::mark_count(&sheet)), (1, Some(2)));
    assert_eq!(shown(&sheet, Zoom::Stop(0)), [0]);
    let hidden = rollmap::marks(&sheet).unwrap().position(|mark| mark.x == 6);
    assert_eq!(hidden, Some(1));
    let fewer = take_out_to_vec(&sheet, 1).unwrap();
    assert!(rollmap::marks(&fewer).unwrap().map(|mark| mark.x).eq([0]));
}

#[test]
fn a_refused_change_leaves_the_old_sheet() {
    let sheet = scheduled(&P1);
    let old = scheduled(&P1[..2]);
    let mut out = old.clone();
    out.resize(scheduled_bytes(5), 0xee);
    let before = out.clone();
    let mut work = vec![0; work_bytes(5)];
    let taken_out = rollmap::take_out(&sheet, 4, Work(&mut work), &mut out);
    assert_eq!(taken_out, Err(Refusal::Missing));
    for (refused, mark) in [
        (Refusal::Kind, Mark { kind: 200, ..P1[0] }),
        (Refusal::Radius, Mark::plain(0, 0, 16_384, 0)),
    ] {
        let added = rollmap::add(&sheet, bound(&mark), 7, Work(&mut work), &mut out);
        assert_eq!(added, Err(refused));
    }
    // The sheet has no part 5.
    let added = rollmap::add(&sheet, bound(&P1[0]), 7, Work(&mut work), &mut out);
    assert_eq!(added, Err(Refusal::Popups));
    let full = three_parts(&marks(Layout::Line, 4_096, 13), &[Record::NEVER; 4_096]);
    let added = rollmap::add(&full, bound(&P1[0]), 7, Work(&mut work), &mut out);
    assert_eq!(added, Err(Refusal::Full));
    assert_eq!(out, before);
    assert_eq!(shown(&out[..old.len()], Zoom::Stop(0)), [0, 1]);
}

// ---- reels of both editions

#[test]
fn a_sheet_names_its_own_edition_and_keeps_it() {
    let mut generator = Generator::new(90);
    for edition in [Edition::First, Edition::Second] {
        let marks = rivals(&mut generator, 30);
        let sheet = scheduled_by(edition, &marks);
        assert_eq!(rollmap::edition(&sheet), Some(edition));
        assert_eq!(
            rollmap::part(&sheet, Code::Edition),
            Some(&edition.to_bytes()[..])
        );
        let more = add_to_vec(&sheet, bound(&P1[0]), NO_POPUP).unwrap();
        assert_eq!(rollmap::edition(&more), Some(edition));
        let fewer = take_out_to_vec(&more, 0).unwrap();
        assert_eq!(rollmap::edition(&fewer), Some(edition));
        // Its bytes are asked for: the length without part 4 is too short.
        let (mut work, mut out) = (vec![0; work_bytes(30)], vec![0; scheduled_bytes(30)]);
        let short = rollmap::schedule(&sheet, Work(&mut work), &mut out);
        assert_eq!(short, Err(Refusal::Buffer));
        out.resize(scheduled_bytes(30) + EDITION_BYTES, 0);
        let written = rollmap::schedule(&sheet, Work(&mut work), &mut out);
        assert_eq!(written, Ok(out.len()));
    }
    // Old reels have none, and are read by the first.
    let old = scheduled(&P1);
    assert_eq!(rollmap::part(&old, Code::Edition), None);
    assert_eq!(rollmap::edition(&old), Some(Edition::First));
    assert_eq!(rollmap::edition(&old[1..]), None);
}

#[test]
fn another_edition_is_another_schedule() {
    let marks = [Mark::plain(0, 0, 10, 5), Mark::plain(90, 0, 20, 5)];
    let first = scheduled_by(Edition::First, &marks);
    let part = |code| (code, rollmap::part(&first, code).unwrap());
    let [marks_part, schedule, index] = [Code::Marks, Code::Schedule, Code::Index].map(part);
    let second = Edition::Second.to_bytes();
    // With the old schedule, part 4 alone is not exchanged.
    let exchanged = [marks_part, schedule, index, (Code::Edition, &second)];
    assert_eq!(rollmap::assemble_to_vec(&exchanged), Err(Refusal::Schedule));
    // The marks are put together with it, and scheduled.
    let afresh = rollmap::assemble_to_vec(&[marks_part, (Code::Edition, &second)]).unwrap();
    let sheet = schedule_to_vec(&afresh).unwrap();
    assert_eq!(sheet, scheduled_by(Edition::Second, &marks));
    assert_eq!(eliminators(&sheet), [Some(1), None]);
    // A schedule that fits both passes with either.
    let both = with_part_4(&scheduled(&P1), &second);
    assert_eq!(rollmap::check(&both), Ok(()));
}

#[test]
fn an_unknown_edition_is_refused() {
    for sheet in [one_part(&P1), scheduled(&P1)] {
        for part_4 in [&[][..], &[0], &[3], &[255], &[2, 2]] {
            let damaged = with_part_4(&sheet, part_4);
            assert_eq!(rollmap::check(&damaged), Err(Refusal::Edition));
            assert_eq!(schedule_to_vec(&damaged), Err(Refusal::Edition));
            let view = View::whole(Zoom::Stop(0));
            assert_eq!(view_to_map(&damaged, view), Err(Refusal::Edition));
        }
    }
}

// ---- panels that draw squares

#[test]
fn shown_squares_do_not_overlap() {
    for sample in Layout::ALL.map(|layout| marks(layout, 150, 5)) {
        let sheet = scheduled_as(Shape::Square, &sample);
        let squares = oracle::shape::Shape::Square;
        for stop in 0..=16 {
            let shown = shown(&sheet, Zoom::Stop(stop));
            for (at, &a) in shown.iter().enumerate() {
                let a = &sample[a as usize];
                let apart = |&b: &u32| !touch_as(squares, a, &sample[b as usize], 1 << stop);
                assert!(shown[at + 1..].iter().all(apart));
            }
        }
    }
    // A sheet of disks, drawn as squares, shows some that do.
    let pair = [Mark::plain(0, 0, 10, 9), Mark::plain(30, 40, 10, 5)];
    let [disks, squares] = [Shape::Disk, Shape::Square].map(|it| scheduled_as(it, &pair));
    assert!(touch_as(
        oracle::shape::Shape::Square,
        &pair[0],
        &pair[1],
        130
    ));
    assert_eq!(shown(&disks, wheel(130)), [0, 1]);
    assert_eq!(shown(&squares, wheel(130)), [0]);
}

#[test]
fn a_square_at_the_corner_of_the_screen_is_shown() {
    let label = [Mark::plain(0, 0, 10, 0)];
    let corner = View {
        x0: 50,
        y0: 50,
        ..View::whole(wheel(320))
    };
    let count = |sheet: &[u8], view| view_to_map(sheet, view).unwrap().count();
    let [disks, squares] = [Shape::Disk, Shape::Square].map(|it| scheduled_as(it, &label));
    assert_eq!([&disks, &squares].map(|sheet| count(sheet, corner)), [0, 1]);
    let beyond = View { x0: 51, ..corner };
    assert_eq!(count(&squares, beyond), 0);
}

#[test]
fn a_sheet_names_its_own_shape_and_keeps_it() {
    for shape in [Shape::Disk, Shape::Square] {
        let sheet = scheduled_as(shape, &marks(Layout::Grid, 30, 3));
        assert_eq!(rollmap::shape(&sheet), Some(shape));
        let more = add_to_vec(&sheet, bound(&P1[0]), NO_POPUP).unwrap();
        assert_eq!(rollmap::shape(&more), Some(shape));
        let fewer = take_out_to_vec(&more, 0).unwrap();
        assert_eq!(rollmap::shape(&fewer), Some(shape));
        let counted = count_to_vec(&sheet).unwrap();
        assert_eq!(rollmap::shape(&counted), Some(shape));
        // Its bytes are asked for: the length without part 7 is too short.
        let (mut work, mut out) = (vec![0; work_bytes(30)], vec![0; scheduled_bytes(30)]);
        let short = rollmap::schedule(&sheet, Work(&mut work), &mut out);
        assert_eq!(short, Err(Refusal::Buffer));
        out.resize(scheduled_bytes(30) + SHAPE_BYTES, 0);
        let written = rollmap::schedule(&sheet, Work(&mut work), &mut out);
        assert_eq!(written, Ok(out.len()));
    }
    // Old reels have none, and are disks.
    let old = scheduled(&P1);
    assert_eq!(rollmap::part(&old, Code::Shape), None);
    assert_eq!(rollmap::shape(&old), Some(Shape::Disk));
    assert_eq!(rollmap::shape(&old[1..]), None);
}

#[test]
fn another_shape_is_another_schedule() {
    let pair = [Mark::plain(0, 0, 10, 9), Mark::plain(30, 40, 10, 5)];
    let disks = scheduled_as(Shape::Disk, &pair);
    let part = |code| (code, rollmap::part(&disks, code).unwrap());
    let [marks_part, schedule, index] = [Code::Marks, Code::Schedule, Code::Index].map(part);
    let squares = Shape::Square.to_bytes();
    // With the old schedule, part 7 alone is not exchanged.
    let exchanged = [marks_part, schedule, index, (Code::Shape, &squares)];
    assert_eq!(rollmap::assemble_to_vec(&exchanged), Err(Refusal::Schedule));
    // The marks are put together with it, and scheduled.
    let afresh = rollmap::assemble_to_vec(&[marks_part, (Code::Shape, &squares)]).unwrap();
    let sheet = schedule_to_vec(&afresh).unwrap();
    assert_eq!(sheet, scheduled_as(Shape::Square, &pair));
    for part_7 in [&[][..], &[0], &[3], &[255], &[2, 2]] {
        let damaged = with_part_7(&scheduled(&P1), part_7);
        assert_eq!(rollmap::check(&damaged), Err(Refusal::Shape));
    }
}

#[test]
fn squares_are_not_turned() {
    let [disks, squares] = [Shape::Disk, Shape::Square].map(|it| scheduled_as(it, &P1));
    for turn in Turn::ALL {
        let asked = View {
            turn,
            ..View::whole(wheel(1))
        };
        assert_eq!(view_to_map(&disks, asked).map(|map| map.count()), Ok(4));
        let expected = match turn {
            Turn::None => Ok(4),
            _ => Err(Refusal::Window),
        };
        let shown = view_to_map(&squares, asked).map(|map| map.count());
        assert_eq!(shown, expected);
    }
}

// ---- marks by columns

#[test]
fn columns_need_no_copy_beside_them() {
    for (sheet, sample) in sheets_of_every_kind(40, 3) {
        let part_1 = rollmap::part(&sheet, Code::Marks).unwrap();
        let stored = to_columns_vec(part_1).unwrap();
        assert_eq!(from_columns_vec(&stored).unwrap(), part_1);
        // Damaged columns are marks all the same, but not these, and a check sees what they hold.
        let mut damaged = stored;
        damaged[8 * sample.len()] = 200; // the first kind
        let fetched = from_columns_vec(&damaged).unwrap();
        let fetched_sheet = rollmap::assemble_to_vec(&[(Code::Marks, &fetched)]);
        assert_eq!(fetched_sheet, Err(Refusal::Kind));
    }
}

// ---- marks for the overview alone

#[test]
fn a_mark_for_the_overview_pops_up_by_itself() {
    // A grade change of high priority over two notes, from zoom 8 on.
    let marks = [
        Mark::plain(0, 0, 10, 9),
        Mark::plain(-20, 0, 0, 1),
        Mark::plain(300, 0, 0, 1),
    ];
    let sheet = scheduled_popping_up(&marks, &[512, NO_POPUP, NO_POPUP]);
    assert_eq!(shown(&sheet, wheel(1)), [1, 2]);
    assert_eq!(shown(&sheet, wheel(511)), [1]);
    assert_eq!(shown(&sheet, wheel(512)), [0]);
    // From the start, it would have hidden both close up.
    assert_eq!(shown(&scheduled(&marks), wheel(384)), [0]);
    // Hidden by the viewer instead, nobody is left there.
    let hidden = |k| {
        shown(&scheduled(&marks), wheel(k))
            .into_iter()
            .filter(|&m| m > 0)
    };
    assert_eq!(hidden(511).count(), 0);
    // The panel's zoom is asked for in 64ths, as the popup is.
    assert_eq!(rollmap::popups(&sheet).unwrap().next(), Some(512));
}

#[test]
fn a_mark_that_is_not_there_yet_is_told_from_one_that_is_gone() {
    // 0 pops up at 640; 2 and 3 are gone by 1 before that, and 1 goes there.
    let sheet = scheduled_popping_up(&P1, &[640, 0, 0, 0]);
    let removals = removals(&read_records(
        rollmap::part(&sheet, Code::Schedule).unwrap(),
    ));
    let popups: Vec<u32> = rollmap::popups(&sheet).unwrap().collect();
    for k in [1, 320, 500, 639, 640, 65_536] {
        let shown = shown(&sheet, wheel(k));
        for m in 0..4 {
            let (not_yet, gone) = (k < popups[m], !remains(removals[m], k));
            assert_eq!(shown.contains(&(m as u32)), !not_yet && !gone);
            // Nobody is gone before it was there.
            assert!(!(not_yet && gone));
        }
    }
    // One that goes where it would pop up is in part 1, and in no view.
    let sheet = scheduled_popping_up(&P1, &[0, 320, 0, 0]);
    assert!((1..=65_536).all(|k| !shown(&sheet, wheel(k)).contains(&1)));
    assert_eq!(rollmap::mark_count(&sheet), Some(4));
}

#[test]
fn a_sheet_keeps_its_popups() {
    let drawn = popups(Popups::Any, &marks(Layout::Grid, 30, 3), 3);
    let sheet = scheduled_popping_up(&marks(Layout::Grid, 30, 3), &drawn);
    let own = |sheet: &[u8]| -> Vec<u32> { rollmap::popups(sheet).unwrap().collect() };
    assert_eq!(own(&sheet), drawn);
    let more = add_to_vec(&sheet, bound(&P1[0]), 640).unwrap();
    assert_eq!(own(&more), [drawn.as_slice(), &[640]].concat());
    let fewer = take_out_to_vec(&more, 1).unwrap();
    assert_eq!(own(&fewer), [&drawn[..1], &drawn[2..], &[640]].concat());
    // Its bytes are asked for: the length without part 5 is too short.
    let (mut work, mut out) = (vec![0; work_bytes(30)], vec![0; scheduled_bytes(30)]);
    let short = rollmap::schedule(&sheet, Work(&mut work), &mut out);
    assert_eq!(short, Err(Refusal::Buffer));
    out.resize(scheduled_bytes(30) + popups_bytes(30), 0);
    let written = rollmap::schedule(&sheet, Work(&mut work), &mut out);
    assert_eq!(written, Ok(out.len()));
    // A sheet without part 5 takes no mark with a popup, until it is given one.
    let old = scheduled(&P1);
    let refused = add_to_vec(&old, bound(&P1[0]), 640);
    assert_eq!(refused, Err(Refusal::Popups));
    let given = with_popups(&old, &[NO_POPUP; 4]);
    let more = add_to_vec(&given, bound(&P1[0]), 640).unwrap();
    assert_eq!(own(&more), [0, 0, 0, 0, 640]);
}

// ---- operators' notes

/// The marks, each of another priority.
fn ranked(marks: Vec<Mark>, priority: impl Fn(u16) -> u16) -> Vec<Mark> {
    let ranked = |mark: Mark| Mark {
        priority: priority(mark.priority),
        ..mark
    };
    marks.into_iter().map(ranked).collect()
}

#[test]
fn notes_do_not_move_breaks() {
    let breaks = ranked(marks(Layout::Clustered, 60, 14), |p| 900 + p % 5);
    let notes = ranked(marks(Layout::Clustered, 200, 15), |p| p % 900);
    let alone = scheduled(&breaks);
    let all = scheduled(&[notes.as_slice(), &breaks].concat());
    assert_eq!(records_among(&all, 900), records_among(&alone, 900));
    assert_ne!(eliminators(&all)[200..], eliminators(&alone)[..]);
    // At every zoom the same of them live.
    for k in [1, 9, 64, 200, 1_000, 65_536] {
        let of_breaks = shown(&all, wheel(k)).into_iter().filter(|&m| m >= 200);
        let own: Vec<u32> = of_breaks.map(|m| m - 200).collect();
        assert_eq!(own, shown(&alone, wheel(k)));
    }
}

#[test]
fn notes_may_stand_on_breaks() {
    let alone = scheduled(&P1);
    let mut sheet = alone.clone();
    for mark in P1 {
        let note = Mark {
            radius: 16_383,
            priority: 0,
            ..mark
        };
        sheet = add_to_vec(&sheet, bound(&note), NO_POPUP).unwrap();
    }
    assert_eq!(records_among(&sheet, 1), records_among(&alone, 1));
    // The notes give way: each is gone where it touches.
    assert!(eliminators(&sheet)[4..].iter().all(Option::is_some));
}

// ---- what every consumer checks once

#[test]
fn a_walk_with_too_few_marks_is_no_refusal() {
    let sheet = scheduled(&P1);
    let map = view_to_map(&sheet, View::whole(Zoom::Stop(0))).unwrap();
    assert!(map.iter().eq([0, 1, 2, 3]));
    assert!(rollmap::shown(map.as_bytes(), 2).unwrap().eq([0, 1]));
    assert_eq!(rollmap::mark_count(&sheet), Some(map.marks() as usize));
}
