//! The proved examples P1 to P12 of 01, with 02's answer to P4, its 'Plausible and
//! false', and both editions of request 6.

mod common;

use common::{
    one_part, schedule_large, scheduled, scheduled_by, three_parts, with_edition, with_part_4,
};
use oracle::fraction::Fraction;
use oracle::map::is_set;
use oracle::mark::Mark;
use oracle::process::schedule_by_process;
use oracle::rank::Edition::{self, First, Second};
use oracle::record::{read_records, removals, Record};
use oracle::report::print;
use oracle::rules::{keep_both, Breach};
use oracle::sample::{P1, P5, P6, TIED_IN_TREE, TIED_RECORDS};
use oracle::shape::Shape;
use oracle::sheet::{check, open, split};
use oracle::tree;
use oracle::view::{reaches, view, Edges, Window};
use oracle::zoom::Zoom;

/// The rectangle of P3 and P4.
const P3: Window = edges(50, 250, -10, 10).unturned();

/// These edges.
const fn edges(x0: i32, x1: i32, y0: i32, y1: i32) -> Edges {
    Edges { x0, x1, y0, y1 }
}

/// The records that scheduling these marks writes.
fn records(marks: &[Mark]) -> Vec<Record> {
    let sheet = scheduled(marks);
    read_records(split(&sheet).unwrap().get(2).unwrap())
}

/// What a view of P1 with the rectangle of P3 answers at this zoom.
fn view_p1(zoom: Zoom) -> Result<(Vec<u8>, u32), u32> {
    view(&scheduled(&P1), P3, zoom, 1)
}

#[test]
fn p1() {
    let expected = [
        Record::new(65_535, 0, 0),
        Record::new(0, 10_000, 400),
        Record::new(0, 40_000, 400),
        Record::new(0, 9, 225),
    ];
    assert_eq!(records(&P1), expected);
    let text = "marks 4\n0 -\n1 0 10000 400 320\n2 0 40000 400 640\n3 0 9 225 13\n";
    assert_eq!(print(&one_part(&P1)), text);
}

#[test]
fn p2() {
    let sheet = scheduled(&P1);
    let part_3 = split(&sheet).unwrap().get(3).unwrap();
    assert_eq!(part_3, [0, 0, 1, 0, 3, 0, 2, 0]);
}

#[test]
fn p3() {
    assert_eq!(view_p1(Zoom::Wheel(1.0)), Ok((vec![0x06], 2)));
}

#[test]
fn p4() {
    // Request 1 of 02: mark 0's disk of radius 50 touches the rectangle's edge.
    assert_eq!(view_p1(Zoom::Wheel(5.0)), Ok((vec![0x05], 2)));
}

#[test]
fn p5() {
    assert_eq!(records(&P5), [Record::NEVER, Record::new(0, 0, 4)]);
}

#[test]
fn p6() {
    let expected = [Record::NEVER, Record::new(0, 8_589_672_450, 4)];
    assert_eq!(records(&P6), expected);
}

#[test]
fn p7() {
    assert_eq!(check(&one_part(&[Mark::plain(0, 0, 16_383, 0)])), 0);
    assert_eq!(check(&one_part(&[Mark::plain(0, 0, 16_384, 0)])), 6);
}

#[test]
fn p8() {
    let of = |kind| Mark {
        kind,
        ..Mark::plain(0, 0, 0, 0)
    };
    assert_eq!(of(199).used_radius(), Some(200));
    let other = Mark::plain(30, 40, 300, 9);
    assert_eq!(
        records(&[of(199), other])[0],
        Record::new(1, 2_500, 250_000)
    );
    assert_eq!(check(&one_part(&[of(200)])), 5);
}

#[test]
fn p9() {
    for taken in [1.0 / 64.0, 1_024.0] {
        assert!(view_p1(Zoom::Wheel(taken)).is_ok());
    }
    for refused in [1.0 / 128.0, 1_024.0 + 1.0 / 64.0] {
        assert_eq!(view_p1(Zoom::Wheel(refused)), Err(12));
    }
}

#[test]
fn p10() {
    let sheet = [1, 0, 1, 0, 0x0c, 0, 0, 0, 0, 0, 0, 0];
    assert_eq!(check(&sheet), 0);
    assert_eq!(one_part(&[]), sheet);
    assert!(open(&sheet).unwrap().marks.is_empty());
}

#[test]
fn p11() {
    let marks = [
        Mark::plain(60, 0, 2, 5),
        Mark::plain(-100, 0, 10, 9),
        Mark::plain(0, 0, 10, 1),
    ];
    assert_eq!(records(&marks)[2], Record::new(1, 10_000, 400));
}

#[test]
fn p12() {
    // At stop 16, zoom 1,024, only mark 0 of P1 still lives.
    assert_eq!(view_p1(Zoom::Stop(16)), Ok((vec![0x01], 1)));
    assert_eq!(view_p1(Zoom::Stop(17)), Err(12));
}

/// The number that checking gives for the sheet of these marks and records, with
/// the tree they give.
fn check_with(marks: &[Mark], records: &[Record]) -> u32 {
    check(&three_parts(marks, records))
}

#[test]
fn false_that_mark_2_of_p1_goes_at_25_by_mark_1() {
    let mut changed = records(&P1);
    assert_eq!(check_with(&P1, &changed), 0);
    changed[2] = Record::new(1, 10_000, 400);
    assert_eq!(changed[1].value, changed[2].value);
    let broken = keep_both(First.reel(&P1), &removals(&changed));
    assert_eq!(broken, Err(Breach::Second(2)));
    assert_eq!(check_with(&P1, &changed), 8);
}

#[test]
fn false_that_removal_values_may_be_rounded() {
    let mut rounded = records(&P1);
    rounded[3] = Record::new(0, 0, 225);
    let broken = keep_both(First.reel(&P1), &removals(&rounded));
    assert_eq!(broken, Err(Breach::Second(3)));
    assert_eq!(check_with(&P1, &rounded), 8);
    rounded[3] = Record::new(0, 225, 225);
    let broken = keep_both(First.reel(&P1), &removals(&rounded));
    assert_eq!(broken, Err(Breach::First(0, 3)));
    assert_eq!(check_with(&P1, &rounded), 8);
}

/// The process told with touching values compared after a division.
fn schedule_by_quotient(marks: &[Mark], quotient: impl Fn(Fraction) -> f64) -> Vec<Record> {
    let reel = First.reel(marks);
    let mut records = vec![Record::NEVER; marks.len()];
    let numbers = || 0..marks.len();
    loop {
        let lives = |mark: usize| records[mark] == Record::NEVER;
        let pairs = numbers().flat_map(|high| numbers().map(move |low| (high, low)));
        let living = pairs
            .filter(|&(high, low)| reel.outranks(high, low) && lives(high) && lives(low))
            .map(|(high, low)| (reel.pair_value(high, low), high, low));
        let first = living.min_by(|a, b| {
            let by_value = quotient(a.0).total_cmp(&quotient(b.0));
            by_value.then(reel.rank_order(a.1, b.1))
        });
        let Some((value, high, low)) = first else {
            return records;
        };
        records[low] = Record::removed(high, value);
    }
}

/// A double's quotient of the two numbers.
fn in_doubles(value: Fraction) -> f64 {
    value.numerator as f64 / f64::from(value.denominator)
}

#[test]
fn false_that_values_may_be_compared_after_whole_division() {
    // Mark 2 meets mark 1 at 4/4 and mark 0 at 5/4, which whole division makes 1.
    let marks = [
        Mark::plain(-2, 1, 1, 9),
        Mark::plain(2, 0, 1, 5),
        Mark::plain(0, 0, 1, 1),
    ];
    assert_eq!(records(&marks)[2], Record::new(1, 4, 4));
    let divided = schedule_by_quotient(&marks, |value| in_doubles(value).floor());
    assert_eq!(divided[2], Record::new(0, 5, 4));
    let broken = keep_both(First.reel(&marks), &removals(&divided));
    assert_eq!(broken, Err(Breach::First(1, 2)));
    let exact = schedule_by_quotient(&marks, in_doubles);
    assert_eq!(exact, schedule_by_process(First.reel(&marks)));
}

#[test]
fn false_that_values_may_be_compared_as_doubles() {
    // Mark 2's values with marks 0 and 1 have cross products that differ by 1,
    // and one and the same quotient as a double.
    let marks = [
        Mark::plain(32_632, 25_043, 1, 9),
        Mark::plain(29_241, 28_704, 6, 5),
        Mark::plain(-32_768, -32_768, 16_383, 1),
    ];
    let by_mark_1 = Record::new(1, 7_623_922_865, 268_599_321);
    let by_mark_0 = Record::new(0, 7_619_271_721, 268_435_456);
    assert_eq!(records(&marks)[2], by_mark_1);
    let divided = schedule_by_quotient(&marks, in_doubles);
    assert_eq!(divided[2], by_mark_0);
    let broken = keep_both(First.reel(&marks), &removals(&divided));
    assert_eq!(broken, Err(Breach::First(1, 2)));
}

/// A schedule in which a mark goes at the least touching value with any
/// higher-ranked mark, removed or not.
fn schedule_with_ghosts(marks: &[Mark]) -> Vec<Record> {
    let reel = First.reel(marks);
    let numbers = 0..marks.len();
    let ghost = |mark: usize| {
        let higher = (0..marks.len()).filter(|&other| reel.outranks(other, mark));
        let met = higher.map(|other| (other, reel.pair_value(other, mark)));
        let first = met.min_by(|a, b| a.1.compare(b.1).then(reel.rank_order(a.0, b.0)));
        first.map_or(Record::NEVER, |(other, value)| {
            Record::removed(other, value)
        })
    };
    numbers.map(ghost).collect()
}

#[test]
fn false_that_a_removed_mark_still_blocks_others() {
    // Mark 1 goes at 6.25, long before it would meet mark 2 at 25.
    let marks = [
        Mark::plain(0, 0, 10, 9),
        Mark::plain(50, 0, 10, 5),
        Mark::plain(150, 0, 10, 1),
    ];
    assert_eq!(records(&marks)[2], Record::new(0, 22_500, 400));
    let blocked = schedule_with_ghosts(&marks);
    assert_eq!(blocked[2], Record::new(1, 10_000, 400));
    let broken = keep_both(First.reel(&marks), &removals(&blocked));
    assert_eq!(broken, Err(Breach::Second(2)));
    assert_eq!(check_with(&marks, &blocked), 8);
}

/// The marks that reach the rectangle and that a search down the tree comes to, the
/// living left aside; a cut search ends where a root does not reach it.
fn search(marks: &[Mark], tree: &[u16], window: Window, k: u32, cut: bool) -> Vec<usize> {
    let Some((&root, left, right)) = tree::branches(tree) else {
        return Vec::new();
    };
    let root = usize::from(root);
    let reached = reaches(Shape::Disk, &marks[root], window, k);
    if cut && !reached {
        return Vec::new();
    }
    let mut found = search(marks, left, window, k, cut);
    found.extend(search(marks, right, window, k, cut));
    found.extend(reached.then_some(root));
    found
}

#[test]
fn false_that_a_search_ends_at_a_root_outside_the_rectangle() {
    let (map, _) = view_p1(Zoom::Wheel(1.0)).unwrap();
    let shown: Vec<usize> = (0..4).filter(|&mark| is_set(&map, mark)).collect();
    let tree = tree::build(&P1, &records(&P1));
    assert_eq!(search(&P1, &tree, P3, 64, false), shown);
    assert!(search(&P1, &tree, P3, 64, true).is_empty());
}

/// The marks that reach the rectangle at zoom 1 and that a search comes to which passes
/// over a half where the other half's head lies beyond the rectangle, widened by so many
/// map units at the half's root; the halves are those of one level.
fn search_halves(
    marks: &[Mark],
    tree: &[u16],
    edges: Edges,
    widened: fn(&Mark) -> i32,
) -> Vec<usize> {
    let mark = |number: u16| marks[usize::from(number)];
    let (&root, left, right) = tree::branches(tree).unwrap();
    let by = widened(&mark(root));
    let mut numbers = vec![root];
    if mark(right[0]).label().x >= edges.x0 - by {
        numbers.extend(left);
    }
    if mark(left[0]).label().x <= edges.x1 + by {
        numbers.extend(right);
    }
    let reached = |&number: &usize| reaches(Shape::Disk, &marks[number], edges.unturned(), 64);
    numbers
        .into_iter()
        .map(usize::from)
        .filter(reached)
        .collect()
}

#[test]
fn false_that_halves_may_be_cut_by_the_rectangle_or_by_a_roots_own_radius() {
    // At zoom 1 the disk of mark 1 reaches from -1,500 to -500, over mark 2's place.
    let marks = [
        Mark::plain(0, 0, 1, 9),
        Mark::plain(-1_000, 0, 500, 5),
        Mark::plain(-700, 0, 1, 4),
    ];
    let edges = edges(-600, -550, 0, 0);
    let seen = view(&scheduled(&marks), edges.unturned(), Zoom::Wheel(1.0), 1);
    assert_eq!(seen, Ok((vec![0x02], 1)));
    let tree = tree::build(&marks, &records(&marks));
    assert_eq!(tree, [0, 1, 2]);
    assert_eq!(search_halves(&marks, &tree, edges, |_| 500), [1]);
    assert!(search_halves(&marks, &tree, edges, |_| 0).is_empty());
    assert!(search_halves(&marks, &tree, edges, |root| root.radius.into()).is_empty());
}

// ---- editions

/// Two marks of equal priority, of which the larger one has the higher number.
const LARGER_SECOND: [Mark; 2] = [Mark::plain(0, 0, 10, 5), Mark::plain(90, 0, 20, 5)];

/// The records and the tree that scheduling these marks by an edition writes.
fn scheduled_parts(edition: Edition, marks: &[Mark]) -> (Vec<Record>, Vec<u16>) {
    let sheet = scheduled_by(edition, marks);
    let opened = open(&sheet).unwrap();
    assert_eq!(opened.edition, edition);
    (opened.records.unwrap(), opened.tree.unwrap())
}

#[test]
fn of_equal_priorities_the_lower_number_stays_or_the_larger_label() {
    let gone = |by| Record::new(by, 8_100, 900);
    let first = (vec![Record::NEVER, gone(0)], vec![0, 1]);
    let second = (vec![gone(1), Record::NEVER], vec![1, 0]);
    assert_eq!(records(&LARGER_SECOND), first.0);
    assert_eq!(scheduled_parts(First, &LARGER_SECOND), first);
    assert_eq!(scheduled_parts(Second, &LARGER_SECOND), second);
}

#[test]
fn an_edition_is_printed() {
    let sheet = one_part(&LARGER_SECOND);
    let first = "marks 2\n0 -\n1 0 8100 900 192\n";
    let second = "marks 2\n0 1 8100 900 192\n1 -\n";
    assert_eq!(print(&sheet), first);
    assert_eq!(print(&with_edition(&sheet, First)), first);
    assert_eq!(print(&with_edition(&sheet, Second)), second);
    assert_eq!(print(&with_part_4(&sheet, &[3])), "refused 19\n");
}

#[test]
fn the_house_radius_counts() {
    // A patch has 150 where 0 is written, and not 0, nor 120.
    let patch = |x| Mark {
        kind: 100,
        ..Mark::plain(x, 0, 0, 5)
    };
    for (radius, staying) in [(1, 1), (121, 1), (149, 1), (150, 0), (151, 0)] {
        let marks = [Mark::plain(0, 0, radius, 5), patch(9)];
        let (records, _) = scheduled_parts(Second, &marks);
        assert_eq!(records[staying], Record::NEVER, "{radius}");
    }
    let (records, _) = scheduled_parts(Second, &[patch(0), patch(9)]);
    assert_eq!(records, [Record::NEVER, Record::new(0, 81, 90_000)]);
}

#[test]
fn a_priority_counts_before_a_radius() {
    let marks = [Mark::plain(0, 0, 1, 6), Mark::plain(9, 0, 16_383, 5)];
    for edition in Edition::ALL {
        let (records, _) = scheduled_parts(edition, &marks);
        assert_eq!(records[0], Record::NEVER);
    }
}

#[test]
fn the_examples_are_the_same_in_both_editions() {
    // Where their priorities are equal, so are their radii.
    let p11 = [
        Mark::plain(60, 0, 2, 5),
        Mark::plain(-100, 0, 10, 9),
        Mark::plain(0, 0, 10, 1),
    ];
    for marks in [&P1[..], &P5, &P6, &p11, &[]] {
        for edition in Edition::ALL {
            let expected = with_edition(&scheduled(marks), edition);
            assert_eq!(scheduled_by(edition, marks), expected);
        }
    }
}

#[test]
fn ties_in_the_tree_go_by_number_in_both_editions() {
    for edition in Edition::ALL {
        let sheet = with_edition(&three_parts(&TIED_IN_TREE, &TIED_RECORDS), edition);
        assert_eq!(check(&sheet), 0);
        let tree = open(&sheet).unwrap().tree.unwrap();
        assert_eq!(tree, [0, 1, 2, 3]);
    }
    assert_eq!(Second.reel(&TIED_IN_TREE).ranked(), [3, 0, 2, 1]);
}

#[test]
fn an_edition_is_kept() {
    let sheet = with_edition(&three_parts(&P1, &[Record::NEVER; 4]), Second);
    let kept = schedule_large(&sheet).unwrap();
    assert_eq!(kept.len(), 32 + 27 * 4 + 11);
    assert_eq!(split(&kept).unwrap().get(4), Some(&[2][..]));
    assert_eq!(kept[..2], [4, 0]);
    assert_eq!(kept.last(), Some(&2));
}

// ---- turns

#[test]
fn p3_and_p4_with_every_turn() {
    let sheet = scheduled(&P1);
    for (turn, edges) in [
        (0, edges(50, 250, -10, 10)),
        (1, edges(-10, 10, 50, 250)),
        (2, edges(-250, -50, -10, 10)),
        (3, edges(-10, 10, -250, -50)),
    ] {
        let view = |turn, wheel| view(&sheet, edges.of_turned(turn), Zoom::Wheel(wheel), 1);
        assert_eq!(view(turn, 1.0), Ok((vec![0x06], 2)));
        assert_eq!(view(turn, 5.0), Ok((vec![0x05], 2)));
        // Turned the other way, the marks lie on the other side.
        assert_eq!(view((turn + 2) % 4, 1.0), Ok((vec![0x00], 0)));
    }
}

#[test]
fn false_that_a_turn_goes_the_other_way() {
    // The place (0, 3) of mark 3 is turned to (-3, 0), and not to (3, 0).
    let sheet = scheduled(&P1);
    let at = |x, turn| view(&sheet, edges(x, x, 0, 0).of_turned(turn), Zoom::Stop(0), 1);
    assert_eq!(at(-3, 1), Ok((vec![0x08], 1)));
    assert_eq!(at(3, 1), Ok((vec![0x00], 0)));
    assert_eq!(at(3, 3), Ok((vec![0x08], 1)));
    assert_eq!(at(-3, 3), Ok((vec![0x00], 0)));
}
