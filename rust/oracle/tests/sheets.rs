//! The jobs on samples: what one writes the others take, and refusals agree.

mod common;

use std::collections::BTreeSet;

use common::{
    each_popping_up, one_part, popup_bytes, schedule_large, scheduled, scheduled_as, scheduled_by,
    scheduled_popping_up, three_parts, with_counts, with_edition, with_part, with_popups,
    with_shape, COUNTS, EDITION, LONGEST, OUT, SHAPE, WORK,
};
use oracle::map::{is_set, walk, NO_MARK};
use oracle::mark::{write_marks, Mark};
use oracle::process::schedule_by_process;
use oracle::rank::Edition;
use oracle::record::{removals, Record};
use oracle::reel::Reel;
use oracle::report::print;
use oracle::rules::keep_both;
use oracle::sample::{marks, popups, Generator, Layout, Popups, CODES_TAKEN, P6};
use oracle::shape::Shape;
use oracle::sheet::{assemble, check, join, join_parts, open, part_extent, schedule, split};
use oracle::tree;
use oracle::view::{reaches, view, Edges, Window};
use oracle::zoom::{lives, remains, zoom_in_64ths, Zoom};

/// The numbers of marks that are tried: about whole bytes of a map, and more.
const NUMBERS: [usize; 8] = [0, 1, 2, 7, 8, 9, 17, 33];

/// Calls `visit` with a sample of every layout and number of marks.
fn each_sample(mut visit: impl FnMut(&[Mark])) {
    for layout in Layout::ALL {
        for n in NUMBERS {
            visit(&marks(layout, n, n as u64));
        }
    }
}

/// A sample with many equal priorities and radii, written or of the house.
fn with_ties(marks: &[Mark]) -> Vec<Mark> {
    let tied = |mark: &Mark| Mark {
        priority: mark.priority & 1,
        radius: mark.radius & 64,
        ..*mark
    };
    marks.iter().map(tied).collect()
}

#[test]
fn scheduling_writes_an_accepted_sheet_with_the_marks_unchanged() {
    each_sample(|marks| {
        let sheet = scheduled(marks);
        assert_eq!(sheet.len(), 32 + 27 * marks.len());
        let opened = open(&sheet).unwrap();
        assert_eq!(opened.bodies.get(1), Some(write_marks(marks).as_slice()));
        let records = opened.records.unwrap();
        let reel = Edition::First.reel(marks);
        assert_eq!(records, schedule_by_process(reel));
        assert_eq!(keep_both(reel, &removals(&records)), Ok(()));
    });
}

#[test]
fn scheduling_replaces_what_schedule_there_is() {
    each_sample(|marks| {
        let sheet = scheduled(marks);
        assert_eq!(schedule_large(&sheet).unwrap(), sheet);
        let records = vec![Record::NEVER; marks.len()];
        let foreign = three_parts(marks, &records);
        let parts = split(&foreign).unwrap().present();
        assert_eq!(schedule_large(&join_parts(&parts[..2])).unwrap(), sheet);
        assert_eq!(schedule_large(&foreign).unwrap(), sheet);
        assert_eq!(print(&foreign), print(&sheet));
    });
}

#[test]
fn scheduling_goes_by_the_edition_of_part_4_and_keeps_it() {
    each_sample(|marks| {
        let marks = with_ties(marks);
        for edition in Edition::ALL {
            let sheet = scheduled_by(edition, &marks);
            assert_eq!(sheet.len(), 32 + 27 * marks.len() + 11);
            let opened = open(&sheet).unwrap();
            let codes = opened.bodies.present().into_iter().map(|(code, _)| code);
            assert!(codes.eq([1, 2, 3, 4]));
            assert_eq!(opened.edition, edition);
            let (reel, records) = (opened.reel(), opened.records.as_deref().unwrap());
            assert_eq!(records, schedule_by_process(reel));
            assert_eq!(keep_both(reel, &removals(records)), Ok(()));
            assert_eq!(schedule_large(&sheet), Ok(sheet));
        }
    });
}

#[test]
fn without_part_4_all_is_as_in_the_first_edition() {
    each_sample(|marks| {
        let marks = with_ties(marks);
        let (bare, named) = (
            one_part(&marks),
            with_edition(&one_part(&marks), Edition::First),
        );
        let [three, four] = [&bare, &named].map(|sheet| schedule_large(sheet).unwrap());
        assert_eq!(four, with_edition(&three, Edition::First));
        assert_eq!(print(&bare), print(&named));
        for stop in 0..=16 {
            let view = |sheet| view(sheet, Window::WHOLE, Zoom::Stop(stop), 512);
            assert_eq!(view(&three), view(&four));
        }
    });
}

#[test]
fn putting_the_bodies_of_a_sheet_together_gives_the_sheet() {
    each_sample(|marks| {
        let popups = vec![0; marks.len()];
        let sheet = with_counts(&with_popups(&scheduled_by(Edition::First, marks), &popups));
        let sheet = with_shape(&sheet, Shape::Disk);
        let bodies = split(&sheet).unwrap();
        for codes in CODES_TAKEN {
            let parts = codes.iter().map(|&code| bodies.get(code.into()).unwrap());
            let parts: Vec<&[u8]> = parts.collect();
            let expected =
                join_parts(&codes.iter().copied().zip(parts.clone()).collect::<Vec<_>>());
            let length = expected.len();
            assert_eq!(assemble(codes, &parts, length), Ok(expected));
            assert_eq!(assemble(codes, &parts, length - 1), Err(13));
        }
    });
}

/// The marks that a search down the tree shows. It ends at a root that is removed, since
/// all below it are removed no later; but not at one that has not popped up.
fn search(reel: Reel, records: &[Record], tree: &[u16], window: Window, k: u32) -> Vec<usize> {
    let Some((&root, left, right)) = tree::branches(tree) else {
        return Vec::new();
    };
    let root = usize::from(root);
    let removal = records[root].removal();
    if !remains(removal, k) {
        return Vec::new();
    }
    let shown =
        lives(reel.popup(root), removal, k) && reaches(reel.shape, &reel.marks[root], window, k);
    let mut found: Vec<usize> = shown.then_some(root).into_iter().collect();
    found.extend(search(reel, records, left, window, k));
    found.extend(search(reel, records, right, window, k));
    found.sort_unstable();
    found
}

/// All that a walk over a map hands out.
fn walked(map: &[u8], n: usize) -> Vec<usize> {
    let mut found = Vec::new();
    let mut start = 0;
    loop {
        match walk(map, n as u32, start) {
            (0, NO_MARK) => return found,
            (0, number) => {
                found.push(number as usize);
                start = number + 1;
            }
            refused => panic!("{refused:?}"),
        }
    }
}

/// A rectangle between the turned places of two marks.
fn rectangle(generator: &mut Generator, marks: &[Mark], turn: u8) -> Window {
    let mut place = || generator.choose(marks).label().turned(turn);
    let (a, b) = (place(), place());
    let edges = Edges {
        x0: a.x.min(b.x),
        x1: a.x.max(b.x),
        y0: a.y.min(b.y),
        y1: a.y.max(b.y),
    };
    edges.of_turned(turn)
}

/// Views a scheduled sheet at every stop, and sees that each shows what a search down the
/// tree finds. Answers how many of the views show some of the marks.
fn compare_with_search(generator: &mut Generator, sheet: &[u8]) -> usize {
    let opened = open(sheet).unwrap();
    let (reel, n) = (opened.reel(), opened.marks.len());
    let (records, tree) = (opened.records.as_deref(), opened.tree.as_deref());
    let mut partly = 0;
    for stop in 0..=if n == 0 { 0 } else { 16 } {
        let turn = match reel.shape {
            Shape::Disk => stop % 4,
            Shape::Square => 0,
        };
        let window = match n {
            0 => Window::WHOLE,
            _ => rectangle(generator, reel.marks, turn),
        };
        let k = zoom_in_64ths(Zoom::Stop(stop)).unwrap();
        let (map, count) = view(sheet, window, Zoom::Stop(stop), n.div_ceil(8)).unwrap();
        let found = search(reel, records.unwrap(), tree.unwrap(), window, k);
        assert_eq!(walked(&map, n), found);
        assert_eq!(count as usize, found.len());
        assert!((n..8 * map.len()).all(|unused| !is_set(&map, unused)));
        partly += usize::from(!found.is_empty() && found.len() < n);
    }
    partly
}

#[test]
fn a_view_shows_what_a_search_down_the_tree_finds() {
    let mut generator = Generator::new(9);
    let (mut partly, mut squares, mut popping_up) = (0, 0, 0);
    each_sample(|marks| {
        partly += compare_with_search(&mut generator, &scheduled(marks));
        squares += compare_with_search(&mut generator, &scheduled_as(Shape::Square, marks));
    });
    each_popping_up(&NUMBERS, |marks, popups| {
        let sheet = scheduled_popping_up(marks, popups);
        popping_up += compare_with_search(&mut generator, &sheet);
    });
    assert!(partly > 100, "only {partly} views show some of the marks");
    assert!(squares > 100, "only {squares} of squares do");
    assert!(popping_up > 1_000, "only {popping_up} with popups do");
}

#[test]
fn a_view_uses_the_schedule_as_the_sheet_has_it() {
    let marks = marks(Layout::OnePlace, 10, 4);
    let count = |sheet: &[u8]| view(sheet, Window::WHOLE, Zoom::Stop(16), 2).unwrap();
    let (_, ours) = count(&scheduled(&marks));
    assert_eq!(ours, 1);
    let records = [Record::NEVER; 10];
    let foreign = three_parts(&marks, &records);
    assert_eq!(count(&foreign), (vec![0xff, 0x03], 10));
}

#[test]
fn parts_are_found_in_accepted_sheets_only() {
    let mut sheet = scheduled(&marks(Layout::Grid, 4, 1));
    // Of the parts that are there, once all others are seen to be nowhere.
    let extents = |sheet: &[u8]| -> Vec<(u32, (u32, u32))> {
        let codes = (0..9).chain([65_537, 65_540, 65_542, 65_543]);
        let extents = codes.map(|code| (code, part_extent(sheet, code)));
        extents.filter(|&(_, extent)| extent != (0, 0)).collect()
    };
    let all = [(1, (32, 44)), (2, (76, 56)), (3, (132, 8))];
    assert_eq!(extents(&sheet), all);
    let [marks, schedule, index] = [(1, (42, 44)), (2, (86, 56)), (3, (142, 8))];
    let named = with_edition(&sheet, Edition::Second);
    assert_eq!(extents(&named), [marks, schedule, index, (4, (150, 1))]);
    let popping_up = with_popups(&sheet, &[0; 4]);
    let unnamed = [marks, schedule, index, (5, (150, 16))];
    assert_eq!(extents(&popping_up), unnamed);
    let shaped = with_shape(&sheet, Shape::Disk);
    assert_eq!(extents(&shaped), [marks, schedule, index, (7, (150, 1))]);
    let [marks, schedule, index] = [(1, (52, 44)), (2, (96, 56)), (3, (152, 8))];
    let all = [marks, schedule, index, (4, (160, 1)), (5, (161, 16))];
    assert_eq!(extents(&with_popups(&named, &[0; 4])), all);
    let counted = [marks, schedule, index, (5, (160, 16)), (6, (176, 170))];
    assert_eq!(extents(&with_counts(&popping_up)), counted);
    let both = [marks, schedule, index, (6, (160, 170)), (7, (330, 1))];
    assert_eq!(extents(&with_counts(&shaped)), both);
    let empty = join(&[&[], &[]]);
    assert_eq!(extents(&empty), [(1, (22, 0)), (2, (22, 0))]);
    let zeros = [(1, (32, 0)), (2, (32, 0)), (6, (32, 170))];
    assert_eq!(extents(&with_counts(&empty)), zeros);
    assert_eq!(extents(&with_part(&empty, 6, &[0; 169])), []);
    assert_eq!(extents(&with_part(&empty, 7, &[0])), []);
    for (code, body) in [(4, &[1][..]), (5, &[]), (7, &[2])] {
        let expected = [(1, (22, 0)), (code.into(), (22, body.len() as u32))];
        assert_eq!(extents(&join_parts(&[(1, &[]), (code, body)])), expected);
    }
    sheet.push(0);
    assert_eq!(extents(&sheet), []);
}

/// A sheet of up to seven parts with a byte too many in a body, some bytes
/// changed, some missing at the end, or as it should be.
fn changed_sheet(generator: &mut Generator) -> Vec<u8> {
    let layout = generator.choose(&Layout::ALL);
    let n = generator.below(6) as usize;
    let sample = marks(layout, n, generator.draw());
    let named = with_edition(&one_part(&sample), generator.choose(&Edition::ALL));
    let popups = popups(generator.choose(&Popups::ALL), &sample, generator.draw());
    let shaped = with_shape(&named, generator.choose(&Shape::ALL));
    let whole = schedule_large(&with_popups(&shaped, &popups)).unwrap();
    let whole = with_counts(&whole);
    let mut parts = split(&whole).unwrap().present();
    for code in [7, 6, 5, 4, 3, 2] {
        if generator.below(3) == 0 {
            let needs_it = |other| code == 2 && [3, 6].contains(&other);
            parts.retain(|&(other, _)| other != code && !needs_it(other));
        }
    }
    let at = generator.below(parts.len() as u32) as usize;
    let longer = [parts[at].1, &[0]].concat();
    if generator.below(10) == 0 {
        parts[at].1 = &longer;
    }
    let mut sheet = join_parts(&parts);
    for _ in 0..generator.below(3) {
        let at = generator.below(sheet.len() as u32) as usize;
        sheet[at] = generator.choose(&[0, 1, 2, 3, 200, 255]);
    }
    if generator.below(20) == 0 {
        sheet.truncate(generator.below(sheet.len() as u32) as usize);
    }
    sheet
}

/// Puts the bodies of a sheet that passes questions 1 to 3 together again.
fn assemble_again(sheet: &[u8]) -> Result<Vec<u8>, u32> {
    let parts = split(sheet).unwrap().present();
    let (codes, bodies): (Vec<u16>, Vec<&[u8]>) = parts.into_iter().unzip();
    assemble(&codes, &bodies, sheet.len())
}

#[test]
fn all_jobs_refuse_a_changed_sheet_by_the_number_that_checking_gives() {
    let mut generator = Generator::new(1);
    let mut numbers = BTreeSet::new();
    for _ in 0..6_000 {
        let sheet = changed_sheet(&mut generator);
        let number = check(&sheet);
        numbers.insert(number);
        let viewed = view(&sheet, Window::WHOLE, Zoom::Stop(3), 512);
        if number == 0 {
            assert_eq!(check(&schedule_large(&sheet).unwrap()), 0);
            assert_eq!(assemble_again(&sheet), Ok(sheet));
            continue;
        }
        assert_eq!(schedule_large(&sheet), Err(number));
        assert_eq!(viewed, Err(number));
        assert_eq!(print(&sheet), format!("refused {number}\n"));
        if number > 3 {
            assert_eq!(assemble_again(&sheet), Err(number));
        }
    }
    let reached = (0..=9).chain([19, 21, 23, 24]);
    assert_eq!(numbers, BTreeSet::from_iter(reached));
}

#[test]
fn the_largest_sheet_is_scheduled() {
    let marks = marks(Layout::OnePlace, 4_096, 1);
    let sheet = scheduled(&marks);
    assert_eq!(sheet.len(), 110_624);
    let (_, count) = view(&sheet, Window::WHOLE, Zoom::Stop(0), 512).unwrap();
    assert_eq!(count, 1);
    let named = with_edition(&sheet, Edition::First);
    assert_eq!(schedule(&named, WORK, OUT + EDITION), Ok(named.clone()));
    assert_eq!(schedule(&named, WORK, OUT + EDITION - 1), Err(13));
    assert_eq!(popup_bytes(4_096), 16_394);
    let popping_up = with_popups(&named, &[0; 4_096]);
    let length = LONGEST - COUNTS - SHAPE;
    assert_eq!(popping_up.len(), length);
    assert_eq!(schedule(&popping_up, WORK, length), Ok(popping_up.clone()));
    assert_eq!(schedule(&popping_up, WORK, length - 1), Err(13));
    let shaped = with_shape(&with_counts(&popping_up), Shape::Square);
    assert_eq!(shaped.len(), LONGEST);
    assert_eq!(schedule(&shaped, WORK, LONGEST), Ok(shaped.clone()));
    assert_eq!(schedule(&shaped, WORK, LONGEST - 1), Err(13));
}

#[test]
fn sheets_of_no_mark_and_one_mark_are_printed() {
    assert_eq!(print(&one_part(&[])), "marks 0\n");
    let one = one_part(&[Mark::plain(1, 2, 3, 4)]);
    assert_eq!(print(&one), "marks 1\n0 -\n");
}

#[test]
fn the_removal_zoom_is_printed_though_no_view_has_it() {
    let text = print(&one_part(&P6));
    assert_eq!(text, "marks 2\n0 -\n1 0 8589672450 4 2965776\n");
}
