//! Popups (02, request 9): worked examples, and what holds of every sheet that has them.

mod common;

use common::{
    each_popping_up, five_parts, one_part, records, schedule_large, scheduled,
    scheduled_popping_up, three_parts, with_edition, with_popups,
};
use oracle::fraction::{Fraction, Removal};
use oracle::mark::Mark;
use oracle::popup::write_popups;
use oracle::rank::Edition::{self, First, Second};
use oracle::record::Record;
use oracle::report::print;
use oracle::sample::{PopupExample, P1, P5, POPUP_EXAMPLES};
use oracle::sheet::{check, join_parts, open, split};
use oracle::tree;
use oracle::view::{view, Window};
use oracle::zoom::{lives, remains, zoom_squared, Zoom};

/// Numbers of marks that are tried.
const NUMBERS: [usize; 6] = [0, 1, 2, 5, 9, 24];

/// The map and the count of the view of all places at k/64.
fn view_at(sheet: &[u8], k: u32) -> (Vec<u8>, u32) {
    let zoom = Zoom::Wheel(k as f32 / 64.0);
    view(sheet, Window::WHOLE, zoom, 512).unwrap()
}

// ---- worked examples

#[test]
fn worked_examples() {
    for PopupExample {
        marks,
        popups,
        records: expected,
        shown,
    } in POPUP_EXAMPLES
    {
        let sheet = scheduled_popping_up(marks, popups);
        assert_eq!(records(&sheet), expected, "{popups:?}");
        for &(k, map) in shown {
            let expected = (vec![map], map.count_ones());
            assert_eq!(view_at(&sheet, k), expected, "{popups:?} {k}");
        }
    }
}

#[test]
fn popups_are_printed() {
    let sheet = with_popups(&one_part(&P1), &[640, 0, 0, 0]);
    let text = "marks 4\n0 -\n1 0 409600 4096 640\n2 1 10000 400 320\n3 1 10009 225 427\n";
    assert_eq!(print(&sheet), text);
    assert_eq!(print(&schedule_large(&sheet).unwrap()), text);
    let late = with_popups(&one_part(&P5), &[0, 65_536]);
    assert_eq!(print(&late), "marks 2\n0 -\n1 0 4294967296 4096 65536\n");
    let beyond = with_popups(&one_part(&P5), &[0, 65_537]);
    assert_eq!(print(&beyond), "refused 21\n");
}

#[test]
fn popups_and_editions_go_together() {
    // Of equal priority, and the larger one has the higher number. They touch at zoom 3.
    let marks = [Mark::plain(0, 0, 10, 5), Mark::plain(90, 0, 20, 5)];
    for (edition, gone, by) in [(First, 1, 0), (Second, 0, 1)] {
        for (popups, value) in [
            ([0, 0], Fraction::new(8_100, 900)),
            ([192, 192], Fraction::new(8_100, 900)),
            ([193, 0], Fraction::new(37_249, 4_096)),
            ([0, 193], Fraction::new(37_249, 4_096)),
        ] {
            let sheet = with_edition(&with_popups(&one_part(&marks), &popups), edition);
            let sheet = schedule_large(&sheet).unwrap();
            let mut expected = [Record::NEVER; 2];
            expected[gone] = Record::removed(by, value);
            assert_eq!(records(&sheet), expected);
        }
    }
}

// ---- plausible and false

/// The marks that a search down a tree comes to, which ends at each root of which `ends`
/// says so.
fn searched(tree: &[u16], ends: &impl Fn(usize) -> bool) -> Vec<usize> {
    match tree::branches(tree) {
        Some((&root, left, right)) if !ends(root.into()) => {
            let below = [left, right].map(|half| searched(half, ends));
            [vec![root.into()], below.concat()].concat()
        }
        _ => Vec::new(),
    }
}

/// What is said of a mark with a popup and a removal value at k/64.
type Says = fn(popup: u32, removal: Removal, k: u32) -> bool;

/// The living marks that such a search finds.
fn search(sheet: &[u8], k: u32, ends: Says) -> Vec<usize> {
    let opened = open(sheet).unwrap();
    let (reel, records) = (opened.reel(), opened.records.as_deref().unwrap());
    let said = |says: Says, m: usize| says(reel.popup(m), records[m].removal(), k);
    let mut found = searched(opened.tree.as_deref().unwrap(), &|m| said(ends, m));
    found.retain(|&m| said(lives, m));
    found.sort_unstable();
    found
}

/// The numbers of a map's set bits.
fn set_bits(map: &[u8]) -> Vec<usize> {
    let shown = |&m: &usize| map[m / 8] >> (m % 8) & 1 == 1;
    (0..8 * map.len()).filter(shown).collect()
}

#[test]
fn false_that_a_search_ends_at_a_root_that_has_not_popped_up() {
    let sheet = scheduled_popping_up(&P1, &[640, 0, 0, 0]);
    let tree = open(&sheet).unwrap().tree.unwrap();
    assert_eq!(tree[0], 0);
    let removed: Says = |_, removal, k| !remains(removal, k);
    let not_living: Says = |popup, removal, k| !lives(popup, removal, k);
    assert_eq!(search(&sheet, 1, removed), [1, 2, 3]);
    assert!(search(&sheet, 1, not_living).is_empty());
    let mut lost = 0;
    each_popping_up(&NUMBERS, |marks, popups| {
        let sheet = scheduled_popping_up(marks, popups);
        for k in [1, 3, 40, 100, 777, 5_000, 65_536] {
            let shown = set_bits(&view_at(&sheet, k).0);
            assert_eq!(search(&sheet, k, removed), shown);
            lost += usize::from(search(&sheet, k, not_living) != shown);
        }
    });
    assert!(lost > 100, "only {lost} searches lose a mark");
}

#[test]
fn false_that_an_equal_popup_fraction_is_kept() {
    let sheet = |popups: &[u32], record| {
        let mut records = POPUP_EXAMPLES[0].records.to_vec();
        records[1] = record;
        check(&with_popups(&three_parts(&P1, &records), popups))
    };
    let (touching, popup) = (Record::new(0, 10_000, 400), Record::new(0, 102_400, 4_096));
    assert_eq!(
        touching.value.compare(popup.value),
        std::cmp::Ordering::Equal
    );
    assert_eq!(sheet(&[0, 320, 0, 0], touching), 0);
    assert_eq!(sheet(&[0, 320, 0, 0], popup), 8);
    assert_eq!(sheet(&[0, 0, 0, 0], popup), 8);
    assert_eq!(sheet(&[320, 0, 0, 0], popup), 8);
}

#[test]
fn false_that_a_mark_that_has_not_popped_up_blocks_others() {
    // 0 touches 1 at zoom 5 and pops up at zoom 10: until then 1 lives.
    let marks = [P1[0], P1[1]];
    let sheet = scheduled_popping_up(&marks, &[640, 0]);
    assert_eq!(view_at(&sheet, 320), (vec![0x02], 1));
    assert_eq!(view_at(&sheet, 639), (vec![0x02], 1));
    assert_eq!(view_at(&sheet, 640), (vec![0x01], 1));
    // The schedule by touching values is refused, and kept without a part 5.
    let early = three_parts(&marks, &[Record::NEVER, Record::new(0, 10_000, 400)]);
    assert_eq!(check(&early), 0);
    assert_eq!(check(&with_popups(&early, &[640, 0])), 8);
}

// ---- what holds of every sheet

#[test]
fn scheduling_writes_the_process_of_pair_values_and_keeps_part_5() {
    each_popping_up(&NUMBERS, |marks, popups| {
        for edition in Edition::ALL {
            let sheet = with_edition(&with_popups(&one_part(marks), popups), edition);
            let written = schedule_large(&sheet).unwrap();
            let n = marks.len();
            assert_eq!(written.len(), 32 + 27 * n + 11 + 10 + 4 * n);
            let reel = edition.reel(marks).with_popups(popups);
            assert_eq!(written, five_parts(reel));
            assert_eq!(schedule_large(&written), Ok(written));
        }
        let written = scheduled_popping_up(marks, popups);
        assert_eq!(written.len(), 42 + 31 * marks.len());
        let parts = split(&written).unwrap();
        assert!(parts.present().iter().map(|part| part.0).eq([1, 2, 3, 5]));
        assert_eq!(parts.get(5), Some(write_popups(popups).as_slice()));
    });
}

#[test]
fn where_every_popup_is_0_all_is_as_without_part_5() {
    each_popping_up(&NUMBERS, |marks, popups| {
        let zeros = vec![0; popups.len()];
        let bare = scheduled(marks);
        let with_zeros = scheduled_popping_up(marks, &zeros);
        assert_eq!(with_zeros, with_popups(&bare, &zeros));
        assert_ne!(with_zeros, bare);
        assert_eq!(print(&with_zeros), print(&bare));
        for stop in 0..=16 {
            let k = 1 << stop;
            assert_eq!(view_at(&with_zeros, k), view_at(&bare, k));
        }
    });
}

#[test]
fn nobody_is_removed_before_it_pops_up() {
    let (mut together, mut lived) = (0, 0);
    each_popping_up(&NUMBERS, |marks, popups| {
        let sheet = scheduled_popping_up(marks, popups);
        for (record, &popup) in records(&sheet).iter().zip(popups) {
            let own = zoom_squared(popup);
            let removal = record.removal();
            assert!(removal.compare(Removal::At(own)).is_ge());
            if removal.equals(Removal::At(own)) {
                assert!((1..=65_536).all(|k| !lives(popup, removal, k)));
                together += usize::from(popup > 0);
            } else {
                assert!(popup == 0 || lives(popup, removal, popup));
                lived += usize::from(popup > 0);
            }
        }
    });
    assert!(together > 500 && lived > 500, "{together} {lived}");
}

#[test]
fn part_5_of_no_marks_is_kept() {
    let sheet = join_parts(&[(1, &[]), (5, &[])]);
    assert_eq!(check(&sheet), 0);
    let written = schedule_large(&sheet).unwrap();
    assert_eq!(written.len(), 42);
    assert_eq!(split(&written).unwrap().get(5), Some(&[][..]));
    assert_eq!(
        written,
        join_parts(&[(1, &[]), (2, &[]), (3, &[]), (5, &[])])
    );
    assert_eq!(print(&sheet), "marks 0\n");
    assert_eq!(view_at(&written, 1), (vec![], 0));
    let opened = open(&written).unwrap();
    assert_eq!(opened.popups, Some(Vec::new()));
    assert_eq!(open(&scheduled(&[])).unwrap().popups, None);
}
