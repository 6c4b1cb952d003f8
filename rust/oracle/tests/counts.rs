//! Counts beside the reel (02, request 12): what holds of part 6 of every sheet.

mod common;

use common::{
    each_popping_up, one_part, schedule_large, scheduled, scheduled_as, scheduled_by,
    scheduled_popping_up, three_parts, with_counts, with_edition, with_part, with_popups,
    with_shape,
};
use oracle::count::{count, read_counts};
use oracle::map::is_set;
use oracle::mark::{Group, Mark};
use oracle::rank::Edition;
use oracle::record::Record;
use oracle::report::print;
use oracle::sample::{marks, Generator, Layout, P1, POPUP_EXAMPLES};
use oracle::shape::Shape;
use oracle::sheet::{check, join_parts, open, split};
use oracle::view::{view, Window};
use oracle::zoom::Zoom;

/// The sheet with part 6, in a buffer that is long enough for any.
fn counted(sheet: &[u8]) -> Vec<u8> {
    count(sheet, usize::MAX).unwrap()
}

/// The counts of a sheet that has part 6, stop by stop.
fn counts(sheet: &[u8]) -> Vec<[u16; 5]> {
    let counts = read_counts(split(sheet).unwrap().get(6).unwrap());
    counts.as_chunks().0.to_vec()
}

/// Calls `visit` with sheets of every layout: scheduled by both editions, of both shapes and
/// with popups of every kind, and with the schedule in which nobody goes.
fn each_sheet(mut visit: impl FnMut(&[u8])) {
    for layout in Layout::ALL {
        for n in [0, 1, 2, 9, 40] {
            let sample = marks(layout, n, n as u64);
            visit(&scheduled(&sample));
            visit(&scheduled_by(Edition::Second, &sample));
            visit(&scheduled_as(Shape::Square, &sample));
            visit(&three_parts(&sample, &vec![Record::NEVER; n]));
        }
    }
    each_popping_up(&[0, 1, 9, 40], |marks, popups| {
        visit(&scheduled_popping_up(marks, popups));
        let never = three_parts(marks, &vec![Record::NEVER; marks.len()]);
        let named = with_edition(&never, Edition::First);
        visit(&with_shape(&with_popups(&named, popups), Shape::Square));
    });
}

#[test]
fn each_count_is_the_number_of_marks_that_a_view_of_all_places_shows() {
    let mut above = 0;
    each_sheet(|sheet| {
        let marks = open(sheet).unwrap().marks;
        for (stop, counts) in (0..).zip(counts(&counted(sheet))) {
            let (map, count) = view(sheet, Window::WHOLE, Zoom::Stop(stop), 512).unwrap();
            let mut shown = [0; 5];
            for m in (0..marks.len()).filter(|&m| is_set(&map, m)) {
                let group = Group::of(marks[m].kind).unwrap();
                shown[group as usize] += 1;
            }
            assert_eq!(counts, shown);
            assert_eq!(counts.iter().sum::<u16>(), count as u16);
            above += usize::from(counts.iter().filter(|&&count| count > 0).count() > 2);
        }
    });
    assert!(above > 1_000, "{above} stops with marks of three groups");
}

#[test]
fn without_part_5_no_count_grows_from_stop_to_stop() {
    let (mut falling, mut growing) = (0, 0);
    each_sheet(|sheet| {
        let stops = counts(&counted(sheet));
        let pairs = stops.iter().zip(&stops[1..]);
        let mut groups = pairs.flat_map(|(now, next)| now.iter().zip(next));
        if split(sheet).unwrap().get(5).is_none() {
            assert!(groups.clone().all(|(now, next)| next <= now));
            falling += usize::from(groups.any(|(now, next)| next < now));
        } else {
            growing += usize::from(groups.any(|(now, next)| next > now));
        }
    });
    assert!(falling > 30 && growing > 100, "{falling} {growing}");
}

#[test]
fn counting_again_gives_the_same_bytes() {
    each_sheet(|sheet| {
        let once = counted(sheet);
        assert_eq!(once.len(), sheet.len() + 180);
        assert_eq!(counted(&once), once);
        assert_eq!(check(&once), 0);
        // All other parts are as they were.
        let mut parts = split(&once).unwrap().present();
        parts.retain(|&(code, _)| code != 6);
        assert_eq!(join_parts(&parts), sheet);
        assert_eq!(once, with_counts(sheet));
    });
}

#[test]
fn counting_adds_no_part_3() {
    let whole = scheduled(&P1);
    let parts = split(&whole).unwrap().present();
    let counted = counted(&join_parts(&parts[..2]));
    let codes = split(&counted).unwrap().present();
    assert!(codes.iter().map(|&(code, _)| code).eq([1, 2, 6]));
    assert_eq!(check(&counted), 0);
    assert_eq!(counts(&counted), counts(&with_counts(&whole)));
    assert_eq!(view(&counted, Window::WHOLE, Zoom::Stop(0), 1), Err(10));
}

#[test]
fn scheduling_renews_the_counts() {
    let mut differing = 0;
    each_sheet(|sheet| {
        let old = counted(sheet);
        let new = schedule_large(&old).unwrap();
        assert_eq!(new, counted(&schedule_large(sheet).unwrap()));
        differing += usize::from(counts(&old) != counts(&new));
        // Whoever has only parts 1, 2 and 6 is given an index, too.
        let mut parts = split(&old).unwrap().present();
        parts.retain(|&(code, _)| code != 3);
        assert_eq!(schedule_large(&join_parts(&parts)), Ok(new));
    });
    assert!(differing > 100, "{differing}");
}

#[test]
fn the_program_prints_nothing_of_part_6() {
    for example in POPUP_EXAMPLES {
        let sheet = scheduled_popping_up(example.marks, example.popups);
        assert_eq!(print(&counted(&sheet)), print(&sheet));
        let damaged = with_part(&sheet, 6, &[0; 168]);
        assert_eq!(print(&damaged), "refused 23\n");
    }
    assert_eq!(count(&one_part(&P1), usize::MAX), Err(10));
}

#[test]
fn the_most_marks_are_counted() {
    // Far apart and all of one group, so that a count is as large as there is.
    let patch = |m: i16| Mark {
        kind: 149,
        ..Mark::plain(500 * (m % 64), 500 * (m / 64), 1, 0)
    };
    let patches: Vec<Mark> = (0..4_096).map(patch).collect();
    let never = three_parts(&patches, &[Record::NEVER; 4_096]);
    assert_eq!(counts(&counted(&never)), [[0, 0, 0, 4_096, 0]; 17]);
    let mut generator = Generator::new(12);
    let popups: Vec<u32> = patches.iter().map(|_| generator.below(65_537)).collect();
    let stops = counts(&counted(&with_popups(&never, &popups)));
    for (stop, count) in stops.into_iter().enumerate() {
        let there = popups.iter().filter(|&&popup| popup <= 1 << stop).count();
        assert_eq!(count, [0, 0, 0, there as u16, 0]);
    }
}
