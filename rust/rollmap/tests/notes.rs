//! Notes don't move breaks: of two sheets that hold the same marks of some priority and above,
//! each of these marks has the same record in both, its eliminator counted among them.

mod common;

use common::jobs::{important, records, records_among};
use common::{bound, rivals, some_marks, tied_marks, Beyond, Tally, NAMED, SHAPED};
use oracle::mark::Mark;
use oracle::rank::Edition;
use oracle::record::Record;
use oracle::sample::{popups, Generator, Popups};
use oracle::shape::Shape;
use rollmap::{add_to_vec, NO_POPUP};

/// Breaks all over the reel, of priorities 900 to 902.
fn breaks(generator: &mut Generator, n: usize) -> Vec<Mark> {
    let mut one = || Mark {
        kind: 150 + generator.below(50) as u8,
        ..Mark::plain(
            generator.between(-6_000, 6_000),
            generator.between(-3_000, 3_000),
            0,
            900 + generator.below(3) as u16,
        )
    };
    (0..n).map(|_| one()).collect()
}

/// Notes among them, below priority 900.
fn notes(generator: &mut Generator, n: usize) -> Vec<Mark> {
    let mut one = || {
        Mark::plain(
            generator.between(-6_000, 6_000),
            generator.between(-3_000, 3_000),
            1 + generator.below(400) as u16,
            generator.below(900) as u16,
        )
    };
    (0..n).map(|_| one()).collect()
}

/// Both, in any order, but each of them in its own.
fn mixed<T: Copy>(generator: &mut Generator, a: &[T], b: &[T]) -> Vec<T> {
    let (mut a, mut b) = (a.iter(), b.iter());
    let mut all = Vec::with_capacity(a.len() + b.len());
    while a.len() + b.len() > 0 {
        let first = generator.below((a.len() + b.len()) as u32) < a.len() as u32;
        let next = if first { a.next() } else { b.next() };
        all.push(*next.expect("one is left there"));
    }
    all
}

#[test]
fn a_reel_with_breaks_and_a_thousand_notes() {
    let mut generator = Generator::new(14);
    let breaks = breaks(&mut generator, 300);
    let notes = notes(&mut generator, 1_000);
    let none = Beyond::default();
    let before = none.scheduled_here(&breaks);
    let ours = records_among(&before, 900);
    assert_eq!(ours, records(&before));
    assert!(
        ours.iter()
            .filter(|&&record| record != Record::NEVER)
            .count()
            > 200
    );

    let all = mixed(&mut generator, &breaks, &notes);
    let after = none.scheduled_here(&all);
    assert_eq!(records_among(&after, 900), ours);
    // Their numbers are others now, and so are their eliminators' among all marks.
    let numbers = important(&all, 900);
    let own = records(&after);
    assert!(numbers
        .iter()
        .zip(&ours)
        .any(|(&m, record)| own[m] != *record));
}

#[test]
fn a_note_that_is_added_moves_no_break() {
    let mut generator = Generator::new(15);
    let breaks = breaks(&mut generator, 60);
    let mut sheet = Beyond::default().scheduled_here(&breaks);
    let ours = records_among(&sheet, 900);
    for note in notes(&mut generator, 100) {
        sheet = add_to_vec(&sheet, bound(&note), NO_POPUP).unwrap();
        assert_eq!(records_among(&sheet, 900), ours);
    }
}

/// Some marks: few, full of ties, or of equal priorities.
fn any_marks(generator: &mut Generator) -> Vec<Mark> {
    let n = generator.below(20) as usize;
    match generator.below(3) {
        0 => some_marks(generator),
        1 => tied_marks(generator, n),
        _ => rivals(generator, n),
    }
}

/// Some popups for these marks.
fn some_popups(generator: &mut Generator, marks: &[Mark]) -> Vec<u32> {
    popups(generator.choose(&Popups::ALL), marks, generator.draw())
}

#[test]
fn whatever_is_below_a_priority_moves_nothing_above_it() {
    let mut generator = Generator::new(16);
    let mut tally = Tally::default();
    for _ in 0..4_000 {
        let marks = any_marks(&mut generator);
        let beyond = Beyond::draw(&mut generator, &marks);
        let p = match marks.len() as u32 {
            0 => generator.below(3) as u16,
            n => marks[generator.below(n) as usize].priority,
        };
        let kept = important(&marks, p);
        let ours = records_among(&beyond.scheduled_here(&marks), p);

        // The same of priority p and above, and others below it, if there can be any.
        let mut others = any_marks(&mut generator);
        others.retain(|_| p > 0);
        for other in &mut others {
            other.priority %= p;
        }
        let drawn = some_popups(&mut generator, &others);
        let above = kept.iter().map(|&m| (marks[m], beyond.popup(m)));
        let above: Vec<(Mark, u32)> = above.collect();
        let below: Vec<(Mark, u32)> = others.into_iter().zip(drawn).collect();
        let (all, popping_up): (Vec<_>, Vec<_>) =
            mixed(&mut generator, &above, &below).into_iter().unzip();
        // What is not there counts as edition 1, as no popups and as disks.
        let none = popping_up.iter().all(|&k| k == NO_POPUP) && generator.below(2) == 0;
        let same_edition =
            |named: &Option<Edition>| named.unwrap_or_default() == beyond.named.unwrap_or_default();
        let same_shape = |shaped: &Option<Shape>| shaped.unwrap_or_default() == beyond.shape();
        let editions: Vec<_> = NAMED.into_iter().filter(same_edition).collect();
        let shapes: Vec<_> = SHAPED.into_iter().filter(same_shape).collect();
        let other = Beyond {
            named: generator.choose(&editions),
            popups: (!none).then_some(popping_up),
            counted: generator.below(2) == 0,
            shaped: generator.choose(&shapes),
        };
        assert_eq!(records_among(&other.scheduled_here(&all), p), ours);
        let moved = ours.iter().any(|&record| record != Record::NEVER);
        tally.add(u32::from(moved) + 2 * u32::from(all.len() > kept.len()));
    }
    tally.assert_reached(0..4, 100);
}

#[test]
fn a_mark_of_equal_priority_is_no_note() {
    // By the first edition 0 stays and removes 1; one more of their priority, before them,
    // removes both.
    let pair = [Mark::plain(0, 0, 10, 9), Mark::plain(100, 0, 10, 9)];
    let with = |priority| [Mark::plain(50, 0, 10, priority), pair[0], pair[1]];
    let none = Beyond::default();
    let ours = records_among(&none.scheduled_here(&pair), 9);
    assert_eq!(ours, [Record::NEVER, Record::new(0, 10_000, 400)]);
    assert_eq!(records_among(&none.scheduled_here(&with(8)), 9), ours);
    let [_, rest @ ..] = &records_among(&none.scheduled_here(&with(9)), 9)[..] else {
        panic!("three of priority 9");
    };
    assert_ne!(rest, ours);
    // By the second edition the larger one counts, though it comes last.
    let larger = [pair[0], pair[1], Mark::plain(50, 0, 30, 9)];
    let second = Beyond::named(Some(Edition::Second));
    let rest = &records_among(&second.scheduled_here(&larger), 9)[..2];
    assert_ne!(rest, records_among(&second.scheduled_here(&pair), 9));
}
