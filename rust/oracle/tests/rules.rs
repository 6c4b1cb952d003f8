//! Demand 3's two rules: the process keeps them, and no other list does, with popups and
//! without, of disks and of squares.

mod common;

use common::each_reel;
use oracle::fraction::{Fraction, Removal};
use oracle::mark::{touching_value, Mark};
use oracle::process::schedule_by_process;
use oracle::rank::Edition::{First, Second};
use oracle::record::removals;
use oracle::reel::Reel;
use oracle::rules::{keep_both, Breach};
use oracle::sample::{each_list, marks, Layout, Popups, P1};
use oracle::shape::Shape;
use oracle::zoom::zoom_squared;

/// The removal values the process gives.
fn list_of(reel: Reel) -> Vec<Removal> {
    removals(&schedule_by_process(reel))
}

fn at(numerator: u64, denominator: u32) -> Removal {
    Removal::At(Fraction::new(numerator, denominator))
}

/// 'Never', the touching values and the pair values of all pairs, and the popup values;
/// each value once.
fn candidates(reel: Reel) -> Vec<Removal> {
    let numbers = 0..reel.marks.len();
    let pairs = numbers.clone().flat_map(|b| (0..b).map(move |a| (a, b)));
    let of_pair = |(a, b): (usize, usize)| {
        let touching = touching_value(reel.shape, &reel.marks[a], &reel.marks[b]);
        [touching, reel.pair_value(a, b)]
    };
    let popups = numbers.map(|m| zoom_squared(reel.popup(m)));
    let values = pairs.flat_map(of_pair).chain(popups).map(Removal::At);
    let mut candidates = vec![Removal::Never];
    for value in values {
        if !candidates.iter().any(|other| other.equals(value)) {
            candidates.push(value);
        }
    }
    candidates
}

#[test]
fn the_process_keeps_both_rules() {
    for layout in Layout::ALL {
        for seed in 0..100 {
            let marks = marks(layout, seed as usize % 15, seed);
            each_reel(&marks, &Popups::ALL, seed, |reel| {
                assert_eq!(keep_both(reel, &list_of(reel)), Ok(()), "{reel:?}");
            });
        }
    }
}

#[test]
fn the_rules_are_about_values_and_not_about_how_they_are_written() {
    let written_otherwise = [Removal::Never, at(25, 1), at(700, 7), at(1, 25)];
    assert_eq!(keep_both(First.reel(&P1), &written_otherwise), Ok(()));
    let hair = u64::MAX / u64::from(u32::MAX) * 25;
    let nearly = [Removal::Never, at(hair, u32::MAX), at(100, 1), at(1, 25)];
    assert_eq!(
        keep_both(First.reel(&P1), &nearly),
        Err(Breach::First(0, 1))
    );
}

#[test]
fn a_list_with_one_changed_value_breaks_a_rule() {
    for layout in Layout::ALL {
        for seed in 0..20 {
            let marks = marks(layout, 2 + seed as usize % 5, seed);
            each_reel(&marks, &Popups::ALL, seed, |reel| {
                let ours = list_of(reel);
                for (mark, other) in (0..marks.len())
                    .flat_map(|mark| candidates(reel).into_iter().map(move |it| (mark, it)))
                {
                    let mut list = ours.clone();
                    list[mark] = other;
                    let kept = keep_both(reel, &list).is_ok();
                    assert_eq!(kept, other.equals(ours[mark]), "{reel:?} {list:?}");
                }
            });
        }
    }
}

#[test]
fn a_value_a_hair_earlier_or_later_breaks_a_rule() {
    for seed in 0..50 {
        let marks = marks(Layout::Uniform, 6, seed);
        each_reel(&marks, &Popups::ALL, seed, |reel| {
            let ours = list_of(reel);
            for mark in 0..marks.len() {
                let Removal::At(value) = ours[mark] else {
                    continue;
                };
                let (twice, denominator) = (2 * value.numerator, 2 * value.denominator);
                let mut list = ours.clone();
                list[mark] = at(twice + 1, denominator);
                assert!(matches!(keep_both(reel, &list), Err(Breach::First(..))));
                list[mark] = at(twice - 1, denominator);
                assert_eq!(keep_both(reel, &list), Err(Breach::Second(mark)));
            }
        });
    }
}

#[test]
fn only_lists_equal_to_ours_keep_both_rules() {
    let ways = [Popups::Few, Popups::Any, Popups::Touching, Popups::Together];
    for layout in [
        Layout::Grid,
        Layout::Uniform,
        Layout::Extreme,
        Layout::OnePlace,
    ] {
        for seed in 0..3 {
            let marks = marks(layout, 4, seed);
            each_reel(&marks, &ways, seed, |reel| {
                let ours = list_of(reel);
                each_list(&candidates(reel), 4, &mut |list| {
                    let equal = list.iter().zip(&ours).all(|(one, own)| one.equals(*own));
                    assert_eq!(keep_both(reel, list).is_ok(), equal, "{reel:?} {list:?}");
                });
            });
        }
    }
}

#[test]
fn hollow_lists_break_the_rule_that_shuts_them_out() {
    let nobody = [Removal::Never; 4];
    assert_eq!(
        keep_both(First.reel(&P1), &nobody),
        Err(Breach::First(0, 1))
    );
    let all_at_0 = [at(0, 1); 4];
    assert_eq!(
        keep_both(First.reel(&P1), &all_at_0),
        Err(Breach::Second(0))
    );
    let all_but_one_at_0 = [Removal::Never, at(0, 1), at(0, 1), at(0, 1)];
    assert_eq!(
        keep_both(First.reel(&P1), &all_but_one_at_0),
        Err(Breach::Second(1))
    );
    let swept_once = [Removal::Never, Removal::Never, Removal::Never, at(9, 225)];
    assert_eq!(
        keep_both(First.reel(&P1), &swept_once),
        Err(Breach::First(0, 1))
    );
}

#[test]
fn later_in_the_first_rule_is_strict() {
    let two = [Mark::plain(0, 0, 1, 5), Mark::plain(2, 0, 1, 5)];
    assert_eq!(
        keep_both(First.reel(&two), &[Removal::Never, at(1, 1)]),
        Ok(())
    );
    assert_eq!(
        keep_both(First.reel(&two), &[Removal::Never, at(5, 4)]),
        Err(Breach::First(0, 1))
    );
}

#[test]
fn the_second_rule_asks_for_a_higher_ranked_mark() {
    let two = [Mark::plain(0, 0, 1, 5), Mark::plain(2, 0, 1, 5)];
    assert_eq!(
        keep_both(First.reel(&two), &[at(1, 1), Removal::Never]),
        Err(Breach::Second(0))
    );
}

#[test]
fn a_list_is_held_to_the_ranks_of_the_edition() {
    // Of equal priority, and the larger one has the higher number.
    let two = [Mark::plain(0, 0, 1, 5), Mark::plain(6, 0, 2, 5)];
    let [lower_stays, larger_stays] = [[Removal::Never, at(4, 1)], [at(4, 1), Removal::Never]];
    assert_eq!(keep_both(First.reel(&two), &lower_stays), Ok(()));
    assert_eq!(keep_both(Second.reel(&two), &larger_stays), Ok(()));
    assert_eq!(
        keep_both(First.reel(&two), &larger_stays),
        Err(Breach::Second(0))
    );
    assert_eq!(
        keep_both(Second.reel(&two), &lower_stays),
        Err(Breach::Second(1))
    );
}

#[test]
fn a_list_is_held_to_the_popups() {
    // They touch at zoom 1, and the second pops up at zoom 2.
    let two = [Mark::plain(0, 0, 1, 5), Mark::plain(2, 0, 1, 5)];
    let lists = [1, 4].map(|value| [Removal::Never, at(value, 1)]);
    let kept = |popups: Option<&[u32]>| {
        let reel = Reel {
            popups,
            ..First.reel(&two)
        };
        lists.each_ref().map(|list| keep_both(reel, list))
    };
    let too_late = Err(Breach::First(0, 1));
    for early in [None, Some(&[0, 0][..]), Some(&[0, 64]), Some(&[64, 63])] {
        assert_eq!(kept(early), [Ok(()), too_late], "{early:?}");
    }
    // Whichever of the two has the popup.
    for late in [[0, 128], [128, 0], [128, 128], [7, 128]] {
        assert_eq!(kept(Some(&late)), [Err(Breach::Second(1)), Ok(())]);
    }
}

#[test]
fn a_list_is_held_to_the_shape() {
    // As disks they touch at 25, and as squares at 16.
    let two = [Mark::plain(0, 0, 1, 5), Mark::plain(6, 8, 1, 5)];
    let lists = [25, 16].map(|value| [Removal::Never, at(value, 1)]);
    let kept = |shape| {
        let reel = First.reel(&two).with_shape(shape);
        lists.each_ref().map(|list| keep_both(reel, list))
    };
    assert_eq!(kept(Shape::Disk), [Ok(()), Err(Breach::Second(1))]);
    assert_eq!(kept(Shape::Square), [Err(Breach::First(0, 1)), Ok(())]);
}

#[test]
fn never_is_not_a_removal_at_some_large_value() {
    let mut list = list_of(First.reel(&P1));
    list[0] = at(u64::MAX, 1);
    assert_eq!(keep_both(First.reel(&P1), &list), Err(Breach::Second(0)));
}

#[test]
fn a_list_has_one_entry_a_mark_and_no_denominator_0() {
    let ours = list_of(First.reel(&P1));
    assert_eq!(keep_both(First.reel(&P1), &ours[..3]), Err(Breach::NoList));
    let longer = [ours.clone(), vec![Removal::Never]].concat();
    assert_eq!(keep_both(First.reel(&P1), &longer), Err(Breach::NoList));
    let mut zero = ours;
    zero[3] = at(9, 0);
    assert_eq!(keep_both(First.reel(&P1), &zero), Err(Breach::NoList));
    assert_eq!(keep_both(First.reel(&[]), &[]), Ok(()));
}
