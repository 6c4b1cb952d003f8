//! Lists of removals, held against ours: equal exactly where the oracle finds both rules kept,
//! and a rule that is told to be broken is broken for these marks.

mod common;

use common::{least_time, Drawn, Folder, LIMIT};
use oracle::fraction::{Fraction, Removal as Value};
use oracle::record::removals;
use oracle::rules::keep_both;
use oracle::sample::Generator;
use oracle::zoom::{removal_zoom_in_64ths, zoom_squared};
use rollmap_tool::rules::{breach, differing, pair, Breach, Removal};
use rollmap_tool::words::nearest_64th;

/// A removal of the oracle as the tool has it.
fn told(value: Value) -> Removal {
    match value {
        Value::Never => Removal::Never,
        Value::At(fraction) => at(fraction),
    }
}

/// A fraction of the oracle as the tool has it.
fn at(fraction: Fraction) -> Removal {
    Removal::At {
        numerator: fraction.numerator,
        denominator: fraction.denominator.into(),
    }
}

/// Our list with some values exchanged.
fn some_list(generator: &mut Generator, drawn: &Drawn) -> Vec<Value> {
    let mut list = removals(&drawn.records);
    let n = list.len() as u32;
    for _ in 0..generator.below(4) {
        let m = generator.below(n) as usize;
        let other = generator.below(n) as usize;
        list[m] = match generator.below(6) {
            0 => Value::Never,
            1 => list[other],
            2 if m != other => Value::At(drawn.reel().pair_value(m, other)),
            3 => scaled(list[m]),
            4 => Value::At(zoom_squared(generator.below(65_537))),
            _ => Value::At(Fraction::new(
                generator.below(100).into(),
                1 + generator.below(100),
            )),
        };
    }
    list
}

/// An equal value, in other numbers where they fit.
fn scaled(value: Value) -> Value {
    match value {
        Value::At(Fraction {
            numerator,
            denominator,
        }) if denominator < u32::MAX / 3 => {
            Value::At(Fraction::new(3 * numerator, 3 * denominator))
        }
        other => other,
    }
}

/// Whether a list breaks the rule that is told to be broken, by the oracle's values.
fn is_broken(drawn: &Drawn, list: &[Value], breach: Breach) -> bool {
    let reel = drawn.reel();
    match breach {
        Breach::First(pair) => {
            let value = reel.pair_value(pair.higher, pair.lower);
            assert_eq!(at(value), pair.value);
            assert!(reel.outranks(pair.higher, pair.lower));
            list[pair.higher].later_than(value) && list[pair.lower].later_than(value)
        }
        Breach::Second(m) => {
            let Value::At(value) = list[m] else {
                return false;
            };
            let accounts = |other: usize| {
                other != m
                    && reel.outranks(other, m)
                    && reel.pair_value(other, m).compare(value).is_eq()
                    && list[other].later_than(value)
            };
            !(0..list.len()).any(accounts)
        }
    }
}

#[test]
fn a_list_is_ours_exactly_where_it_keeps_both_rules() {
    let mut generator = Generator::new(1);
    let [mut kept, mut first, mut second] = [0; 3];
    for _ in 0..5_000 {
        let n = 1 + generator.below(14) as usize;
        let drawn = Drawn::new(&mut generator, n);
        let list = some_list(&mut generator, &drawn);
        let theirs: Vec<Removal> = list.iter().copied().map(told).collect();
        let reel = drawn.open();
        let differing = differing(&theirs, &reel);
        assert_eq!(differing.is_empty(), keep_both(drawn.reel(), &list).is_ok());
        match breach(&theirs, &reel).unwrap() {
            None => {
                assert!(differing.is_empty());
                kept += 1;
            }
            Some(breach) => {
                assert!(is_broken(&drawn, &list, breach), "{breach:?}");
                match breach {
                    Breach::First(_) => first += 1,
                    Breach::Second(_) => second += 1,
                }
            }
        }
    }
    assert!(
        kept > 500 && first > 500 && second > 500,
        "{kept} {first} {second}"
    );
}

#[test]
fn the_pair_value_and_the_rank_of_two_marks_are_the_librarys() {
    let mut generator = Generator::new(2);
    for _ in 0..300 {
        let n = 2 + generator.below(8) as usize;
        let drawn = Drawn::new(&mut generator, n);
        let reel = drawn.open();
        for (a, b) in (0..n).flat_map(|a| (0..a).map(move |b| (a, b))) {
            let found = pair(&reel, a, b).unwrap();
            let higher = if drawn.reel().outranks(a, b) { a } else { b };
            assert_eq!((found.higher, found.lower), (higher, a + b - higher));
            assert_eq!(found.value, at(drawn.reel().pair_value(a, b)));
        }
    }
}

#[test]
fn the_zooms_that_are_told_are_those_of_the_printed_schedule() {
    let mut generator = Generator::new(3);
    for _ in 0..20_000 {
        let numerator = generator.draw() >> (30 + generator.below(34));
        let denominator = 1 + generator.below(1 << 30);
        let value = Fraction::new(numerator, denominator);
        let (nearest, exact) = nearest_64th(numerator, denominator.into());
        assert_eq!(nearest, removal_zoom_in_64ths(value));
        let squared = u128::from(nearest).pow(2) * u128::from(denominator);
        assert_eq!(exact, squared == 4_096 * u128::from(numerator));
    }
}

#[test]
fn removals_of_any_size_are_compared_by_cross_products() {
    let at = |numerator, denominator| Removal::At {
        numerator,
        denominator,
    };
    let most = u64::MAX;
    assert!(at(most, most).compare(at(1, 1)).is_eq());
    assert!(at(most, most - 1).compare(at(most - 1, most)).is_gt());
    assert!(at(25, 1).compare(at(100, 4)).is_eq());
    assert!(Removal::Never.compare(at(most, 1)).is_gt());
    assert!(at(most, 1).compare(Removal::Never).is_lt());
    assert!(Removal::Never.compare(Removal::Never).is_eq());
}

#[test]
fn of_4096_marks_the_broken_rule_is_found_in_well_under_a_second() {
    let mut generator = Generator::new(4);
    let drawn = Drawn::new(&mut generator, 4_096);
    let reel = drawn.open();
    let early = vec![at(Fraction::new(1, 1 << 30)); 4_096];
    let never = vec![Removal::Never; 4_096];
    let time = least_time(|| {
        let broken = [&early, &never].map(|list| breach(list, &reel).unwrap());
        assert!(matches!(
            broken,
            [Some(Breach::Second(_)), Some(Breach::First(_))]
        ));
    });
    assert!(time < LIMIT, "{time:?}");
}

/// A folder with a sheet of four marks and the list of its removals.
fn with_removals(name: &str) -> (Folder, &'static str) {
    let folder = Folder::new(name);
    let marks = "0,0,10,9,0,0\n100,0,10,5,0,0\n200,0,10,5,0,0\n0,3,5,1,0,0\n";
    folder.write("reel.csv", format!("x,y,radius,priority,kind,tag\n{marks}"));
    folder.call("make reel.csv").ended(0);
    folder
        .call("list reel.sheet --removals --output ours.csv")
        .ended(0);
    let ours = "mark,removal\n0,never\n1,10000/400\n2,40000/400\n3,9/225\n";
    (folder, ours)
}

#[test]
fn the_command_holds_a_list_of_removals() {
    let (folder, ours) = with_removals("removals");
    assert_eq!(folder.read("ours.csv"), ours.as_bytes());
    let called = folder.call("hold ours.csv reel.sheet --removals").ended(0);
    assert_eq!(
        called.out,
        "ours, 4 marks one by one: both rules are kept\n"
    );

    folder.write("equal.csv", "removal\nnever\n25\n100/1\n1/25\n");
    folder.call("hold equal.csv reel.sheet --removals").ended(0);
}

#[test]
fn the_command_tells_which_rule_is_broken() {
    let (folder, ours) = with_removals("broken");
    folder.write("first.csv", ours.replace("40000/400", "never"));
    let called = folder.call("hold first.csv reel.sheet --removals").ended(1);
    let words = "mark 2: the list has never, and ours is 40000/400\nnot ours: 1 of 4 marks differ\n\
                 the first rule is broken for marks 0 and 2: both are removed later than their pair \
                 value 40000/400\n";
    assert_eq!(called.out, words);

    folder.write("second.csv", ours.replace("40000/400", "10000/400"));
    let called = folder
        .call("hold second.csv reel.sheet --removals")
        .ended(1);
    let words = "mark 2: the list has 10000/400, and ours is 40000/400\nnot ours: 1 of 4 marks \
                 differ\nthe second rule is broken for mark 2: no higher-ranked mark that is \
                 removed later has the pair value 10000/400 with it\n";
    assert_eq!(called.out, words);
}

#[test]
fn a_list_of_removals_that_is_none_is_no_answer() {
    let (folder, _) = with_removals("no-list");
    folder.write("short.csv", "removal\nnever\n");
    folder.call("hold short.csv reel.sheet --removals").ended(2);
    let called = folder
        .call("hold ours.csv reel.sheet --removals --stop 3")
        .ended(2);
    assert!(called.err.contains("--stop does not go with --removals"));
}
