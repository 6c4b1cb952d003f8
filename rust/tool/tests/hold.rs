//! Lists that were changed at random, held against their reels: every planted difference is
//! found, nothing else is reported, and where each mark is, is what the oracle says.

mod common;

use std::collections::HashSet;

use common::{least_time, some_view, Drawn, Folder, LIMIT};
use oracle::sample::{marks, Generator, Layout};
use rollmap::{Mark, View, Zoom};
use rollmap_tool::answer::Answer;
use rollmap_tool::hold::{hold, Fate, Held, Listed};
use rollmap_tool::{table, Reel};

/// The fields that a list is held by.
type Fields = (Mark, Option<u32>);

/// A list and the differences that were planted in it.
struct Planted {
    list: Vec<Listed>,
    with_popups: bool,
    /// The fields of those that are in the list alone.
    in_list: Vec<Fields>,
    /// The fields of those that are on the reel alone.
    on_reel: Vec<Fields>,
}

impl Planted {
    /// The list of a reel with some differences planted.
    fn new(generator: &mut Generator, drawn: &Drawn, changes: u32) -> Self {
        let with_popups = generator.below(2) == 0;
        let mut planted = Self {
            list: drawn.listed(with_popups),
            with_popups,
            in_list: Vec::new(),
            on_reel: Vec::new(),
        };
        if generator.below(2) == 0 {
            shuffle(generator, &mut planted.list);
        }
        for _ in 0..changes {
            planted.change(generator);
        }
        for (at, listed) in planted.list.iter_mut().enumerate() {
            listed.line = at + 2;
        }
        planted
    }

    /// Changes one mark of the list that is like none changed before.
    fn change(&mut self, generator: &mut Generator) {
        if self.list.is_empty() {
            return;
        }
        let at = generator.below(self.list.len() as u32) as usize;
        let old = self.list[at];
        if self.in_list.contains(&fields(&old)) || self.on_reel.contains(&fields(&old)) {
            return;
        }
        match generator.below(8) {
            0 | 1 => {
                self.list.remove(at);
                self.on_reel.push(fields(&old));
            }
            2 | 3 => {
                let to = generator.below(self.list.len() as u32 + 1) as usize;
                self.list.insert(to, old);
                self.in_list.push(fields(&old));
            }
            _ => self.replace(generator, at),
        }
    }

    /// Moves a mark of the list, or gives it another priority or another field, so that it is
    /// like no other.
    fn replace(&mut self, generator: &mut Generator, at: usize) {
        let old = self.list[at];
        let taken: HashSet<Fields> = self
            .list
            .iter()
            .map(fields)
            .chain(self.on_reel.clone())
            .collect();
        loop {
            let new = another(generator, old);
            if !taken.contains(&fields(&new)) {
                self.list[at] = new;
                self.in_list.push(fields(&new));
                self.on_reel.push(fields(&old));
                return;
            }
        }
    }
}

/// The fields of a mark of a list.
fn fields(listed: &Listed) -> Fields {
    (listed.mark, listed.popup)
}

/// A mark with another place, priority, radius, kind, tag or popup.
fn another(generator: &mut Generator, old: Listed) -> Listed {
    let mut new = old;
    let (mark, by) = (&mut new.mark, 1 + generator.below(9) as u16);
    match (generator.below(8), old.popup) {
        (0, _) => mark.x = mark.x.wrapping_add(by as i16),
        (1, _) => mark.y = mark.y.wrapping_sub(by as i16),
        (2, _) => mark.radius = (mark.radius + by) % 16_384,
        (3, _) => mark.kind = (mark.kind + by as u8) % 200,
        (4, _) => mark.tag = mark.tag.wrapping_add(by),
        (5, Some(popup)) => new.popup = Some((popup + u32::from(by)) % 65_537),
        _ => mark.priority = mark.priority.wrapping_add(by),
    }
    new
}

/// Puts a list into another order.
fn shuffle(generator: &mut Generator, list: &mut [Listed]) {
    for last in (1..list.len()).rev() {
        list.swap(last, generator.below(last as u32 + 1) as usize);
    }
}

/// Fields in an order of their own.
fn sorted(fields: impl Iterator<Item = Fields>) -> Vec<Fields> {
    let key = |(mark, popup): &Fields| (mark.to_bytes(), *popup);
    let mut fields: Vec<Fields> = fields.collect();
    fields.sort_by_key(key);
    fields
}

/// The fields of the reel's mark m, as a list has them.
fn of_reel(reel: &Reel, planted: &Planted, m: usize) -> Fields {
    (reel.marks[m], planted.with_popups.then(|| reel.popups[m]))
}

/// Sees that what was planted is found, and nothing else.
fn assert_found(held: &Held, reel: &Reel, planted: &Planted) {
    let alone = |fate: Fate| held.rows.iter().filter(move |row| row.fate == fate);
    let in_list = alone(Fate::NotOnReel).map(|row| fields(&planted.list[row.listed.unwrap()]));
    let on_reel = alone(Fate::NotInList).map(|row| of_reel(reel, planted, row.mark.unwrap()));
    assert_eq!(sorted(in_list), sorted(planted.in_list.iter().copied()));
    assert_eq!(sorted(on_reel), sorted(planted.on_reel.iter().copied()));
}

/// Sees that each mark of the list and of the reel is in exactly one row, that those of one
/// row are alike, and that equal ones are paired in their order.
fn assert_one_row_each(held: &Held, reel: &Reel, planted: &Planted) {
    let listed = held.rows.iter().filter_map(|row| row.listed);
    assert!(listed.eq(0..planted.list.len()));
    let mut numbers: Vec<usize> = held.rows.iter().filter_map(|row| row.mark).collect();
    let mut last = std::collections::HashMap::new();
    for row in &held.rows {
        if let (Some(at), Some(m)) = (row.listed, row.mark) {
            let fields = fields(&planted.list[at]);
            assert_eq!(fields, of_reel(reel, planted, m));
            assert!(last.insert(fields, m).is_none_or(|before| before < m));
        }
    }
    numbers.sort_unstable();
    assert!(numbers.into_iter().eq(0..reel.marks.len()));
}

/// Sees that the numbers add up, and are those of the rows.
fn assert_numbers(held: &Held, reel: &Reel, planted: &Planted) {
    let n = held.numbers;
    assert_eq!(n.unexplained, 0);
    assert_eq!(n.in_both() + n.not_on_reel, planted.list.len());
    assert_eq!(n.in_both() + n.not_in_list, reel.marks.len());
    assert_eq!(n.in_both() + n.not_explained(), held.rows.len());
    let unexplained = held.rows.iter().filter(|row| !row.is_explained());
    assert_eq!(n.not_explained(), unexplained.count());
}

/// Sees that rows are joined by their tags exactly where no other row has that tag.
fn assert_joined(held: &Held, reel: &Reel, planted: &Planted) {
    let tag = |at: usize| {
        let row = &held.rows[at];
        let listed = row.listed.map(|at| planted.list[at].mark.tag);
        listed.unwrap_or_else(|| reel.marks[row.mark.unwrap()].tag)
    };
    let alone: Vec<usize> = (0..held.rows.len())
        .filter(|&at| !held.rows[at].is_explained())
        .collect();
    for &at in &alone {
        let like = |other: &&usize| **other != at && tag(**other) == tag(at);
        let alike: Vec<&usize> = alone.iter().filter(like).collect();
        let joined = match alike[..] {
            [&other] if tag(at) != 0 && held.rows[other].fate != held.rows[at].fate => Some(other),
            _ => None,
        };
        assert_eq!(held.rows[at].same_tag, joined);
    }
}

/// Holds a list with planted differences against its reel, and sees that all is right.
/// Answers how many rows there are of each fate.
fn try_list(generator: &mut Generator, drawn: &Drawn, changes: u32) -> rollmap_tool::hold::Numbers {
    let planted = Planted::new(generator, drawn, changes);
    let reel = drawn.open();
    let view = some_view(generator, drawn);
    let held = hold(&planted.list, &reel, view).expect("the view is taken");
    let seen = drawn.seen(view);
    for row in held.rows.iter().filter(|row| row.is_explained()) {
        seen.assert_fate(row.mark.unwrap(), row.fate);
    }
    assert_found(&held, &reel, &planted);
    assert_one_row_each(&held, &reel, &planted);
    assert_numbers(&held, &reel, &planted);
    assert_joined(&held, &reel, &planted);
    held.numbers
}

#[test]
fn every_planted_difference_is_found_in_thousands_of_lists() {
    let mut generator = Generator::new(1);
    let mut all = rollmap_tool::hold::Numbers::default();
    for _ in 0..6_000 {
        let n = generator.below(41) as usize;
        let drawn = Drawn::new(&mut generator, n);
        let changes = generator.below(6);
        let numbers = try_list(&mut generator, &drawn, changes);
        all.shown += numbers.shown;
        all.hidden += numbers.hidden;
        all.not_yet += numbers.not_yet;
        all.outside += numbers.outside;
        all.not_on_reel += numbers.not_on_reel;
        all.not_in_list += numbers.not_in_list;
    }
    for often in [
        all.shown,
        all.hidden,
        all.not_yet,
        all.outside,
        all.not_on_reel,
        all.not_in_list,
    ] {
        assert!(often > 5_000, "{all:?}");
    }
}

#[test]
fn every_planted_difference_is_found_in_large_lists() {
    let mut generator = Generator::new(2);
    for n in [100, 255, 256, 1_000, 2_000, 4_095, 4_096, 4_096] {
        for changes in [0, 1, 40] {
            let drawn = Drawn::new(&mut generator, n);
            try_list(&mut generator, &drawn, changes);
        }
    }
}

#[test]
fn an_empty_list_and_an_empty_reel_are_held() {
    let mut generator = Generator::new(3);
    let drawn = Drawn::new(&mut generator, 3);
    let (reel, none) = (drawn.open(), Drawn::new(&mut generator, 0).open());
    let list = drawn.listed(false);
    let view = View::whole(Zoom::Stop(0));
    let numbers = |list, reel| hold(list, reel, view).unwrap().numbers;
    assert_eq!(numbers(&[], &reel).not_in_list, 3);
    assert_eq!(numbers(&list, &none).not_on_reel, 3);
    assert_eq!(numbers(&[], &none).not_explained(), 0);
}

#[test]
fn a_list_without_popups_is_not_held_by_them() {
    let mut generator = Generator::new(4);
    let mut drawn = Drawn::new(&mut generator, 20);
    drawn.popups = Some((0..20).map(|m| 64 * m).collect());
    let view = View::whole(Zoom::Stop(0));
    let unexplained = |list: &[Listed]| {
        hold(list, &drawn.open(), view)
            .unwrap()
            .numbers
            .not_explained()
    };
    assert_eq!(unexplained(&drawn.listed(false)), 0);
    let mut list = drawn.listed(true);
    assert_eq!(unexplained(&list), 0);
    list[7].popup = Some(7);
    assert_eq!(unexplained(&list), 2);
}

#[test]
fn a_chain_that_ends_nowhere_is_not_explained() {
    // A schedule that is not ours cannot be opened: the records are exchanged afterwards.
    let mut generator = Generator::new(5);
    let mut drawn = Drawn::new(&mut generator, 0);
    drawn.marks = marks(Layout::OnePlace, 3, 1);
    drawn.popups = None;
    let mut reel = drawn.open();
    let view = View::whole(Zoom::Stop(16));
    let list = drawn.listed(false);
    let before = hold(&list, &reel, view).unwrap();
    assert_eq!(
        (before.numbers.hidden, before.numbers.not_explained()),
        (2, 0)
    );
    reel.records.fill(rollmap::Record::Never);
    let held = hold(&list, &reel, view).unwrap();
    assert_eq!((held.numbers.hidden, held.numbers.not_explained()), (0, 2));
    let answer = Answer {
        list: &list,
        reel: &reel,
        held: &held,
    };
    assert!(answer
        .numbers()
        .contains(" + 2 not explained\nunexplained: 2 rows\n"));
}

/// A reel of 4,096 marks at one place, each of which outranks those before it and pops up
/// later: at the last zoom every chain runs through all that come after.
fn long_chains() -> (Reel, Vec<Listed>) {
    let mark = |m: u16| Mark {
        x: 0,
        y: 0,
        radius: 1,
        priority: m,
        kind: 0,
        tag: 0,
    };
    let list = (0..4_096).map(|m| Listed {
        line: usize::from(m) + 2,
        mark: mark(m),
        popup: Some(16 * u32::from(m)),
    });
    let list: Vec<Listed> = list.collect();
    let part_1 = rollmap::marks_to_vec(&list.iter().map(|it| it.mark).collect::<Vec<_>>());
    let part_5 =
        rollmap::popups_to_vec(&list.iter().map(|it| it.popup.unwrap()).collect::<Vec<_>>());
    let parts = [
        (rollmap::Code::Marks, part_1.as_slice()),
        (rollmap::Code::Popups, part_5.as_slice()),
    ];
    let sheet = rollmap::assemble_to_vec(&parts).unwrap();
    (Reel::open(sheet).unwrap(), list)
}

#[test]
fn holding_4096_marks_takes_well_under_a_second() {
    let mut generator = Generator::new(6);
    let view = View::whole(Zoom::Stop(16));
    let drawn = Drawn::new(&mut generator, 4_096);
    for (reel, list) in [(drawn.open(), drawn.listed(true)), long_chains()] {
        let time = least_time(|| {
            let held = hold(&list, &reel, view).unwrap();
            let answer = Answer {
                list: &list,
                reel: &reel,
                held: &held,
            };
            assert!(answer.table(true).len() < 2_000_000);
            assert_eq!(held.numbers.not_explained(), 0);
        });
        assert!(time < LIMIT, "{time:?}");
    }
}

#[test]
fn the_command_holds_4096_marks_in_well_under_a_second() {
    let folder = Folder::new("hold-4096");
    let mut generator = Generator::new(7);
    let drawn = Drawn::new(&mut generator, 4_096);
    folder.write("reel.sheet", drawn.sheet());
    folder.call("list reel.sheet --output reel.csv").ended(0);
    let time = least_time(|| {
        let called = folder.call("hold reel.csv reel.sheet --stop 6").ended(0);
        assert_eq!(called.last(), "nothing unexplained");
    });
    assert!(time < LIMIT, "{time:?}");
}

#[test]
fn the_command_finds_what_was_planted() {
    let folder = Folder::new("hold-planted");
    let mut generator = Generator::new(8);
    for _ in 0..60 {
        let n = generator.below(30) as usize;
        let drawn = Drawn::new(&mut generator, n);
        let changes = generator.below(4);
        let planted = Planted::new(&mut generator, &drawn, changes);
        let marks: Vec<Mark> = planted.list.iter().map(|it| it.mark).collect();
        let popups: Option<Vec<u32>> = planted.list.iter().map(|it| it.popup).collect();
        let popups = popups.filter(|_| planted.with_popups);
        folder.write("list.csv", table::write_marks(&marks, popups.as_deref()));
        folder.write("reel.sheet", drawn.sheet());
        let (in_list, on_reel) = (planted.in_list.len(), planted.on_reel.len());
        let called = folder.call("hold list.csv reel.sheet --unexplained");
        let called = called.ended(i32::from(in_list + on_reel > 0));
        let count = |words: &str| {
            called
                .out
                .lines()
                .filter(|line| line.contains(words))
                .count()
        };
        assert_eq!(count("  in the list and not on the reel: "), in_list);
        assert_eq!(count("  on the reel and not in the list: "), on_reel);
        let total = in_list + on_reel;
        let verdict = match total {
            0 => "nothing unexplained".to_owned(),
            1 => "unexplained: 1 row".to_owned(),
            _ => format!("unexplained: {total} rows"),
        };
        assert_eq!(called.last(), verdict);
    }
}
