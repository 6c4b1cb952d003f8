//! What the tests of the jobs share: buffers whose every byte is watched, and
//! sheets, accepted and damaged. Each test file uses some of it.

#![allow(dead_code)]

pub mod jobs;
pub mod views;

use std::collections::BTreeMap;

use oracle::contents::Part;
use oracle::count::part_6;
use oracle::fraction::Fraction;
use oracle::mark::{read_marks, touching_value, write_marks, Mark};
use oracle::popup::write_popups;
use oracle::process::schedule_in_rank_order;
use oracle::rank::Edition;
use oracle::record::{read_records, write_records, Record};
use oracle::reel::Reel;
use oracle::sample::{marks, popups, Generator, Layout, Popups, CODES_TAKEN};
use oracle::shape::Shape;
use oracle::sheet::{join, join_parts, split, Opened};
use oracle::tree;
use rollmap::{
    popups_bytes, scheduled_bytes, work_bytes, Code, Refusal, Work, COUNTED_BYTES, EDITION_BYTES,
    MARK_BYTES, NO_POPUP, POPUP_BYTES, SHAPE_BYTES,
};

/// The program, as `./build` builds it.
pub const PROGRAM: &str = concat!(env!("CARGO_MANIFEST_DIR"), "/../../target/bin/schedule");

/// The number of an answer: 0, or the refusal's.
pub fn number<T>(answer: &Result<T, Refusal>) -> u32 {
    match answer {
        Ok(_) => 0,
        Err(refusal) => refusal.number(),
    }
}

/// How often each number was answered.
#[derive(Default)]
pub struct Tally(BTreeMap<u32, usize>);

impl Tally {
    /// Counts one answer.
    pub fn add(&mut self, number: u32) {
        *self.0.entry(number).or_default() += 1;
    }

    /// Asserts that these numbers were answered, no others, and each of them more than
    /// so many times.
    pub fn assert_reached(&self, numbers: impl IntoIterator<Item = u32>, times: usize) {
        let Self(tally) = self;
        assert!(tally.keys().copied().eq(numbers), "{tally:?}");
        assert!(tally.values().all(|&count| count > times), "{tally:?}");
    }
}

// ---- lent buffers

/// Bytes on both sides of a lent buffer that nobody may write.
const GUARD: usize = 24;

/// A buffer lent out of the middle of a longer run of bytes, all of which hold a
/// pattern beforehand. Where it starts depends on the seed, as to alignment too.
pub struct Lent {
    bytes: Vec<u8>,
    before: Vec<u8>,
    start: usize,
    length: usize,
}

impl Lent {
    /// A buffer of so many bytes.
    pub fn new(length: usize, seed: u64) -> Self {
        let start = GUARD + seed as usize % 8;
        let pattern = |at: usize| (at as u8).wrapping_mul(37) ^ (seed as u8);
        let bytes: Vec<u8> = (0..start + length + GUARD).map(pattern).collect();
        Self {
            before: bytes.clone(),
            bytes,
            start,
            length,
        }
    }

    /// A buffer with these bytes in it.
    pub fn holding(held: &[u8], seed: u64) -> Self {
        let mut lent = Self::new(held.len(), seed);
        lent.slice().copy_from_slice(held);
        lent.before.clone_from(&lent.bytes);
        lent
    }

    /// The buffer itself.
    pub fn slice(&mut self) -> &mut [u8] {
        &mut self.bytes[self.start..self.start + self.length]
    }

    /// Asserts that the buffer holds what was written, then what it held before, and
    /// that the bytes around it are as they were.
    pub fn assert_written(&self, written: &[u8]) {
        let end = self.start + written.len();
        assert!(self.bytes[self.start..end] == *written, "wrong bytes");
        assert!(self.bytes[..self.start] == self.before[..self.start]);
        assert!(self.bytes[end..] == self.before[end..], "written past it");
    }

    /// Asserts that neither the buffer nor what is around it was written.
    pub fn assert_untouched(&self) {
        self.assert_written(&[]);
    }

    /// Asserts that nothing around the buffer was written.
    pub fn assert_untouched_around(&self) {
        let end = self.start + self.length;
        assert!(self.bytes[..self.start] == self.before[..self.start]);
        assert!(self.bytes[end..] == self.before[end..]);
    }
}

/// What a call answers that writes bytes, and what the oracle says that it writes.
pub type Written = Result<usize, Refusal>;
pub type Expected = Result<Vec<u8>, u32>;

impl Lent {
    /// Asserts that a call answered what the oracle says and wrote that to the buffer, or
    /// nothing where it was refused. Answers the number.
    pub fn assert_answered(
        &self,
        answer: &Written,
        expected: &Result<impl AsRef<[u8]>, u32>,
    ) -> u32 {
        match expected {
            Ok(written) => {
                let written = written.as_ref();
                assert_eq!(*answer, Ok(written.len()));
                self.assert_written(written);
            }
            Err(refused) => {
                assert_eq!(number(answer), *refused);
                self.assert_untouched();
            }
        }
        number(answer)
    }
}

/// Lends some bytes, and a buffer of so many bytes to write to, to a call, and sees that the
/// answer and every byte are as expected. Answers the number.
pub fn write_in(
    call: fn(&[u8], &mut [u8]) -> Written,
    given: &[u8],
    out_length: usize,
    seed: u64,
    expected: &Result<impl AsRef<[u8]>, u32>,
) -> u32 {
    let mut out = Lent::new(out_length, seed);
    let mut lent = Lent::holding(given, seed >> 3);
    let answer = call(lent.slice(), out.slice());
    lent.assert_untouched();
    out.assert_answered(&answer, expected)
}

/// Turns some bytes in a buffer of so many bytes by a call, and sees that the answer and
/// every byte are the oracle's. Answers the number.
pub fn turn(
    call: fn(&[u8], &mut [u8]) -> Written,
    expected: fn(&[u8], usize) -> Expected,
    given: &[u8],
    out_length: usize,
    seed: u64,
) -> u32 {
    let expected = expected(given, out_length);
    write_in(call, given, out_length, seed, &expected)
}

/// Lends a sheet, and buffers of these lengths for work and to write to, to a call that
/// schedules marks, and sees that the answer and every byte are as expected: no byte of
/// the work buffer is written where the call is refused. Answers the number.
pub fn schedule_in(
    sheet: &[u8],
    [work_length, out_length]: [usize; 2],
    call: impl FnOnce(&[u8], Work<'_>, &mut [u8]) -> Written,
    expected: &Result<impl AsRef<[u8]>, u32>,
) -> u32 {
    let seed = (sheet.len() + work_length + out_length) as u64;
    let mut work = Lent::new(work_length, seed);
    let mut out = Lent::new(out_length, seed >> 1);
    let mut lent = Lent::holding(sheet, seed >> 2);
    let answer = call(lent.slice(), Work(work.slice()), out.slice());
    lent.assert_untouched();
    if expected.is_ok() {
        work.assert_untouched_around();
    } else {
        work.assert_untouched();
    }
    out.assert_answered(&answer, expected)
}

/// The lengths of work and out that scheduling n marks asks for, where a sheet has no part
/// beyond 3.
pub fn lengths(n: usize) -> [usize; 2] {
    [work_bytes(n), scheduled_bytes(n)]
}

/// Buffers that are long enough for any sheet.
pub fn longest() -> [usize; 2] {
    let n = rollmap::MOST_MARKS;
    let [work, out] = lengths(n);
    let beyond = EDITION_BYTES + popups_bytes(n) + COUNTED_BYTES + SHAPE_BYTES;
    [work, out + beyond]
}

/// A length near the one that is needed.
pub fn some_room(generator: &mut Generator, needed: usize) -> usize {
    match generator.below(6) {
        0 => needed.saturating_sub(1),
        1 => generator.below(100) as usize,
        2 => needed + generator.below(40) as usize,
        _ => needed,
    }
}

// ---- accepted sheets

/// The call that adds a mark with a popup.
pub fn add(mark: Mark, popup: u32) -> impl Fn(&[u8], Work<'_>, &mut [u8]) -> Written {
    move |sheet: &[u8], work: Work<'_>, out: &mut [u8]| {
        rollmap::add(sheet, bound(&mark), popup, work, out)
    }
}

/// The call that takes a mark out.
pub fn take_out(m: usize) -> impl Fn(&[u8], Work<'_>, &mut [u8]) -> Written {
    move |sheet: &[u8], work: Work<'_>, out: &mut [u8]| {
        rollmap::take_out(sheet, m as u32, work, out)
    }
}

/// A mark of the oracle as the bindings have it.
pub fn bound(mark: &Mark) -> rollmap::Mark {
    rollmap::Mark {
        x: mark.x,
        y: mark.y,
        radius: mark.radius,
        priority: mark.priority,
        kind: mark.kind,
        tag: mark.tag,
    }
}

/// The sheet of one part with these marks.
pub fn one_part(marks: &[Mark]) -> Vec<u8> {
    join(&[&write_marks(marks)])
}

/// The three bodies that these marks and records give.
pub fn bodies_of(marks: &[Mark], records: &[Record]) -> [Vec<u8>; 3] {
    [
        write_marks(marks),
        write_records(records),
        tree::write_tree(&tree::build(marks, records)),
    ]
}

/// The sheet of the first so many bodies.
pub fn joined(bodies: &[Vec<u8>]) -> Vec<u8> {
    let bodies: Vec<&[u8]> = bodies.iter().map(Vec::as_slice).collect();
    join(&bodies)
}

/// The sheet of three parts with these marks and records.
pub fn three_parts(marks: &[Mark], records: &[Record]) -> Vec<u8> {
    joined(&bodies_of(marks, records))
}

/// Our records of these marks in the first edition.
pub fn our_records(marks: &[Mark]) -> Vec<Record> {
    schedule_in_rank_order(Edition::First.reel(marks))
}

/// The sheet that scheduling these marks writes.
pub fn scheduled(marks: &[Mark]) -> Vec<u8> {
    three_parts(marks, &our_records(marks))
}

/// The sheet with this part in its place by its code, of which it has none.
pub fn with_part(sheet: &[u8], code: u16, body: &[u8]) -> Vec<u8> {
    let mut parts = split(sheet).expect("its parts are joined").present();
    parts.push((code, body));
    parts.sort_unstable_by_key(|&(code, _)| code);
    join_parts(&parts)
}

/// The sheet with this part 4.
pub fn with_part_4(sheet: &[u8], part_4: &[u8]) -> Vec<u8> {
    with_part(sheet, 4, part_4)
}

/// The sheet with these popups in part 5.
pub fn with_popups(sheet: &[u8], popups: &[u32]) -> Vec<u8> {
    with_part(sheet, 5, &write_popups(popups))
}

/// The sheet with this part 7.
pub fn with_part_7(sheet: &[u8], part_7: &[u8]) -> Vec<u8> {
    with_part(sheet, 7, part_7)
}

/// What a part 7 may say: nothing, where it is not there, or a shape.
pub const SHAPED: [Option<Shape>; 3] = [None, Some(Shape::Disk), Some(Shape::Square)];

/// What a part 4 may say: nothing, where it is not there, or an edition.
pub const NAMED: [Option<Edition>; 3] = [None, Some(Edition::First), Some(Edition::Second)];

/// The sheet with a part 4 that names this edition, if there is one.
pub fn with_named(sheet: Vec<u8>, named: Option<Edition>) -> Vec<u8> {
    Beyond::named(named).put_behind(sheet)
}

/// The sheet that scheduling these marks with such a part 4 writes.
pub fn scheduled_with(named: Option<Edition>, marks: &[Mark]) -> Vec<u8> {
    Beyond::named(named).scheduled(marks)
}

/// What a sheet has beyond part 3: an edition, where part 4 names one, popups, where there
/// is a part 5, whether it has the counts of its schedule in a part 6, and a shape, where part
/// 7 names one.
#[derive(Clone, Debug, Default, PartialEq, Eq)]
pub struct Beyond {
    pub named: Option<Edition>,
    pub popups: Option<Vec<u32>>,
    pub counted: bool,
    pub shaped: Option<Shape>,
}

impl Beyond {
    /// Such a part 4 and such popups, and no part 6 or 7.
    pub fn uncounted(named: Option<Edition>, popups: Option<Vec<u32>>) -> Self {
        Self {
            named,
            popups,
            counted: false,
            shaped: None,
        }
    }

    /// Such a part 4, and no other part beyond 3.
    pub fn named(named: Option<Edition>) -> Self {
        Self::uncounted(named, None)
    }

    /// These popups, and no other part beyond 3.
    pub fn popping_up(popups: Vec<u32>) -> Self {
        Self::uncounted(None, Some(popups))
    }

    /// Such a part 7, and no other part beyond 3.
    pub fn shaped(shaped: Option<Shape>) -> Self {
        Self::default().with_shape(shaped)
    }

    /// The same other parts, and a part 6.
    pub fn counted(self) -> Self {
        Self {
            counted: true,
            ..self
        }
    }

    /// The same other parts, and such a part 7.
    pub fn with_shape(self, shaped: Option<Shape>) -> Self {
        Self { shaped, ..self }
    }

    /// What an accepted sheet has.
    pub fn of(opened: &Opened) -> Self {
        Self {
            named: opened.bodies.get(4).map(|_| opened.edition),
            popups: opened.popups.clone(),
            counted: opened.bodies.get(6).is_some(),
            shaped: opened.bodies.get(7).map(|_| opened.shape),
        }
    }

    /// Some parts for these marks.
    pub fn draw(generator: &mut Generator, marks: &[Mark]) -> Self {
        let drawn = popups(generator.choose(&Popups::ALL), marks, generator.draw());
        Self {
            named: generator.choose(&NAMED),
            popups: (generator.below(3) > 0).then_some(drawn),
            counted: generator.below(3) == 0,
            shaped: generator.choose(&SHAPED),
        }
    }

    /// Some parts for these marks with which their labels are disks, so that they are viewed
    /// with any turn.
    pub fn draw_disks(generator: &mut Generator, marks: &[Mark]) -> Self {
        let drawn = Self::draw(generator, marks);
        drawn.with_shape(generator.choose(&SHAPED[..2]))
    }

    /// The shape of the labels.
    pub fn shape(&self) -> Shape {
        self.shaped.unwrap_or_default()
    }

    /// The same without mark m.
    pub fn without(&self, m: usize) -> Self {
        let mut rest = self.clone();
        if let Some(popups) = &mut rest.popups {
            popups.remove(m);
        }
        rest
    }

    /// The popup with which mark m is added.
    pub fn popup(&self, m: usize) -> u32 {
        self.popups.as_ref().map_or(NO_POPUP, |popups| popups[m])
    }

    /// These marks as the parts have them.
    pub fn reel<'a>(&'a self, marks: &'a [Mark]) -> Reel<'a> {
        Reel {
            marks,
            edition: self.named.unwrap_or_default(),
            popups: self.popups.as_deref(),
            shape: self.shape(),
        }
    }

    /// The sheet with these parts behind its own, of which none is beyond 3.
    pub fn put_behind(&self, sheet: Vec<u8>) -> Vec<u8> {
        let named = match self.named {
            Some(edition) => with_part_4(&sheet, &edition.write()),
            None => sheet,
        };
        let popping_up = match &self.popups {
            Some(popups) => with_popups(&named, popups),
            None => named,
        };
        let whole = match self.shaped {
            Some(shape) => with_part_7(&popping_up, &shape.write()),
            None => popping_up,
        };
        if self.counted {
            self.count(&whole)
        } else {
            whole
        }
    }

    /// The sheet, which has these parts and part 2, with the counts of its schedule.
    fn count(&self, sheet: &[u8]) -> Vec<u8> {
        let bodies = split(sheet).expect("its parts are joined");
        let marks = read_marks(bodies.part_1());
        let records = read_records(bodies.get(2).expect("there is a schedule"));
        with_part(sheet, 6, &part_6(self.reel(&marks), &records))
    }

    /// The sheet of these marks alone, with the parts; where it is counted, which needs a
    /// schedule, with the one in which nobody goes.
    pub fn bare(&self, marks: &[Mark]) -> Vec<u8> {
        if self.counted {
            let never = write_records(&vec![Record::NEVER; marks.len()]);
            self.put_behind(join(&[&write_marks(marks), &never]))
        } else {
            self.put_behind(one_part(marks))
        }
    }

    /// The sheet of these marks and records, with the parts.
    pub fn with_records(&self, marks: &[Mark], records: &[Record]) -> Vec<u8> {
        self.put_behind(three_parts(marks, records))
    }

    /// The sheet that the library schedules of these marks with the parts.
    pub fn scheduled_here(&self, marks: &[Mark]) -> Vec<u8> {
        rollmap::schedule_to_vec(&self.bare(marks)).unwrap()
    }

    /// The sheet that scheduling these marks with the parts writes.
    pub fn scheduled(&self, marks: &[Mark]) -> Vec<u8> {
        self.with_records(marks, &schedule_in_rank_order(self.reel(marks)))
    }

    /// The lengths of work and out that scheduling n marks with the parts asks for.
    pub fn lengths(&self, n: usize) -> [usize; 2] {
        let [work, mut out] = lengths(n);
        out += self.named.map_or(0, |_| EDITION_BYTES);
        out += self.popups.as_ref().map_or(0, |_| popups_bytes(n));
        out += if self.counted { COUNTED_BYTES } else { 0 };
        out += self.shaped.map_or(0, |_| SHAPE_BYTES);
        [work, out]
    }
}

/// The sheet of these codes, which question 2 takes, that scheduling these marks gives: by
/// the first edition and these popups, where the sheet has part 4 and part 5, counted, where it
/// has part 6, and of squares, where it has part 7.
pub fn scheduled_of(codes: &[u16], marks: &[Mark], popups: &[u32]) -> Vec<u8> {
    let beyond = Beyond {
        named: codes.contains(&4).then_some(Edition::First),
        popups: codes.contains(&5).then(|| popups.to_vec()),
        counted: codes.contains(&6),
        shaped: codes.contains(&7).then_some(Shape::Square),
    };
    let whole = beyond.scheduled(marks);
    let mut parts = split(&whole).expect("its parts are joined").present();
    parts.retain(|(code, _)| codes.contains(code));
    join_parts(&parts)
}

/// The sheets that scheduling these marks gives, with every list of codes that has this one.
pub fn scheduled_having(code: u16, marks: &[Mark]) -> Vec<Vec<u8>> {
    let popups = popups(Popups::Touching, marks, 9);
    let lists = CODES_TAKEN.iter().filter(|codes| codes.contains(&code));
    lists
        .map(|codes| scheduled_of(codes, marks, &popups))
        .collect()
}

/// Records that question 8 takes and that are most likely not ours: each mark
/// stays, or goes for some higher-ranked mark that is removed later.
pub fn foreign_records(generator: &mut Generator, reel: Reel) -> Vec<Record> {
    let ranked = reel.ranked();
    let mut records = vec![Record::NEVER; ranked.len()];
    for place in 1..ranked.len() {
        let other = ranked[generator.below(place as u32) as usize];
        let value = reel.pair_value(other, ranked[place]);
        if records[other].removal().later_than(value) && generator.below(8) > 0 {
            records[ranked[place]] = Record::removed(other, value);
        }
    }
    records
}

/// Some records for the marks that question 8 takes: ours, foreign ones, or none
/// but 'never'.
pub fn some_records(generator: &mut Generator, reel: Reel) -> Vec<Record> {
    match generator.below(5) {
        0 => vec![Record::NEVER; reel.marks.len()],
        1 | 2 => foreign_records(generator, reel),
        _ => schedule_in_rank_order(reel),
    }
}

/// A few marks of some layout: most often under 8, at most 40.
pub fn some_marks(generator: &mut Generator) -> Vec<Mark> {
    let layout = generator.choose(&Layout::ALL);
    let n = match generator.below(8) {
        0 => generator.below(41),
        _ => generator.below(8),
    };
    marks(layout, n as usize, generator.draw())
}

/// Marks on a few points with few radii and priorities, so that most pairs have the
/// touching value of many others.
pub fn tied_marks(generator: &mut Generator, n: usize) -> Vec<Mark> {
    let (places, radii) = (1 + generator.below(6), 1 + generator.below(3));
    let (step, priorities) = (generator.choose(&[1, 7, 5_000]), 1 + generator.below(4));
    let mut mark = || {
        let mut place = || step * (generator.below(places) as i16 - 3);
        let (x, y) = (place(), place());
        let radius = 1 << generator.below(radii);
        Mark::plain(x, y, radius, generator.below(priorities) as u16)
    };
    (0..n).map(|_| mark()).collect()
}

/// Marks of few priorities, whose radii are written or those of the house, and equal
/// ones among both.
pub fn rivals(generator: &mut Generator, n: usize) -> Vec<Mark> {
    let (priorities, step) = (1 + generator.below(2), generator.choose(&[1, 40, 3_000]));
    let mut mark = || {
        let mut place = || step * generator.between(-5, 5);
        let (x, y) = (place(), place());
        Mark {
            kind: generator.choose(&[0, 10, 50, 100, 149, 150, 199]),
            radius: generator.choose(&[0, 0, 0, 1, 40, 60, 120, 149, 150, 151, 16_383]),
            ..Mark::plain(x, y, 0, generator.below(priorities) as u16)
        }
    };
    (0..n).map(|_| mark()).collect()
}

// ---- damaged sheets

/// A record that is not the mark's own: one that nearly fits, or nonsense.
pub fn another_record(generator: &mut Generator, reel: Reel, own: Record) -> Record {
    let mut changed = own;
    let (marks, n) = (reel.marks, reel.marks.len() as u32);
    let other = generator.below(n + 1) as usize;
    let mark = generator.below(n) as usize;
    match generator.below(9) {
        0 => changed = Record::NEVER,
        1 if other < marks.len() => {
            changed = Record::removed(other, reel.pair_value(other, mark));
        }
        2 if other < marks.len() => {
            let shape = generator.choose(&Shape::ALL);
            let touching = touching_value(shape, &marks[other], &marks[mark]);
            changed = Record::removed(other, touching);
        }
        3 => changed.value = reduced(own.value),
        4 => changed.value = scaled(generator, own.value),
        5 => changed.eliminator = other as u16,
        6 => changed.value.numerator = odd_number(generator, own.value.numerator),
        7 => {
            let odd = odd_number(generator, u64::from(own.value.denominator));
            changed.value.denominator = odd as u32;
        }
        _ => changed.eliminator = generator.choose(&[65_535, 65_534, 256, 4_096]),
    }
    changed
}

/// The fraction in lowest terms.
fn reduced(value: Fraction) -> Fraction {
    let (mut a, mut b) = (value.numerator, u64::from(value.denominator));
    while b > 0 {
        (a, b) = (b, a % b);
    }
    let divisor = a.max(1);
    Fraction::new(
        value.numerator / divisor,
        (u64::from(value.denominator) / divisor) as u32,
    )
}

/// The fraction with both numbers made larger by one factor.
fn scaled(generator: &mut Generator, value: Fraction) -> Fraction {
    let factor = generator.choose(&[2, 3, 4, 16]);
    Fraction::new(
        value.numerator.wrapping_mul(factor),
        value.denominator.wrapping_mul(factor as u32),
    )
}

/// A number near another one, or at an end.
pub fn odd_number(generator: &mut Generator, own: u64) -> u64 {
    match generator.below(8) {
        0 => own.wrapping_add(1),
        1 => own.wrapping_sub(1),
        2 => own ^ 1 << generator.below(64),
        3 => own.wrapping_add(1 << 32),
        4 => u64::MAX,
        5 => 0,
        6 => u64::from(u32::MAX),
        _ => generator.draw() >> generator.below(64),
    }
}

/// The bodies of all parts, some of them damaged in some way, and the codes of those that
/// the sheet has.
pub struct SomeBodies {
    pub codes: &'static [u16],
    pub bodies: [Vec<u8>; 7],
}

/// The codes of some sheet that has an index.
fn indexed(generator: &mut Generator) -> &'static [u16] {
    let lists = CODES_TAKEN.into_iter();
    let indexed: Vec<&[u16]> = lists.filter(|codes| codes.contains(&3)).collect();
    generator.choose(&indexed)
}

impl SomeBodies {
    /// Bodies with none, one or two faults.
    pub fn draw(generator: &mut Generator) -> Self {
        let marks = match generator.below(4) {
            0 => {
                let n = generator.below(8) as usize;
                rivals(generator, n)
            }
            _ => some_marks(generator),
        };
        let codes = match generator.below(3) {
            0 => generator.choose(&CODES_TAKEN),
            _ => indexed(generator),
        };
        let drawn = popups(generator.choose(&Popups::ALL), &marks, generator.draw());
        let named = codes.contains(&4).then(|| generator.choose(&Edition::ALL));
        let beyond = Beyond::uncounted(named, codes.contains(&5).then_some(drawn));
        let shaped = codes.contains(&7).then(|| generator.choose(&Shape::ALL));
        let beyond = beyond.with_shape(shaped);
        let reel = beyond.reel(&marks);
        let mut records = some_records(generator, reel);
        if !marks.is_empty() && generator.below(3) == 0 {
            let at = generator.below(marks.len() as u32) as usize;
            records[at] = another_record(generator, reel, records[at]);
        }
        let [part_1, part_2, part_3] = bodies_of(&marks, &records);
        let part_4 = reel.edition.write().to_vec();
        let part_5 = write_popups(reel.popups.unwrap_or_default());
        let part_6 = part_6(reel, &records);
        let part_7 = reel.shape.write().to_vec();
        let mut bodies = [part_1, part_2, part_3, part_4, part_5, part_6, part_7];
        for _ in 0..generator.choose(&[0, 0, 1, 1, 2]) {
            damage_body(generator, &mut bodies);
        }
        Self { codes, bodies }
    }

    /// The parts of the sheet.
    pub fn parts(&self) -> Vec<Part<'_>> {
        let body = |code: u16| self.bodies[usize::from(code) - 1].as_slice();
        self.codes.iter().map(|&code| (code, body(code))).collect()
    }

    /// The sheet of the parts.
    pub fn sheet(&self) -> Vec<u8> {
        join_parts(&self.parts())
    }
}

/// The code of that number, which question 2 takes.
pub fn code(number: u16) -> Code {
    let mut codes = Code::ALL.iter().copied();
    codes
        .find(|code| code.number() == number)
        .expect("there is such a code")
}

/// These parts, of which question 2 takes the codes, by the codes' names.
pub fn named_parts<'a>(parts: &[Part<'a>]) -> Vec<(Code, &'a [u8])> {
    let named = |&(number, body): &Part<'a>| (code(number), body);
    parts.iter().map(named).collect()
}

/// Bytes of a mark by which its radius or its kind is refused.
pub const FAULTS_OF_A_MARK: [(usize, u8); 4] = [(5, 0x40), (5, 0xff), (8, 200), (8, 255)];

/// Bytes of a popup by which it is refused, whatever its other bytes are.
pub const FAULTS_OF_A_POPUP: [(usize, u8); 4] = [(2, 2), (2, 255), (3, 1), (3, 128)];

/// Puts a fault into rows of some width, most often: into their length, a field of one of
/// them, or any bit.
pub fn damage_rows(
    generator: &mut Generator,
    rows: &mut Vec<u8>,
    width: usize,
    faults: &[(usize, u8)],
) {
    let length = rows.len();
    match generator.below(8) {
        0 => rows.truncate(length.saturating_sub(1 + generator.below(13) as usize)),
        1 => rows.resize(length + 1 + generator.below(13) as usize, 0),
        2 | 3 if length > 0 => put_fault(generator, rows, width, faults),
        4 | 5 if length > 0 => {
            let at = generator.below(length as u32) as usize;
            rows[at] ^= 1 << generator.below(8);
        }
        _ => {}
    }
}

/// Puts a fault into a field of one of the rows, of which there is at least one.
fn put_fault(generator: &mut Generator, rows: &mut [u8], width: usize, faults: &[(usize, u8)]) {
    let row = generator.below((rows.len() / width) as u32) as usize;
    let (field, value) = generator.choose(faults);
    rows[width * row + field] = value;
}

/// Puts one fault into one of the bodies.
fn damage_body(generator: &mut Generator, bodies: &mut [Vec<u8>; 7]) {
    let body = generator.choose(&[0, 1, 2, 2, 3, 3, 4, 4, 5, 5, 6, 6]);
    let length = bodies[body].len();
    match generator.below(8) {
        0 => {
            let longer = length + generator.choose(&[1, 2, 4, 11, 14]);
            bodies[body].resize(longer, 0);
        }
        1 => bodies[body].truncate(length.saturating_sub(generator.choose(&[1, 2, 4, 11, 14]))),
        2 | 3 if length > 0 => {
            let at = generator.below(length as u32) as usize;
            bodies[body][at] = generator.choose(&[0, 1, 2, 3, 64, 199, 200, 255]);
        }
        4 if bodies[0].len() >= MARK_BYTES => {
            put_fault(generator, &mut bodies[0], MARK_BYTES, &FAULTS_OF_A_MARK);
        }
        5 if bodies[4].len() >= POPUP_BYTES => {
            put_fault(generator, &mut bodies[4], POPUP_BYTES, &FAULTS_OF_A_POPUP);
        }
        _ => damage_tree(generator, &mut bodies[2]),
    }
}

/// Exchanges two numbers of a tree, or writes one over another.
fn damage_tree(generator: &mut Generator, body: &mut [u8]) {
    let mut tree = tree::read_tree(body);
    if tree.is_empty() {
        return;
    }
    let n = tree.len() as u32;
    let (a, b) = (generator.below(n) as usize, generator.below(n) as usize);
    match generator.below(4) {
        0 => tree[a] = tree[b],
        1 => tree[a] = generator.choose(&[n as u16, 65_535, tree[a] ^ 256]),
        _ => tree.swap(a, b),
    }
    body[..2 * tree.len()].copy_from_slice(&tree::write_tree(&tree));
}

/// A sheet with none, one or a few faults anywhere.
pub fn some_sheet(generator: &mut Generator) -> Vec<u8> {
    let mut sheet = SomeBodies::draw(generator).sheet();
    match generator.below(12) {
        0 => sheet.truncate(generator.below(sheet.len() as u32) as usize),
        1 => sheet.extend(vec![0; 1 + generator.below(20) as usize]),
        2 => {
            let at = generator.below(72.min(sheet.len() as u32)) as usize;
            let near = [0, 1, 2, 3, 4, 5, 6, 7, 8, 12, 22, 32, 42, 52, 62, 72, 255];
            sheet[at] = generator.choose(&near);
        }
        3 => {
            let at = generator.below(sheet.len() as u32) as usize;
            sheet[at] ^= 1 << generator.below(8);
        }
        _ => {}
    }
    sheet
}
