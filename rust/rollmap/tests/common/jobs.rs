//! What the tests of several jobs see in the same way.

use oracle::fraction::Removal;
use oracle::mark::{read_marks, Mark};
use oracle::record::{read_records, Record};
use oracle::reel::Reel;
use oracle::rules::keep_both;
use oracle::sample::P1;
use oracle::sheet::split;
use rollmap::{Code, Refusal, View, Work, Zoom, MARK_BYTES, NO_POPUP};

use super::views::{assert_view, OUTSIDE};
use super::{
    add, bound, longest, named_parts, number, schedule_in, take_out, write_in, Beyond, Expected,
    Lent, Written,
};

/// The number of the first question that is answered with no, or 0 where none is: the
/// questions are in turn, each with whether its answer is no.
pub fn first_no(questions: &[(u32, bool)]) -> u32 {
    let refused = questions.iter().find(|(_, no)| *no);
    refused.map_or(0, |&(number, _)| number)
}

/// The number of a sheet, once both are seen to give it.
pub fn check(sheet: &[u8]) -> u32 {
    let number = number(&rollmap::check(sheet));
    assert_eq!(number, oracle::sheet::check(sheet), "{sheet:02x?}");
    number
}

/// Sees that a call with buffers of its own made of a sheet what the oracle says. Answers the
/// number.
pub fn assert_made(sheet: &[u8], made: Result<Vec<u8>, Refusal>, expected: &Expected) -> u32 {
    let number = number(&made);
    let made = made.map_err(|_| number);
    assert_eq!(made, *expected, "{sheet:02x?}");
    number
}

/// The records of an accepted sheet that has part 2.
pub fn records(sheet: &[u8]) -> Vec<Record> {
    read_records(rollmap::part(sheet, Code::Schedule).unwrap())
}

/// The numbers of the marks of priority p and above.
pub fn important(marks: &[Mark], p: u16) -> Vec<usize> {
    let numbered = marks.iter().enumerate();
    let important = numbered.filter(|(_, mark)| mark.priority >= p);
    important.map(|(m, _)| m).collect()
}

/// The records of the marks of priority p and above of an accepted sheet that has part 2, with
/// eliminators counted among them.
pub fn records_among(sheet: &[u8], p: u16) -> Vec<Record> {
    let marks = read_marks(rollmap::part(sheet, Code::Marks).unwrap());
    let (numbers, records) = (important(&marks, p), records(sheet));
    let counted = |&m: &usize| match records[m] {
        Record::NEVER => Record::NEVER,
        Record { eliminator, value } => {
            let own = |&number: &usize| number == usize::from(eliminator);
            let own = numbers.iter().position(own);
            Record::removed(own.expect("whoever removes one is one"), value)
        }
    };
    numbers.iter().map(counted).collect()
}

/// Sees that a list of removal values keeps both rules exactly where it is ours, and answers
/// whether it is.
pub fn is_ours_if_kept(reel: Reel, ours: &[Removal], list: &[Removal]) -> bool {
    let mut pairs = ours.iter().zip(list);
    let same = pairs.all(|(own, other)| own.equals(*other));
    assert_eq!(keep_both(reel, list).is_ok(), same, "{reel:?} {list:?}");
    same
}

/// Sees that a record by which one of these marks removes another, where their pair value
/// has it, is taken exactly where it outranks the other.
pub fn every_eliminator(beyond: &Beyond, marks: &[Mark]) {
    let (n, reel) = (marks.len(), beyond.reel(marks));
    for (m, other) in (0..n).flat_map(|m| (0..n).map(move |other| (m, other))) {
        let mut records = vec![Record::NEVER; n];
        records[m] = Record::removed(other, reel.pair_value(m, other));
        let number = check(&beyond.with_records(marks, &records));
        let expected = if reel.outranks(other, m) { 0 } else { 8 };
        assert_eq!(number, expected, "{reel:?} {m} {other}");
    }
}

// ---- rows

/// A way to turn some bytes in a buffer of so many, with a seed, compared with the oracle's.
/// Answers the number.
pub type Way = fn(&[u8], usize, u64) -> u32;

/// Turns the first of these bytes, however many, in buffers of every length up to 70, which is
/// more than all of them need, and sees that 4 asks for whole rows and then 13 for room. The
/// widths are those of a row as it is given and as it is written.
pub fn every_length(way: Way, given: &[u8], [width, written]: [usize; 2]) {
    for length in 0..=given.len() {
        for room in 0..=70 {
            let expected = first_no(&[
                (4, !length.is_multiple_of(width)),
                (13, room < length / width * written),
            ]);
            let seed = (71 * length + room) as u64;
            assert_eq!(way(&given[..length], room, seed), expected);
        }
    }
}

/// The widths of a mark that is written as a mark, or by columns.
pub const AS_WIDE: [usize; 2] = [MARK_BYTES, MARK_BYTES];

// ---- scheduling

/// Schedules a sheet in buffers of these lengths, and sees that the answer and every byte
/// are as expected. Answers the number.
pub fn schedule(sheet: &[u8], lengths: [usize; 2], expected: Result<&[u8], u32>) -> u32 {
    schedule_in(sheet, lengths, rollmap::schedule, &expected)
}

/// Sees that a call which schedules marks writes this in buffers of these lengths, and that
/// it is refused where either is shorter.
fn just_fits(
    sheet: &[u8],
    [work, out]: [usize; 2],
    call: impl Fn(&[u8], Work<'_>, &mut [u8]) -> Written,
    expected: &[u8],
) {
    assert_eq!(expected.len(), out);
    let short = &Err::<Vec<u8>, _>(13);
    schedule_in(sheet, [work, out], &call, &Ok(expected));
    schedule_in(sheet, [work, out - 1], &call, short);
    schedule_in(sheet, [work - 1, out], &call, short);
}

/// Sees that scheduling this sheet of n marks, which has these parts beyond 3, writes that
/// one, in buffers that are just long enough, and that it is refused in shorter ones.
pub fn is_rescheduled(beyond: &Beyond, n: usize, sheet: &[u8], expected: &[u8]) {
    just_fits(sheet, beyond.lengths(n), rollmap::schedule, expected);
}

/// Sees that scheduling these marks with these parts beyond 3 writes what the order of rank
/// gives, in buffers that are just long enough, and that it is refused in shorter ones.
pub fn becomes_scheduled(beyond: &Beyond, marks: &[Mark]) {
    let (sheet, expected) = (beyond.bare(marks), beyond.scheduled(marks));
    is_rescheduled(beyond, marks.len(), &sheet, &expected);
}

// ---- marks that come and go

/// Adds the last of these marks to the others, and takes mark m out of all, in buffers that
/// are just long enough and in shorter ones: from a sheet that is scheduled, and from one in
/// which nobody goes. All the marks together have these parts beyond 3.
pub fn come_and_go(beyond: &Beyond, all: &[Mark], m: usize) {
    let (&last, others) = all.split_last().expect("there is a mark");
    let n = others.len();
    let never = vec![Record::NEVER; all.len()];
    let earlier = beyond.without(n);
    let (fewer, more) = (earlier.scheduled(others), beyond.scheduled(all));
    for old in [&fewer, &earlier.with_records(others, &never[1..])] {
        let add = add(last, beyond.popup(n));
        just_fits(old, beyond.lengths(all.len()), add, &more);
    }
    let mut left = all.to_vec();
    left.remove(m);
    let rest = beyond.without(m);
    let expected = rest.scheduled(&left);
    for old in [&more, &beyond.with_records(all, &never)] {
        just_fits(old, rest.lengths(n), take_out(m), &expected);
    }
    let back = rollmap::take_out_to_vec(&more, n as u32);
    assert_eq!(back, Ok(fewer));
}

/// Schedules no marks, adds these two and takes the second one out, in buffers of the
/// library's own. Both together have these parts beyond 3. Answers the sheet of both.
pub fn come_in_buffers_of_its_own(beyond: &Beyond, two: &[Mark; 2]) -> Vec<u8> {
    let none = beyond.without(1).without(0);
    let empty = none.scheduled_here(&[]);
    assert_eq!(empty, none.scheduled(&[]));
    let one = rollmap::add_to_vec(&empty, bound(&two[0]), beyond.popup(0)).unwrap();
    let both = rollmap::add_to_vec(&one, bound(&two[1]), beyond.popup(1)).unwrap();
    assert_eq!(both, beyond.scheduled(two));
    assert_eq!(rollmap::take_out_to_vec(&both, 1), Ok(one));
    both
}

// ---- damaged sheets

/// Sees that putting the parts of a sheet together, which questions 1 to 3 take, is refused by
/// this number, in a buffer of any length, and writes nothing.
fn not_put_together(sheet: &[u8], refused: u32) {
    let Ok(bodies) = split(sheet) else {
        return;
    };
    let named = named_parts(&bodies.present());
    for length in [0, sheet.len()] {
        let mut out = Lent::new(length, 3);
        let answer = rollmap::assemble(&named, out.slice());
        out.assert_answered(&answer, &Err::<Vec<u8>, _>(refused));
    }
}

/// Sees that every job refuses a sheet by this number, in buffers of any length and whatever
/// else is asked, and writes nothing.
pub fn refused_by_every_job(sheet: &[u8], refused: u32) {
    assert_eq!(check(sheet), refused);
    assert_eq!(number(&rollmap::judge(sheet)), refused);
    assert_eq!(number(&rollmap::count_to_vec(sheet)), refused);
    let answer = &Err::<Vec<u8>, _>(refused);
    for [work, out] in [[0, 0], longest()] {
        schedule_in(sheet, [work, out], rollmap::schedule, answer);
        for (popup, m) in [(NO_POPUP, 0), (u32::MAX, u32::MAX as usize)] {
            schedule_in(sheet, [work, out], add(P1[0], popup), answer);
            schedule_in(sheet, [work, out], take_out(m), answer);
        }
        write_in(rollmap::count, sheet, out, 1, answer);
    }
    for asked in [View::whole(Zoom::Stop(17)), OUTSIDE] {
        assert_view(sheet, asked, 2, &Err(refused));
    }
    not_put_together(sheet, refused);
    let part = |&code| rollmap::part(sheet, code);
    assert!(Code::ALL.iter().all(|code| part(code).is_none()));
    assert!(rollmap::popups(sheet).is_none());
    assert!(rollmap::counts(sheet).is_none());
    assert!(rollmap::shape(sheet).is_none());
}
