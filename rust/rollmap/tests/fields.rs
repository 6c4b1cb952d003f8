//! Marks, records, editions, popups, counts and shapes by their fields, compared with the
//! oracle's.

mod common;

use common::{
    bound, one_part, our_records, scheduled, three_parts, with_part, with_part_4, with_part_7,
    with_popups, Beyond, SHAPED,
};
use oracle::count::read_counts;
use oracle::fraction::Removal;
use oracle::popup::write_popups;
use oracle::sample::{marks, popups, Layout, Popups, P1};
use rollmap::{
    marks_to_vec, popups_to_vec, Code, Counts, Edition, Group, Mark, Record, Shape, GROUPS,
    NO_POPUP, STOPS,
};

/// A record of the oracle as the bindings have it.
fn bound_record(record: &oracle::record::Record) -> Record {
    match record.removal() {
        Removal::Never => Record::Never,
        Removal::At(value) => Record::Removed {
            eliminator: record.eliminator,
            numerator: value.numerator,
            denominator: value.denominator,
        },
    }
}

#[test]
fn marks_and_records_are_the_oracles() {
    for layout in Layout::ALL {
        for n in [0, 1, 2, 100] {
            let marks = marks(layout, n, 8);
            let records = our_records(&marks);
            let sheet = three_parts(&marks, &records);

            let own = rollmap::marks(&sheet).unwrap();
            assert_eq!(own.len(), n);
            assert!(own.eq(marks.iter().map(bound)));

            let own = rollmap::records(&sheet).unwrap();
            assert_eq!(own.len(), n);
            assert!(own.eq(records.iter().map(bound_record)));
        }
    }
}

#[test]
fn written_marks_are_part_1() {
    for layout in Layout::ALL {
        let sheet = one_part(&marks(layout, 50, 9));
        let own: Vec<Mark> = rollmap::marks(&sheet).unwrap().collect();
        assert_eq!(
            rollmap::part(&sheet, Code::Marks),
            Some(marks_to_vec(&own).as_slice())
        );
    }
}

#[test]
fn a_refused_sheet_has_neither() {
    let sheet = scheduled(&P1);
    let cut = &sheet[..sheet.len() - 1];
    assert!(rollmap::marks(cut).is_none());
    assert!(rollmap::records(cut).is_none());
    assert!(rollmap::marks(&one_part(&P1)).is_some());
    assert!(rollmap::records(&one_part(&P1)).is_none());
}

#[test]
fn a_sheet_goes_by_the_edition_that_part_4_names() {
    for sheet in [one_part(&P1), scheduled(&P1), scheduled(&[])] {
        assert_eq!(rollmap::edition(&sheet), Some(Edition::First));
        for edition in [Edition::First, Edition::Second] {
            let named = with_part_4(&sheet, &edition.to_bytes());
            assert_eq!(rollmap::edition(&named), Some(edition));
        }
        for part_4 in [&[][..], &[0], &[3], &[1, 2]] {
            assert_eq!(rollmap::edition(&with_part_4(&sheet, part_4)), None);
        }
        assert_eq!(rollmap::edition(&sheet[1..]), None);
    }
}

#[test]
fn popups_are_the_oracles() {
    for layout in Layout::ALL {
        for n in [0, 1, 2, 100] {
            let sample = marks(layout, n, 8);
            let drawn = popups(Popups::Any, &sample, 8);
            let beyond = Beyond::popping_up(drawn.clone());
            for sheet in [beyond.bare(&sample), beyond.scheduled(&sample)] {
                let own = rollmap::popups(&sheet).unwrap();
                assert_eq!(own.len(), n);
                assert!(own.eq(drawn.iter().copied()));
                let backwards = rollmap::popups(&sheet).unwrap().rev();
                assert!(backwards.eq(drawn.iter().copied().rev()));
                let part_5 = rollmap::part(&sheet, Code::Popups).unwrap();
                assert_eq!(part_5, popups_to_vec(&drawn));
            }
            assert_eq!(popups_to_vec(&drawn), write_popups(&drawn));
        }
    }
}

#[test]
fn without_part_5_every_mark_is_there_from_the_start() {
    for sheet in [one_part(&P1), scheduled(&P1)] {
        assert!(rollmap::popups(&sheet).unwrap().eq([NO_POPUP; 4]));
        assert_eq!(rollmap::part(&sheet, Code::Popups), None);
        let zeros = with_popups(&sheet, &[0; 4]);
        assert!(rollmap::popups(&zeros).unwrap().eq([NO_POPUP; 4]));
        assert!(rollmap::part(&zeros, Code::Popups).is_some());
    }
    for damaged in [&[][..], &[0; 15], &[0; 17], &[1; 16]] {
        assert!(rollmap::popups(&with_part(&one_part(&P1), 5, damaged)).is_none());
    }
    assert!(rollmap::popups(&one_part(&P1)[1..]).is_none());
    assert_eq!(rollmap::popups(&one_part(&[])).unwrap().len(), 0);
}

#[test]
fn counts_are_the_oracles() {
    for layout in Layout::ALL {
        for n in [0, 1, 2, 100] {
            let sample = marks(layout, n, 8);
            let beyond = Beyond::popping_up(popups(Popups::Any, &sample, 8)).counted();
            for sheet in [beyond.bare(&sample), beyond.scheduled(&sample)] {
                let part_6 = rollmap::part(&sheet, Code::Counts).unwrap();
                let expected = read_counts(part_6);
                let own = rollmap::counts(&sheet).unwrap();
                let of_stop = |stop| Group::ALL.map(|group| own.get(stop, group).unwrap());
                let all: Vec<[u16; GROUPS]> = (0..STOPS as u8).map(of_stop).collect();
                assert_eq!(all.as_flattened(), expected);
                let at = (0..STOPS as u8).map(|stop| own.at(stop).unwrap());
                assert!(at.eq(all));
                assert_eq!(own.to_bytes(), part_6);
                assert_eq!(Counts::from_bytes(own.to_bytes()), own);
            }
        }
    }
}

#[test]
fn a_sheet_without_part_6_has_no_counts() {
    for sheet in [one_part(&P1), scheduled(&P1), scheduled(&[])] {
        assert_eq!(rollmap::counts(&sheet), None);
        for damaged in [&[][..], &[0; 169], &[255; 170], &[0; 171]] {
            assert_eq!(rollmap::counts(&with_part(&sheet, 6, damaged)), None);
        }
    }
    let counted = Beyond::default().counted().scheduled(&P1);
    assert!(rollmap::counts(&counted).is_some());
    assert_eq!(rollmap::counts(&counted[1..]), None);
}

#[test]
fn a_sheet_has_the_shape_that_part_7_names() {
    for sheet in [one_part(&P1), scheduled(&P1), scheduled(&[])] {
        assert_eq!(rollmap::shape(&sheet), Some(Shape::Disk));
        assert_eq!(rollmap::part(&sheet, Code::Shape), None);
        for shape in [Shape::Disk, Shape::Square] {
            let named = with_part_7(&sheet, &shape.to_bytes());
            assert_eq!(rollmap::shape(&named), Some(shape));
            let part_7 = rollmap::part(&named, Code::Shape);
            assert_eq!(part_7, Some(&shape.to_bytes()[..]));
        }
        for part_7 in [&[][..], &[0], &[3], &[1, 2]] {
            assert_eq!(rollmap::shape(&with_part_7(&sheet, part_7)), None);
        }
        assert_eq!(rollmap::shape(&sheet[1..]), None);
    }
    // The bytes are the oracle's.
    for (shape, own) in SHAPED[1..]
        .iter()
        .flatten()
        .zip([Shape::Disk, Shape::Square])
    {
        assert_eq!(shape.write(), own.to_bytes());
    }
}

#[test]
fn groups_are_the_oracles() {
    for kind in 0..=255 {
        let group = oracle::mark::Group::of(kind).map(|group| group as usize);
        assert_eq!(Group::of(kind).map(|group| group as usize), group);
    }
}
