//! What tests and benchmarks are made of: marks and popups made up from a seed, the same
//! ones on every machine, all of which 01 and 02 take; the marks of some of 01's examples,
//! and those with ties in the tree; worked examples of popups, of shapes and of schedules that
//! are judged; sheets that are refused; the schedules that question 8 takes; and what a test
//! tries whole.

use crate::count::part_6;
use crate::fraction::Fraction;
use crate::mark::{touching_value, write_marks, Mark, LARGEST_RADIUS};
use crate::popup::{write_popups, LARGEST_POPUP};
use crate::process::schedule_by_process;
use crate::rank::Edition;
use crate::record::{write_records, Record};
use crate::reel::Reel;
use crate::shape::Shape;
use crate::sheet::{join, join_parts};
use crate::view::Edges;
use crate::zoom::{removal_zoom_in_64ths, zoom_squared};
use crate::Refusal;

/// The marks of P1 (01, 'The printed schedule').
pub const P1: [Mark; 4] = [
    Mark::plain(0, 0, 10, 9),
    Mark::plain(100, 0, 10, 5),
    Mark::plain(200, 0, 10, 5),
    Mark::plain(0, 3, 5, 1),
];

/// The marks of P5: two at one place.
pub const P5: [Mark; 2] = [Mark::plain(7, 7, 1, 5), Mark::plain(7, 7, 1, 5)];

/// The marks of P6: as far apart as there are places.
pub const P6: [Mark; 2] = [
    Mark::plain(i16::MIN, i16::MIN, 1, 0),
    Mark::plain(i16::MAX, i16::MAX, 1, 0),
];

/// Marks with ties in the tree: 1 and 2 go by 0 at one value, 1, 2 and 3 have one x, and 0
/// and 3 stay. By rank they would be broken otherwise: in the second edition 3 ranks
/// higher than 0, and 2 than 1.
pub const TIED_IN_TREE: [Mark; 4] = [
    Mark::plain(0, 0, 30, 5),
    Mark::plain(0, 40, 10, 5),
    Mark::plain(0, 50, 20, 5),
    Mark::plain(0, 60, 40, 5),
];

/// The records of [`TIED_IN_TREE`], which question 8 takes in both editions.
pub const TIED_RECORDS: [Record; 4] = [
    Record::NEVER,
    Record::new(0, 1_600, 1_600),
    Record::new(0, 2_500, 2_500),
    Record::NEVER,
];

/// Marks and their popups, the records that they are scheduled with, and what all places
/// show at some zooms, each in 64ths with the only byte of its map.
#[derive(Clone, Copy, Debug)]
pub struct PopupExample {
    pub marks: &'static [Mark],
    pub popups: &'static [u32],
    pub records: &'static [Record],
    pub shown: &'static [(u32, u8)],
}

/// Worked examples of popups.
pub const POPUP_EXAMPLES: [PopupExample; 11] = [
    // P1 without popups. 0 and 1, as 1 and 2, touch at 64 times zoom 320; 0 and 2 at 640.
    PopupExample {
        marks: &P1,
        popups: &[0; 4],
        records: &[
            Record::NEVER,
            Record::new(0, 10_000, 400),
            Record::new(0, 40_000, 400),
            Record::new(0, 9, 225),
        ],
        shown: &[(1, 0x0f), (12, 0x0f), (13, 0x07), (320, 0x05), (640, 0x01)],
    },
    // 1 would pop up where it goes. Its popup value does not exceed the touching value, of
    // which it keeps the numbers, and it never lives.
    PopupExample {
        marks: &P1,
        popups: &[0, 320, 0, 0],
        records: &[
            Record::NEVER,
            Record::new(0, 10_000, 400),
            Record::new(0, 40_000, 400),
            Record::new(0, 9, 225),
        ],
        shown: &[(1, 0x0d), (319, 0x05), (320, 0x05), (321, 0x05)],
    },
    // One 64th later it goes at its popup. So it does not remove 2 there.
    PopupExample {
        marks: &P1,
        popups: &[0, 321, 0, 0],
        records: &[
            Record::NEVER,
            Record::new(0, 103_041, 4_096),
            Record::new(0, 40_000, 400),
            Record::new(0, 9, 225),
        ],
        shown: &[(1, 0x0d), (320, 0x05), (321, 0x05), (640, 0x01)],
    },
    // One 64th sooner it lives for that long.
    PopupExample {
        marks: &P1,
        popups: &[0, 319, 0, 0],
        records: &[
            Record::NEVER,
            Record::new(0, 10_000, 400),
            Record::new(0, 40_000, 400),
            Record::new(0, 9, 225),
        ],
        shown: &[(318, 0x05), (319, 0x07), (320, 0x05)],
    },
    // 0, which is the root of the index, pops up last of all. Until then 1 ranks highest.
    // With 2 its pair value is their touching value, which equals its popup value; but 2 is
    // gone.
    PopupExample {
        marks: &P1,
        popups: &[640, 0, 0, 0],
        records: &[
            Record::NEVER,
            Record::new(0, 409_600, 4_096),
            Record::new(1, 10_000, 400),
            Record::new(1, 10_009, 225),
        ],
        shown: &[
            (1, 0x0e),
            (319, 0x0e),
            (320, 0x0a),
            (426, 0x0a),
            (427, 0x02),
            (639, 0x02),
            (640, 0x01),
        ],
    },
    // The same at the largest zoom.
    PopupExample {
        marks: &P1,
        popups: &[65_536, 0, 0, 0],
        records: &[
            Record::NEVER,
            Record::new(0, 4_294_967_296, 4_096),
            Record::new(1, 10_000, 400),
            Record::new(1, 10_009, 225),
        ],
        shown: &[(1, 0x0e), (640, 0x02), (65_535, 0x02), (65_536, 0x01)],
    },
    // All pop up at once, and the highest-ranked removes all others there.
    PopupExample {
        marks: &P1,
        popups: &[65_536; 4],
        records: &[
            Record::NEVER,
            Record::new(0, 4_294_967_296, 4_096),
            Record::new(0, 4_294_967_296, 4_096),
            Record::new(0, 4_294_967_296, 4_096),
        ],
        shown: &[(1, 0x00), (65_535, 0x00), (65_536, 0x01)],
    },
    // The larger popup counts, whichever of the two has it: 3 pops up at 64, and 0 at 128.
    PopupExample {
        marks: &P1,
        popups: &[128, 0, 0, 64],
        records: &[
            Record::NEVER,
            Record::new(0, 10_000, 400),
            Record::new(0, 40_000, 400),
            Record::new(0, 16_384, 4_096),
        ],
        shown: &[
            (63, 0x06),
            (64, 0x0e),
            (127, 0x0e),
            (128, 0x07),
            (319, 0x07),
        ],
    },
    // At one place the higher-ranked one pops up, and the other goes.
    PopupExample {
        marks: &P5,
        popups: &[64, 0],
        records: &[Record::NEVER, Record::new(0, 4_096, 4_096)],
        shown: &[(1, 0x02), (63, 0x02), (64, 0x01)],
    },
    // And the lower-ranked one never lives.
    PopupExample {
        marks: &P5,
        popups: &[0, 64],
        records: &[Record::NEVER, Record::new(0, 4_096, 4_096)],
        shown: &[(1, 0x01), (64, 0x01), (65, 0x01)],
    },
    // They touch beyond every popup.
    PopupExample {
        marks: &P6,
        popups: &[65_536, 65_535],
        records: &[Record::NEVER, Record::new(0, 8_589_672_450, 4)],
        shown: &[(65_534, 0x00), (65_535, 0x02), (65_536, 0x03)],
    },
];

/// Marks and their popups, where they have some, the records that they are scheduled with as
/// disks and as squares, and what all places show of them at some zooms, each in 64ths with the
/// only byte of its map as disks and as squares.
#[derive(Clone, Copy, Debug)]
pub struct ShapeExample {
    pub marks: &'static [Mark],
    pub popups: Option<&'static [u32]>,
    pub records: [&'static [Record]; 2],
    pub shown: &'static [(u32, [u8; 2])],
}

/// Two marks that lie 50 apart as disks, and 40 as squares: these touch at 64 times zoom 160
/// and 128.
pub const THREE_FOUR_FIVE: [Mark; 2] = [Mark::plain(0, 0, 10, 9), Mark::plain(30, 40, 10, 5)];

/// Marks of which 1 touches 2 at 4225/400, along x, and 0 at 7200/400 as a disk and at
/// 3600/400 as a square.
pub const DIAGONAL: [Mark; 3] = [
    Mark::plain(0, 0, 10, 9),
    Mark::plain(60, 60, 10, 5),
    Mark::plain(125, 60, 10, 1),
];

/// Marks of which 0, the lowest-ranked, is 40 from both others as a square.
pub const TIED_AS_SQUARES: [Mark; 3] = [
    Mark::plain(0, 0, 10, 0),
    Mark::plain(40, 10, 10, 5),
    Mark::plain(-40, 40, 10, 7),
];

/// Worked examples of shapes.
pub const SHAPE_EXAMPLES: [ShapeExample; 8] = [
    // Along an axis both shapes are the same.
    ShapeExample {
        marks: &[P1[0], P1[1], P1[2]],
        popups: None,
        records: [&[
            Record::NEVER,
            Record::new(0, 10_000, 400),
            Record::new(0, 40_000, 400),
        ]; 2],
        shown: &[(319, [0x07; 2]), (320, [0x05; 2]), (640, [0x01; 2])],
    },
    ShapeExample {
        marks: &THREE_FOUR_FIVE,
        popups: None,
        records: [
            &[Record::NEVER, Record::new(0, 2_500, 400)],
            &[Record::NEVER, Record::new(0, 1_600, 400)],
        ],
        shown: &[
            (127, [0x03, 0x03]),
            (128, [0x03, 0x01]),
            (159, [0x03, 0x01]),
            (160, [0x01, 0x01]),
        ],
    },
    // As disks 2 goes first, by 1, and as squares 1, which then does not remove 2.
    ShapeExample {
        marks: &DIAGONAL,
        popups: None,
        records: [
            &[
                Record::NEVER,
                Record::new(0, 7_200, 400),
                Record::new(1, 4_225, 400),
            ],
            &[
                Record::NEVER,
                Record::new(0, 3_600, 400),
                Record::new(0, 15_625, 400),
            ],
        ],
        shown: &[
            (191, [0x07, 0x07]),
            (192, [0x07, 0x05]),
            (207, [0x07, 0x05]),
            (208, [0x03, 0x05]),
            (271, [0x03, 0x05]),
            (272, [0x01, 0x05]),
            (399, [0x01, 0x05]),
            (400, [0x01, 0x01]),
        ],
    },
    // As squares 0 has one value with both others, and goes by the highest-ranked.
    ShapeExample {
        marks: &TIED_AS_SQUARES,
        popups: None,
        records: [
            &[
                Record::new(1, 1_700, 400),
                Record::new(2, 7_300, 400),
                Record::NEVER,
            ],
            &[
                Record::new(2, 1_600, 400),
                Record::new(2, 6_400, 400),
                Record::NEVER,
            ],
        ],
        shown: &[
            (127, [0x07, 0x07]),
            (128, [0x07, 0x06]),
            (131, [0x07, 0x06]),
            (132, [0x06, 0x06]),
            (255, [0x06, 0x06]),
            (256, [0x06, 0x04]),
        ],
    },
    // A popup where the squares touch is kept by neither.
    ShapeExample {
        marks: &THREE_FOUR_FIVE,
        popups: Some(&[0, 128]),
        records: [
            &[Record::NEVER, Record::new(0, 2_500, 400)],
            &[Record::NEVER, Record::new(0, 1_600, 400)],
        ],
        shown: &[
            (127, [0x01, 0x01]),
            (128, [0x03, 0x01]),
            (160, [0x01, 0x01]),
        ],
    },
    // One after that, up to where the disks touch, is kept by the squares.
    ShapeExample {
        marks: &THREE_FOUR_FIVE,
        popups: Some(&[150, 0]),
        records: [
            &[Record::NEVER, Record::new(0, 2_500, 400)],
            &[Record::NEVER, Record::new(0, 22_500, 4_096)],
        ],
        shown: &[
            (1, [0x02, 0x02]),
            (149, [0x02, 0x02]),
            (150, [0x03, 0x01]),
            (160, [0x01, 0x01]),
        ],
    },
    // Two at one place, and two as far apart as there are places.
    ShapeExample {
        marks: &P5,
        popups: None,
        records: [&[Record::NEVER, Record::new(0, 0, 4)]; 2],
        shown: &[(1, [0x01; 2])],
    },
    ShapeExample {
        marks: &P6,
        popups: None,
        records: [
            &[Record::NEVER, Record::new(0, 8_589_672_450, 4)],
            &[Record::NEVER, Record::new(0, 4_294_836_225, 4)],
        ],
        shown: &[(65_536, [0x03; 2])],
    },
];

/// Rectangles, each with 64 times a zoom, and whether the label of radius 10 at (0, 0) reaches
/// it as a disk and as a square. At 320 both reach 50 along x and along y.
pub const REACH_EXAMPLES: [(Edges, u32, [bool; 2]); 14] = [
    (beyond(50, 0), 320, [true, true]),
    (beyond(51, 0), 320, [false, false]),
    (beyond(0, 50), 320, [true, true]),
    (beyond(0, 51), 320, [false, false]),
    // 30, 40 and 50 are the sides of a right triangle.
    (beyond(30, 40), 320, [true, true]),
    (beyond(30, 40), 319, [false, true]),
    (beyond(31, 40), 320, [false, true]),
    (beyond(30, 41), 320, [false, true]),
    (beyond(30, 40), 256, [false, true]),
    (beyond(30, 40), 255, [false, false]),
    // The corner of the square is the last place that it reaches.
    (beyond(50, 50), 320, [false, true]),
    (beyond(51, 50), 320, [false, false]),
    (beyond(50, 51), 320, [false, false]),
    (beyond(50, 50), 319, [false, false]),
];

/// The rectangle of all places from there on.
const fn beyond(x0: i32, y0: i32) -> Edges {
    Edges {
        x0,
        y0,
        ..Edges::WHOLE
    }
}

/// Marks with what else decides their schedule, records of them that question 8 takes, and
/// whether the judge accepts these (02, request 10).
#[derive(Clone, Copy, Debug)]
pub struct JudgedExample {
    pub edition: Edition,
    pub marks: &'static [Mark],
    pub popups: Option<&'static [u32]>,
    pub shape: Shape,
    pub records: &'static [Record],
    pub accepted: bool,
}

impl JudgedExample {
    /// Records of the first edition without popups, of disks, that are accepted.
    const fn ours(marks: &'static [Mark], records: &'static [Record]) -> Self {
        Self {
            edition: Edition::First,
            marks,
            popups: None,
            shape: Shape::Disk,
            records,
            accepted: true,
        }
    }

    /// Such records that are not accepted.
    const fn foreign(marks: &'static [Mark], records: &'static [Record]) -> Self {
        Self {
            accepted: false,
            ..Self::ours(marks, records)
        }
    }

    /// The same by the second edition.
    const fn by_the_second(self) -> Self {
        Self {
            edition: Edition::Second,
            ..self
        }
    }

    /// The same with popups.
    const fn with_popups(self, popups: &'static [u32]) -> Self {
        Self {
            popups: Some(popups),
            ..self
        }
    }

    /// The same of squares.
    const fn of_squares(self) -> Self {
        Self {
            shape: Shape::Square,
            ..self
        }
    }

    /// What decides the schedule of the marks.
    pub fn reel(&self) -> Reel<'static> {
        Reel {
            marks: self.marks,
            edition: self.edition,
            popups: self.popups,
            shape: self.shape,
        }
    }
}

/// Marks of which 1 and 2 would be removed together by 0 if they did not touch each other
/// before.
pub const TOGETHER: [Mark; 3] = [
    Mark::plain(0, 0, 1, 9),
    Mark::plain(50, 0, 1, 5),
    Mark::plain(48, 14, 1, 4),
];

/// Marks of which 0, the lowest-ranked, has one touching value with both others, by other
/// numbers: 16/4 and 64/16. These touch later, at 144/16.
const EQUAL_VALUES: [Mark; 3] = [
    Mark::plain(0, 0, 1, 0),
    Mark::plain(-4, 0, 1, 5),
    Mark::plain(8, 0, 3, 7),
];

/// The same with one priority for both others, of which the second has the larger radius; and
/// a mark that removes both before they touch.
const EQUAL_PRIORITIES: [Mark; 4] = [
    EQUAL_VALUES[0],
    EQUAL_VALUES[1],
    Mark::plain(8, 0, 3, 5),
    Mark::plain(-2, 5, 1, 9),
];

/// Their records where 0 goes by 1, the lower number.
const BY_THE_LOWER_NUMBER: [Record; 4] = [
    Record::new(1, 16, 4),
    Record::new(3, 29, 4),
    Record::new(3, 125, 16),
    Record::NEVER,
];

/// And where it goes by 2, the larger label.
const BY_THE_LARGER_LABEL: [Record; 4] = [
    Record::new(2, 64, 16),
    Record::new(3, 29, 4),
    Record::new(3, 125, 16),
    Record::NEVER,
];

/// Marks on a line. Neighbours touch at 400/400, where the second one goes.
const FOUR_IN_LINE: [Mark; 4] = [
    Mark::plain(0, 0, 10, 9),
    Mark::plain(20, 0, 10, 7),
    Mark::plain(40, 0, 10, 5),
    Mark::plain(60, 0, 10, 6),
];

/// Marks of which 0, the lowest-ranked, touches both others at 22500/400, and these each
/// other at 90000/400.
const FAR_APART: [Mark; 3] = [
    Mark::plain(0, 0, 10, 0),
    Mark::plain(-150, 0, 10, 5),
    Mark::plain(150, 0, 10, 7),
];

/// The same with the second one nearer: 0 touches it at 10000/400, and it touches the third at
/// 62500/400.
const ONE_NEARER: [Mark; 3] = [FAR_APART[0], Mark::plain(-100, 0, 10, 5), FAR_APART[2]];

/// Worked examples of schedules that are judged.
pub const JUDGED_EXAMPLES: [JudgedExample; 33] = [
    // No marks, and one.
    JudgedExample::ours(&[], &[]),
    JudgedExample::ours(&[P1[0]], &[Record::NEVER]),
    // P1 as it is scheduled, and without removing 3, or anybody.
    JudgedExample::ours(&P1, POPUP_EXAMPLES[0].records),
    JudgedExample::foreign(
        &P1,
        &[
            Record::NEVER,
            Record::new(0, 10_000, 400),
            Record::new(0, 40_000, 400),
            Record::NEVER,
        ],
    ),
    JudgedExample::foreign(&P1, &[Record::NEVER; 4]),
    // 1 stays, and 2 goes by it where 1 should.
    JudgedExample::foreign(
        &P1,
        &[
            Record::NEVER,
            Record::NEVER,
            Record::new(1, 10_000, 400),
            Record::new(0, 9, 225),
        ],
    ),
    // Two at one place: one of them goes at 0.
    JudgedExample::ours(&P5, &[Record::NEVER, Record::new(0, 0, 4)]),
    JudgedExample::foreign(&P5, &[Record::NEVER; 2]),
    // Two as far apart as there are places touch, too.
    JudgedExample::ours(&P6, &[Record::NEVER, Record::new(0, 8_589_672_450, 4)]),
    JudgedExample::foreign(&P6, &[Record::NEVER; 2]),
    // 2 goes by 1, before 1 goes. Not together with it: then both would outlive their value.
    JudgedExample::ours(
        &TOGETHER,
        &[
            Record::NEVER,
            Record::new(0, 2_500, 4),
            Record::new(1, 200, 4),
        ],
    ),
    JudgedExample::foreign(
        &TOGETHER,
        &[
            Record::NEVER,
            Record::new(0, 2_500, 4),
            Record::new(0, 2_500, 4),
        ],
    ),
    // Of equal values, however they are written, the highest-ranked mark is named.
    JudgedExample::ours(
        &EQUAL_VALUES,
        &[
            Record::new(2, 64, 16),
            Record::new(2, 144, 16),
            Record::NEVER,
        ],
    ),
    JudgedExample::foreign(
        &EQUAL_VALUES,
        &[
            Record::new(1, 16, 4),
            Record::new(2, 144, 16),
            Record::NEVER,
        ],
    ),
    // Of equal priorities that is the lower number, and in the second edition the larger
    // label.
    JudgedExample::ours(&EQUAL_PRIORITIES, &BY_THE_LOWER_NUMBER),
    JudgedExample::foreign(&EQUAL_PRIORITIES, &BY_THE_LARGER_LABEL),
    JudgedExample::ours(&EQUAL_PRIORITIES, &BY_THE_LARGER_LABEL).by_the_second(),
    JudgedExample::foreign(&EQUAL_PRIORITIES, &BY_THE_LOWER_NUMBER).by_the_second(),
    // 1 outranks 3 and has the same value with 2, but goes there itself.
    JudgedExample::ours(
        &FOUR_IN_LINE,
        &[
            Record::NEVER,
            Record::new(0, 400, 400),
            Record::new(3, 400, 400),
            Record::new(0, 3_600, 400),
        ],
    ),
    // Where 1 stays, 2 would have to name it.
    JudgedExample::foreign(
        &FOUR_IN_LINE,
        &[
            Record::NEVER,
            Record::NEVER,
            Record::new(3, 400, 400),
            Record::new(0, 3_600, 400),
        ],
    ),
    // All pop up at once, and the highest-ranked removes all others there.
    JudgedExample::ours(&P1, POPUP_EXAMPLES[6].records).with_popups(POPUP_EXAMPLES[6].popups),
    JudgedExample::foreign(&P1, &[Record::NEVER; 4]).with_popups(POPUP_EXAMPLES[6].popups),
    // 0 pops up after it would touch both others, with which it has one value then.
    JudgedExample::ours(
        &FAR_APART,
        &[
            Record::new(2, 409_600, 4_096),
            Record::new(2, 90_000, 400),
            Record::NEVER,
        ],
    )
    .with_popups(&[640, 0, 0]),
    JudgedExample::foreign(
        &FAR_APART,
        &[
            Record::new(1, 409_600, 4_096),
            Record::new(2, 90_000, 400),
            Record::NEVER,
        ],
    )
    .with_popups(&[640, 0, 0]),
    // A popup value ties with a touching value that equals it: 22500/400 is 480²/4096.
    JudgedExample::ours(
        &ONE_NEARER,
        &[
            Record::new(2, 22_500, 400),
            Record::new(2, 62_500, 400),
            Record::NEVER,
        ],
    )
    .with_popups(&[0, 480, 0]),
    JudgedExample::foreign(
        &ONE_NEARER,
        &[
            Record::new(1, 230_400, 4_096),
            Record::new(2, 62_500, 400),
            Record::NEVER,
        ],
    )
    .with_popups(&[0, 480, 0]),
    // As squares 1 goes before it touches 2, and as disks after.
    JudgedExample::ours(&DIAGONAL, SHAPE_EXAMPLES[2].records[0]),
    JudgedExample::ours(&DIAGONAL, SHAPE_EXAMPLES[2].records[1]).of_squares(),
    JudgedExample::foreign(
        &DIAGONAL,
        &[Record::NEVER, Record::NEVER, Record::new(1, 4_225, 400)],
    )
    .of_squares(),
    // As squares 0 ties with both others, and names the highest-ranked.
    JudgedExample::ours(&TIED_AS_SQUARES, SHAPE_EXAMPLES[3].records[1]).of_squares(),
    JudgedExample::foreign(
        &TIED_AS_SQUARES,
        &[
            Record::new(1, 1_600, 400),
            Record::new(2, 6_400, 400),
            Record::NEVER,
        ],
    )
    .of_squares(),
    // A popup is held against the touching value of the squares.
    JudgedExample::ours(&THREE_FOUR_FIVE, SHAPE_EXAMPLES[5].records[1])
        .with_popups(&[150, 0])
        .of_squares(),
    JudgedExample::foreign(&THREE_FOUR_FIVE, &[Record::NEVER; 2])
        .with_popups(&[150, 0])
        .of_squares(),
];

/// The lists of codes that question 2 takes (01, and 02, requests 6, 9, 12 and 13).
pub const CODES_TAKEN: [&[u16]; 40] = [
    &[1],
    &[1, 2],
    &[1, 4],
    &[1, 5],
    &[1, 7],
    &[1, 2, 3],
    &[1, 2, 4],
    &[1, 2, 5],
    &[1, 2, 6],
    &[1, 2, 7],
    &[1, 4, 5],
    &[1, 4, 7],
    &[1, 5, 7],
    &[1, 2, 3, 4],
    &[1, 2, 3, 5],
    &[1, 2, 3, 6],
    &[1, 2, 3, 7],
    &[1, 2, 4, 5],
    &[1, 2, 4, 6],
    &[1, 2, 4, 7],
    &[1, 2, 5, 6],
    &[1, 2, 5, 7],
    &[1, 2, 6, 7],
    &[1, 4, 5, 7],
    &[1, 2, 3, 4, 5],
    &[1, 2, 3, 4, 6],
    &[1, 2, 3, 4, 7],
    &[1, 2, 3, 5, 6],
    &[1, 2, 3, 5, 7],
    &[1, 2, 3, 6, 7],
    &[1, 2, 4, 5, 6],
    &[1, 2, 4, 5, 7],
    &[1, 2, 4, 6, 7],
    &[1, 2, 5, 6, 7],
    &[1, 2, 3, 4, 5, 6],
    &[1, 2, 3, 4, 5, 7],
    &[1, 2, 3, 4, 6, 7],
    &[1, 2, 3, 5, 6, 7],
    &[1, 2, 4, 5, 6, 7],
    &[1, 2, 3, 4, 5, 6, 7],
];

/// A small generator of numbers (shifts and exclusive ors of one 64-bit word).
#[derive(Clone, Debug)]
pub struct Generator {
    state: u64,
}

impl Generator {
    /// The generator of a seed.
    pub fn new(seed: u64) -> Self {
        // An odd factor spreads small seeds over the word, which must not be 0.
        let spread = seed.wrapping_add(1).wrapping_mul(0x9e37_79b9_7f4a_7c15);
        Self {
            state: spread.max(1),
        }
    }

    /// The next 64 bits.
    pub fn draw(&mut self) -> u64 {
        self.state ^= self.state << 13;
        self.state ^= self.state >> 7;
        self.state ^= self.state << 17;
        self.state
    }

    /// A number from 0 to `bound` - 1; the bound is above 0.
    pub fn below(&mut self, bound: u32) -> u32 {
        ((self.draw() >> 32) % u64::from(bound)) as u32
    }

    /// A number from `low` to `high`, both included.
    pub fn between(&mut self, low: i16, high: i16) -> i16 {
        let choices = i32::from(high) - i32::from(low) + 1;
        let offset = self.below(choices.unsigned_abs()) as i32;
        (i32::from(low) + offset) as i16
    }

    /// One of some choices, of which there is at least one.
    pub fn choose<T: Copy>(&mut self, choices: &[T]) -> T {
        choices[self.below(choices.len() as u32) as usize]
    }
}

/// How the marks of a sample lie.
#[derive(Clone, Copy, Debug, PartialEq, Eq)]
pub enum Layout {
    /// Anywhere, with all kinds and priorities.
    Uniform,
    /// Around a few places.
    Clustered,
    /// Anywhere on a reel: the whole range of x, and 6,000 places of y.
    Reel,
    /// On one horizontal line.
    Line,
    /// All at one place.
    OnePlace,
    /// On the points of a small grid with few radii and priorities: full of ties.
    Grid,
    /// Anywhere, with the largest radius or nearly so.
    HugeRadius,
    /// Anywhere, one in a hundred with the largest radius.
    FewHuge,
    /// At the ends and the middle of the range of places, with extreme radii.
    Extreme,
    /// Within 10 units of the middle: many at each place.
    Within10,
    /// Anywhere, all with the house radii of their kinds.
    HouseRadii,
    /// Anywhere, with radii from 1 to the largest, of which each power of two is as likely as
    /// the next.
    LogRadii,
}

impl Layout {
    /// Every layout.
    pub const ALL: [Self; 12] = [
        Self::Uniform,
        Self::Clustered,
        Self::Reel,
        Self::Line,
        Self::OnePlace,
        Self::Grid,
        Self::HugeRadius,
        Self::FewHuge,
        Self::Extreme,
        Self::Within10,
        Self::HouseRadii,
        Self::LogRadii,
    ];
}

/// The n marks of a layout and a seed.
pub fn marks(layout: Layout, n: usize, seed: u64) -> Vec<Mark> {
    let mut generator = Generator::new(seed);
    let sites = sites(&mut generator, n);
    let marks = (0..n).map(|_| mark(&mut generator, layout, &sites, n));
    marks.collect()
}

/// How the marks of a sample pop up.
#[derive(Clone, Copy, Debug, PartialEq, Eq)]
pub enum Popups {
    /// All are there from the start.
    Zero,
    /// All before zoom 1.
    Early,
    /// One in four at any zoom, the others from the start.
    Few,
    /// Each at any zoom, of which small ones are as many as large ones.
    Any,
    /// All from zoom 256 on.
    Late,
    /// Each where it would first touch some other mark, to the nearest 64th, or one 64th
    /// before or after that: many popup values equal the touching value, or nearly so.
    Touching,
    /// At two zooms, so that many pop up together.
    Together,
    /// At the ends of the range.
    Ends,
}

impl Popups {
    /// Every way to pop up.
    pub const ALL: [Self; 8] = [
        Self::Zero,
        Self::Early,
        Self::Few,
        Self::Any,
        Self::Late,
        Self::Touching,
        Self::Together,
        Self::Ends,
    ];
}

/// The popups of some marks by a seed.
pub fn popups(how: Popups, marks: &[Mark], seed: u64) -> Vec<u32> {
    let mut generator = Generator::new(seed);
    let two = [(); 2].map(|()| any_popup(&mut generator));
    let mut popup = |mark: &Mark| match how {
        Popups::Zero => 0,
        Popups::Early => generator.below(64),
        Popups::Few if generator.below(4) > 0 => 0,
        Popups::Few | Popups::Any => any_popup(&mut generator),
        Popups::Late => LARGEST_POPUP - generator.below(49_153),
        Popups::Touching => popup_about(&mut generator, mark, marks),
        Popups::Together => generator.choose(&two),
        Popups::Ends => generator.choose(&[0, 1, LARGEST_POPUP - 1, LARGEST_POPUP]),
    };
    marks.iter().map(&mut popup).collect()
}

/// A popup from the whole range; each power of two is as likely as the next.
fn any_popup(generator: &mut Generator) -> u32 {
    generator.below(LARGEST_POPUP + 1) >> generator.below(17)
}

/// A popup about the zoom at which a mark touches one of some others as a disk; of a few that
/// are tried, one elsewhere, which it touches at a whole 64th, if there is such a one: along an
/// axis it touches that as a square, too.
fn popup_about(generator: &mut Generator, mark: &Mark, others: &[Mark]) -> u32 {
    let touching = |other| touching_value(Shape::Disk, mark, &other);
    let tried = [(); 8].map(|()| touching(generator.choose(others)));
    let nearest = |value| removal_zoom_in_64ths(value) as u32;
    let exact = |value: &Fraction| value.compare(zoom_squared(nearest(*value))).is_eq();
    let mut elsewhere = tried.into_iter().filter(|value| value.numerator > 0);
    let found = elsewhere.clone().find(exact).or(elsewhere.next());
    let moved = nearest(found.unwrap_or(tried[0])) + generator.choose(&[0, 1, 1, 1, 2]);
    moved.saturating_sub(1).min(LARGEST_POPUP)
}

/// Marks on four points with two radii and two priorities, whose sheets are full of
/// ties.
pub fn small_choice() -> Vec<Mark> {
    let mut choice = Vec::new();
    for place in 0..4 {
        for (radius, priority) in [(1, 0), (1, 1), (2, 0), (2, 1)] {
            choice.push(Mark::plain(place % 2, place / 2, radius, priority));
        }
    }
    choice
}

/// A sheet whose contents have these entries (code, offset, length), with this body
/// after them.
pub fn raw_sheet(entries: &[(u16, u32, u32)], body: &[u8]) -> Vec<u8> {
    let mut sheet = (entries.len() as u16).to_le_bytes().to_vec();
    for (code, offset, length) in entries {
        sheet.extend(code.to_le_bytes());
        sheet.extend(offset.to_le_bytes());
        sheet.extend(length.to_le_bytes());
    }
    sheet.extend(body);
    sheet
}

/// Sheets that questions 1 to 10, 19, 21, 24 and 23 refuse, each with the number of the first
/// that does. The next one in turn would refuse it, too; but a sheet that 9 is asked of has
/// the parts that 10 asks for, so that 8 and 23 stand with and without part 3.
pub fn refused_sheets() -> Vec<(Refusal, Vec<u8>)> {
    let large = Mark::plain(0, 0, LARGEST_RADIUS + 1, 0);
    let both = write_marks(&[Mark { kind: 200, ..large }]);
    let longer = [both.as_slice(), &[0]].concat();
    let reel = Edition::First.reel(&P1);
    let records = schedule_by_process(reel);
    let (part_1, part_2) = (write_marks(&P1), write_records(&records));
    let (no_records, no_tree) = (vec![0; part_2.len()], [0; 8]);
    let part_5 = write_popups(&[0; 4]);
    let beyond = write_popups(&[0, LARGEST_POPUP, LARGEST_POPUP + 1, 0]);
    let part_6 = part_6(reel, &records);
    let mut other = part_6.clone();
    other[169] = 1;
    let index = [0, 0, 1, 0, 3, 0, 2, 0];
    vec![
        (1, raw_sheet(&[(9, 0, 0); 8], &[])),
        (2, raw_sheet(&[(2, 0, 5)], &[])),
        (2, raw_sheet(&[(1, 22, 5), (6, 0, 5)], &[])),
        (2, raw_sheet(&[(1, 22, 5), (8, 0, 5)], &[])),
        (3, raw_sheet(&[(1, 12, 12)], &[0; 13])),
        (4, join(&[&longer])),
        (5, join(&[&both])),
        (6, join(&[&write_marks(&[large]), &[0; 3]])),
        (7, join(&[&part_1, &no_records, &[], &[3]])),
        (7, join_parts(&[(1, &part_1), (2, &[]), (4, &[])])),
        (7, join_parts(&[(1, &part_1), (2, &[]), (5, &[])])),
        (7, join_parts(&[(1, &part_1), (2, &[]), (7, &[])])),
        (19, join(&[&part_1, &no_records, &no_tree, &[0]])),
        (19, join(&[&part_1, &no_records, &no_tree, &[0], &beyond])),
        (
            19,
            join_parts(&[(1, &part_1), (2, &no_records), (4, &[1, 1])]),
        ),
        (19, join_parts(&[(1, &part_1), (4, &[])])),
        (19, join_parts(&[(1, &part_1), (4, &[3]), (5, &[])])),
        (19, join_parts(&[(1, &part_1), (4, &[3]), (7, &[3])])),
        (21, join(&[&part_1, &no_records, &no_tree, &[2], &beyond])),
        (
            21,
            join_parts(&[(1, &part_1), (2, &no_records), (5, &part_5[1..])]),
        ),
        (21, join_parts(&[(1, &part_1), (5, &beyond)])),
        (21, join_parts(&[(1, &part_1), (4, &[1]), (5, &[])])),
        (21, join_parts(&[(1, &[]), (5, &part_5)])),
        (21, join_parts(&[(1, &part_1), (5, &beyond), (7, &[0])])),
        (
            24,
            join(&[&part_1, &no_records, &no_tree, &[2], &part_5, &other, &[0]]),
        ),
        (
            24,
            join_parts(&[(1, &part_1), (2, &no_records), (7, &[2, 2])]),
        ),
        (24, join_parts(&[(1, &part_1), (7, &[3])])),
        (24, join_parts(&[(1, &part_1), (4, &[1]), (7, &[])])),
        (24, join_parts(&[(1, &[]), (5, &[]), (7, &[255])])),
        (8, join(&[&part_1, &no_records, &no_tree, &[2], &part_5])),
        (8, join(&[&part_1, &no_records, &no_tree, &[2]])),
        (8, join_parts(&[(1, &part_1), (2, &no_records), (6, &[])])),
        (8, join_parts(&[(1, &part_1), (2, &no_records), (7, &[2])])),
        (8, join(&[&part_1, &no_records, &no_tree])),
        (8, join(&[&part_1, &no_records])),
        (9, join(&[&part_1, &part_2, &no_tree])),
        (9, join(&[&part_1, &part_2, &no_tree, &[1], &part_5])),
        (
            9,
            join(&[&part_1, &part_2, &no_tree, &[1], &part_5, &other]),
        ),
        (
            9,
            join_parts(&[(1, &part_1), (2, &part_2), (3, &no_tree), (6, &[])]),
        ),
        (23, join(&[&part_1, &part_2, &index, &[1], &part_5, &other])),
        (23, join(&[&part_1, &part_2, &index, &[1], &part_5, &[]])),
        (23, join_parts(&[(1, &part_1), (2, &part_2), (6, &other)])),
        (
            23,
            join_parts(&[(1, &part_1), (2, &part_2), (6, &part_6[1..])]),
        ),
        (23, join_parts(&[(1, &[]), (2, &[]), (6, &part_6)])),
        (10, join(&[&part_1, &part_2])),
        (10, join_parts(&[(1, &part_1), (2, &part_2), (4, &[1])])),
        (10, join_parts(&[(1, &part_1), (2, &part_2), (5, &part_5)])),
        (10, join_parts(&[(1, &part_1), (2, &part_2), (6, &part_6)])),
        (10, join_parts(&[(1, &part_1), (2, &part_2), (7, &[2])])),
        (10, join(&[&part_1])),
        (10, join_parts(&[(1, &part_1), (4, &[2])])),
        (10, join_parts(&[(1, &part_1), (5, &part_5)])),
        (10, join_parts(&[(1, &part_1), (7, &[2])])),
        (10, join(&[&[], &[]])),
        (10, join_parts(&[(1, &[]), (5, &[])])),
        (10, join(&[&[]])),
    ]
}

/// The records that question 8 takes of mark m, by those of the marks that outrank it:
/// 'never', and one by each of these that is removed later than its pair value with m.
pub fn fitting_records(reel: Reel, records: &[Record], m: usize) -> Vec<Record> {
    let by = |other: usize| {
        let value = reel.pair_value(other, m);
        let later = records[other].removal().later_than(value);
        later.then(|| Record::removed(other, value))
    };
    let higher = (0..records.len()).filter(|&other| reel.outranks(other, m));
    let never = [Record::NEVER].into_iter();
    never.chain(higher.filter_map(by)).collect()
}

/// Calls `visit` with every schedule of a reel that question 8 takes.
pub fn each_schedule(reel: Reel, visit: &mut impl FnMut(&[Record])) {
    let mut records = vec![Record::NEVER; reel.marks.len()];
    settle_in_every_way(reel, &reel.ranked(), &mut records, visit);
}

/// Calls `visit` with the records in which these marks have each record that fits, the
/// highest-ranked mark first.
fn settle_in_every_way(
    reel: Reel,
    ranked: &[usize],
    records: &mut [Record],
    visit: &mut impl FnMut(&[Record]),
) {
    let Some((&m, lower)) = ranked.split_first() else {
        return visit(records);
    };
    for record in fitting_records(reel, records, m) {
        records[m] = record;
        settle_in_every_way(reel, lower, records, visit);
    }
}

/// Calls `visit` with every list of so many entries from the choice.
pub fn each_list<T: Copy>(choice: &[T], entries: u32, visit: &mut impl FnMut(&[T])) {
    for code in 0..choice.len().pow(entries) {
        let places = (0..entries).map(|at| code / choice.len().pow(at));
        let list: Vec<T> = places.map(|place| choice[place % choice.len()]).collect();
        visit(&list);
    }
}

/// The middles of the clusters, about one for every 64 marks.
fn sites(generator: &mut Generator, n: usize) -> Vec<(i16, i16)> {
    let inner = |generator: &mut Generator| generator.between(-32_000, 32_000);
    (0..1 + n / 64)
        .map(|_| (inner(generator), inner(generator)))
        .collect()
}

/// One mark of a layout.
fn mark(generator: &mut Generator, layout: Layout, sites: &[(i16, i16)], n: usize) -> Mark {
    let (x, y) = place(generator, layout, sites, n);
    let small = 1 + generator.below(200) as u16;
    let (radius, priority) = match layout {
        Layout::Grid => (generator.choose(&[10, 10, 20]), generator.below(3) as u16),
        Layout::HugeRadius => (LARGEST_RADIUS + 1 - small, generator.below(65_536) as u16),
        Layout::FewHuge => {
            let huge = generator.below(100) == 0;
            let radius = if huge { LARGEST_RADIUS } else { small };
            (radius, generator.below(65_536) as u16)
        }
        Layout::Extreme => (
            generator.choose(&[0, 1, LARGEST_RADIUS]),
            generator.choose(&[0, 65_535]),
        ),
        Layout::OnePlace | Layout::Line => (small, generator.below(4) as u16),
        Layout::Uniform | Layout::Clustered | Layout::Reel | Layout::Within10 => (
            generator.choose(&[0, small, small]),
            generator.below(65_536) as u16,
        ),
        Layout::HouseRadii => (0, generator.below(65_536) as u16),
        Layout::LogRadii => (radius_by_log(generator), generator.below(65_536) as u16),
    };
    Mark {
        x,
        y,
        radius,
        priority,
        kind: generator.below(200) as u8,
        tag: generator.below(65_536) as u16,
    }
}

/// The place of one mark of a layout.
fn place(generator: &mut Generator, layout: Layout, sites: &[(i16, i16)], n: usize) -> (i16, i16) {
    let side = 1 + n.isqrt() as u32;
    let (site_x, site_y) = sites[0];
    match layout {
        Layout::Uniform
        | Layout::HugeRadius
        | Layout::FewHuge
        | Layout::HouseRadii
        | Layout::LogRadii => (anywhere(generator), anywhere(generator)),
        Layout::Within10 => (anywhere(generator) % 10, anywhere(generator) % 10),
        Layout::Clustered => {
            let (x, y) = generator.choose(sites);
            (
                x + generator.between(-500, 500),
                y + generator.between(-500, 500),
            )
        }
        Layout::Reel => (anywhere(generator), generator.between(-3_000, 2_999)),
        Layout::Line => (anywhere(generator), site_y),
        Layout::OnePlace => (site_x, site_y),
        Layout::Grid => (
            50 * generator.below(side) as i16,
            50 * generator.below(side) as i16,
        ),
        Layout::Extreme => {
            let ends = [i16::MIN, i16::MIN + 1, 0, i16::MAX - 1, i16::MAX];
            (generator.choose(&ends), generator.choose(&ends))
        }
    }
}

/// A radius from 1 to the largest; each power of two is as likely as the next.
fn radius_by_log(generator: &mut Generator) -> u16 {
    let power = 1 << generator.below(LARGEST_RADIUS.count_ones());
    (power + generator.below(power)) as u16
}

/// A coordinate from the whole range.
fn anywhere(generator: &mut Generator) -> i16 {
    generator.between(i16::MIN, i16::MAX)
}

#[cfg(test)]
mod tests {
    use super::*;
    use crate::sheet::check;

    #[test]
    fn every_sample_has_n_marks_that_are_taken() {
        for layout in Layout::ALL {
            for n in [0, 1, 100, 4_096] {
                let marks = marks(layout, n, 1);
                assert_eq!(marks.len(), n);
                assert_eq!(check(&join(&[&write_marks(&marks)])), 0);
            }
        }
    }

    #[test]
    fn every_sample_has_a_popup_for_each_mark_that_is_taken() {
        for how in Popups::ALL {
            for n in [0, 1, 100, 4_096] {
                let marks = marks(Layout::Grid, n, 1);
                let part_5 = write_popups(&popups(how, &marks, 2));
                assert_eq!(part_5.len(), 4 * n);
                let sheet = join_parts(&[(1, &write_marks(&marks)), (5, &part_5)]);
                assert_eq!(check(&sheet), 0);
            }
        }
    }

    #[test]
    fn seeds_give_different_samples() {
        for layout in Layout::ALL {
            assert_ne!(marks(layout, 50, 0), marks(layout, 50, 1));
            assert_ne!(marks(layout, 50, 0), marks(layout, 50, u64::MAX));
        }
        let sample = marks(Layout::Line, 50, 0);
        for how in Popups::ALL {
            let differ = popups(how, &sample, 0) != popups(how, &sample, 1);
            assert_eq!(differ, how != Popups::Zero);
        }
    }

    #[test]
    fn the_samples_pop_up_as_they_say() {
        let sample = marks(Layout::Grid, 999, 5);
        let drawn = |how| popups(how, &sample, 5);
        assert_eq!(drawn(Popups::Zero), [0; 999]);
        assert!(drawn(Popups::Early).iter().all(|&k| k < 64));
        let zeros = drawn(Popups::Few).iter().filter(|&&k| k == 0).count();
        assert!((600..900).contains(&zeros));
        assert!(drawn(Popups::Late).iter().all(|&k| k >= 16_384));
        assert!(drawn(Popups::Any).iter().any(|&k| k > 32_768));
        assert!(drawn(Popups::Ends).contains(&LARGEST_POPUP));
        let mut together = drawn(Popups::Together);
        together.sort_unstable();
        together.dedup();
        assert_eq!(together.len(), 2);
    }

    #[test]
    fn many_popup_values_equal_a_touching_value() {
        let sample = marks(Layout::Grid, 50, 6);
        let equals = |mark: &Mark, k: u32| {
            let value = zoom_squared(k);
            let touching = |other| touching_value(Shape::Disk, mark, other);
            k > 0 && sample.iter().any(|it| touching(it).compare(value).is_eq())
        };
        let drawn = popups(Popups::Touching, &sample, 6);
        let marks = sample.iter().zip(drawn);
        assert!(marks.filter(|&(mark, k)| equals(mark, k)).count() > 15);
    }

    #[test]
    fn the_samples_lie_as_their_layout_says() {
        let (line, point) = (marks(Layout::Line, 99, 5), marks(Layout::OnePlace, 99, 5));
        assert!(line.iter().all(|mark| mark.y == line[0].y));
        assert!(line.iter().any(|mark| mark.x != line[0].x));
        assert!(point
            .iter()
            .all(|mark| (mark.x, mark.y) == (point[0].x, point[0].y)));
        let reel = marks(Layout::Reel, 99, 5);
        assert!(reel.iter().all(|mark| (-3_000..3_000).contains(&mark.y)));
        assert!(reel.iter().any(|mark| mark.x.abs() > 30_000));
        let huge = marks(Layout::HugeRadius, 99, 5);
        assert!(huge.iter().all(|mark| mark.radius >= 16_000));
        let extreme = marks(Layout::Extreme, 99, 5);
        assert!(extreme
            .iter()
            .any(|mark| mark.x == i16::MIN && mark.y == i16::MAX));
        let within = marks(Layout::Within10, 99, 5);
        assert!(within
            .iter()
            .all(|mark| mark.x.abs() < 10 && mark.y.abs() < 10));
        let house = marks(Layout::HouseRadii, 99, 5);
        assert!(house.iter().all(|mark| mark.radius == 0));
        let by_log = marks(Layout::LogRadii, 999, 5);
        for power in (0..14).map(|bits| 1 << bits) {
            let found = by_log
                .iter()
                .filter(|mark| (power..2 * power).contains(&mark.radius));
            assert!((40..110).contains(&found.count()), "{power}");
        }
    }
}
