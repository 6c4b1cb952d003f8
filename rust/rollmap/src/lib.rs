//! The roll map: which labels of a reel of paper are shown at which zoom.
//!
//! These are safe bindings to the proved library, the static library `rollmap`.
//! A sheet is a run of bytes that has the marks in part 1 and, once it is scheduled,
//! the schedule in part 2 and the index in part 3; part 4 may name the [`Edition`] that
//! ranks the marks, part 5 the [`popups`] from which they are there, part 6 the [`Counts`] of
//! those that live at each stop, and part 7 the [`Shape`] of their labels. Nothing is copied or
//! kept: a call borrows its buffers and answers.
//!
//! A call asks the questions that its comment names, in turn; the first no is its
//! [`Refusal`], and then no buffer is written. Where these are 4 to 9, questions
//! [19](Refusal::Edition), [21](Refusal::Popups) and [24](Refusal::Shape) are asked, in this
//! order, after 7, and [23](Refusal::Counts) after 9; a view asks [20](Refusal::Window) after
//! 10.
//!
//! ```
//! use rollmap::{assemble_to_vec, count_to_vec, counts, judge, marks_to_vec, popups_to_vec};
//! use rollmap::{records, schedule_to_vec, view_to_map, NO_POPUP};
//! use rollmap::{Code, Group, Mark, Record, Refusal, Turn, View, Zoom};
//!
//! // Two marks at (0, 0) and (100, 0); the first has the higher priority. They touch at
//! // zoom 5.
//! let mark = |x, priority| Mark { x, y: 0, radius: 10, priority, kind: 0, tag: 0 };
//! let marks = marks_to_vec(&[mark(0, 9), mark(100, 5)]);
//! let sheet = assemble_to_vec(&[(Code::Marks, &marks)])?;
//! let scheduled = schedule_to_vec(&sheet)?;
//!
//! let (turn, zoom) = (Turn::None, Zoom::Wheel(4.0));
//! let view = View { x0: 0, x1: 200, y0: 0, y1: 0, turn, zoom };
//! let near = view_to_map(&scheduled, view)?;
//! assert!(near.iter().eq([0, 1]));
//! let far = view_to_map(&scheduled, View { zoom: Zoom::Wheel(5.0), ..view })?;
//! assert!(far.iter().eq([0]));
//!
//! // A quarter turn takes x, y to -y, x, and the edges refer to turned places.
//! assert_eq!(Turn::Quarter.turned(100, 0), (0, 100));
//! let turned = View { x0: 0, x1: 0, y0: 50, y1: 200, turn: Turn::Quarter, zoom };
//! assert!(view_to_map(&scheduled, turned)?.iter().eq([1]));
//!
//! let gone = Record::Removed { eliminator: 0, numerator: 10_000, denominator: 400 };
//! assert!(records(&scheduled).unwrap().eq([Record::Never, gone]));
//!
//! // Whoever made a schedule, the judge tells whether it is the one that scheduling writes.
//! assert_eq!(judge(&scheduled), Ok(()));
//! assert_eq!(judge(&sheet), Err(Refusal::Unscheduled));
//!
//! // At stop 8, zoom 4, both of these notes live, and at stop 9, zoom 8, one of them.
//! let counts = counts(&count_to_vec(&scheduled)?).unwrap();
//! assert_eq!([8, 9].map(|stop| counts.get(stop, Group::Note)), [Some(2), Some(1)]);
//!
//! // The first mark is for the overview: it pops up at zoom 8, and until then the other one
//! // lives.
//! let popups = popups_to_vec(&[8 * 64, NO_POPUP]);
//! let sheet = assemble_to_vec(&[(Code::Marks, &marks), (Code::Popups, &popups)])?;
//! let scheduled = schedule_to_vec(&sheet)?;
//! let at = |zoom| view_to_map(&scheduled, View { zoom: Zoom::Wheel(zoom), ..view });
//! assert!(at(7.0)?.iter().eq([1]));
//! assert!(at(8.0)?.iter().eq([0]));
//! # Ok::<(), rollmap::Refusal>(())
//! ```

#![deny(unsafe_code, missing_docs)]

mod change;
mod columns;
mod count;
mod edition;
mod ffi;
mod fill;
mod judge;
mod log;
mod mark;
mod part;
mod popup;
mod record;
mod refusal;
mod shape;
mod sheet;
mod turn;
mod view;
mod walk;

pub use change::{add, add_to_vec, take_out, take_out_to_vec};
pub use columns::{from_columns, from_columns_vec, to_columns, to_columns_vec};
pub use count::{
    count, count_to_vec, counts, Counts, Group, COUNTED_BYTES, COUNTS_BYTES, GROUPS, STOPS,
};
pub use edition::{edition, Edition, EDITION_BYTES};
pub use fill::{fill, fill_to_vec, rescue};
pub use judge::judge;
pub use log::{log_to_marks, log_to_marks_vec, marks_to_log, marks_to_log_vec, LOG_RECORD_BYTES};
pub use mark::{marks, marks_to_vec, Mark, MARK_BYTES};
pub use part::{part, Code};
pub use popup::{popups, popups_bytes, popups_to_vec, LARGEST_POPUP, NO_POPUP, POPUP_BYTES};
pub use record::{records, Record, RECORD_BYTES};
pub use refusal::Refusal;
pub use shape::{shape, Shape, SHAPE_BYTES};
pub use sheet::{
    assemble, assemble_to_vec, check, contents_bytes, mark_count, schedule, schedule_to_vec,
    scheduled_bytes, work_bytes, Work, MOST_MARKS,
};
pub use turn::Turn;
pub use view::{map_bytes, view, view_to_map, Map, View, Zoom, FARTHEST_EDGE};
pub use walk::{is_shown, shown, walk, Shown};

/// The README's example, run as a documentation test.
#[cfg(doctest)]
#[doc = include_str!("../../../README.md")]
struct Readme;
