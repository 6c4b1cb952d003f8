//! The roll map, read plainly.
//!
//! What is defined here is written literally from documents 01 and 02, for clarity
//! and not for speed, and owes nothing to the proved library, which is compared with
//! it. Comments name the section of 01 that a definition comes from. Two faster
//! ways to schedule stand next to the process as 01 tells it, and [`sample`]
//! makes up sheets for tests and benchmarks.
//!
//! The small definitions, of fields, radii, values, keys, rows and single questions,
//! are also what the benchmark's jobs in plain Rust are made of, so that each rule is
//! read once in Rust; these are inlined. The ways to work a result out are apart: none
//! here takes a short cut.
//!
//! A call that 01 can refuse answers `Result<_, Refusal>`; the error is the
//! number of the first question of 01, 'Questions put in turn', whose answer is
//! no. Where a comment says that 4 to 9 are asked, 02's questions 19, 21 and 24 are asked,
//! in this order, after 7, and 23 after 9; and where it says that 10 and 11 are, 02's
//! question 20 between them.
//! Buffers are not written here: a call takes the lengths of the buffers it would
//! borrow and answers the bytes it would write.

#![forbid(unsafe_code)]

pub mod change;
pub mod columns;
pub mod contents;
pub mod count;
pub mod fill;
pub mod fraction;
pub mod judge;
pub mod label;
pub mod log;
pub mod map;
pub mod mark;
pub mod popup;
pub mod process;
pub mod rank;
pub mod record;
pub mod reel;
pub mod report;
pub mod rules;
pub mod sample;
pub mod shape;
pub mod sheet;
pub mod tree;
pub mod turn;
pub mod view;
pub mod zoom;

mod bytes;

/// The number of a question of 01 that was answered with no.
pub type Refusal = u32;

/// Puts one question: a no becomes its number.
#[inline]
pub fn ask(number: Refusal, yes: bool) -> Result<(), Refusal> {
    if yes {
        Ok(())
    } else {
        Err(number)
    }
}
