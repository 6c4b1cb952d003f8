//! The jobs in plain Rust, written for speed: what the proved library is timed
//! against. They read and write the same bytes, ask the same questions and borrow
//! their arrays, so that one job is compared with the same job.
//!
//! Here are the algorithms. What 01 and 02 say of marks, records, sheets and views is
//! read once, by the oracle, and taken from there.

pub mod columns;
pub mod count;
pub mod grid;
pub mod index;
pub mod judge;
pub mod schedule;
pub mod sheet;
pub mod value;
pub mod view;

#[cfg(test)]
mod tests;
