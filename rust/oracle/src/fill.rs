//! Filling, and rescuing an old sheet by it (02, request 2).

use crate::mark::{write_marks, Group};
use crate::sheet::{join, open_marks, split};
use crate::{ask, Refusal};

/// The number in 01's old table, none for a kind that does not exist.
pub fn old_radius(kind: u8) -> Option<u16> {
    let radius = |group| match group {
        Group::Note => 40,
        Group::Spot => 60,
        Group::Streak => 90,
        Group::Patch => 120,
        Group::Break => 200,
    };
    Group::of(kind).map(radius)
}

/// Fills marks: the same ones, each radius 0 written as the number in the old
/// table. Asks 4, then 5 and 6 mark by mark, and 13 of the buffer written to.
pub fn fill(part_1: &[u8], out_length: usize) -> Result<Vec<u8>, Refusal> {
    let mut marks = open_marks(part_1)?;
    ask(13, out_length >= part_1.len())?;
    for mark in &mut marks {
        if mark.radius == 0 {
            mark.radius = old_radius(mark.kind).expect("the kind exists");
        }
    }
    Ok(write_marks(&marks))
}

/// Rescues an old sheet: its part 1, cut out by the contents, filled and put
/// together afresh. Asks 1 to 3, and 4 to 6 of the marks.
pub fn rescue(sheet: &[u8]) -> Result<Vec<u8>, Refusal> {
    let marks = split(sheet)?.part_1();
    let filled = fill(marks, marks.len())?;
    Ok(join(&[&filled]))
}

#[cfg(test)]
mod tests {
    use super::*;
    use crate::mark::house_radius;

    #[test]
    fn the_tables_differ_in_moisture_patches_alone() {
        for kind in 0..=255 {
            if (100..150).contains(&kind) {
                assert_eq!(old_radius(kind), Some(120));
                assert_eq!(house_radius(kind), Some(150));
            } else {
                assert_eq!(old_radius(kind), house_radius(kind));
            }
        }
    }
}
