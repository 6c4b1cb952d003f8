//! Views of a scheduled sheet, and their maps.

use crate::{ffi, is_shown, mark_count, shown, Refusal, Shown, Turn};

/// How far out an edge of a [`View`] lies at most, on either side of 0: as far as a turn
/// takes a place.
pub const FARTHEST_EDGE: i32 = 32_768;

/// A rectangle of turned places, edges included, and a zoom. Each edge is from -32,768 to
/// 32,768, with a turn or without.
#[derive(Clone, Copy, Debug, PartialEq)]
pub struct View {
    /// The least x inside.
    pub x0: i32,
    /// The greatest x inside.
    pub x1: i32,
    /// The least y inside.
    pub y0: i32,
    /// The greatest y inside.
    pub y1: i32,
    /// How the places are turned that the edges refer to. Where the labels are squares, they
    /// are not.
    pub turn: Turn,
    /// Map units per pixel.
    pub zoom: Zoom,
}

impl View {
    /// The view of all places, without a turn. With another turn in its place it is the
    /// view of all places, too.
    pub const fn whole(zoom: Zoom) -> Self {
        Self {
            x0: -FARTHEST_EDGE,
            x1: FARTHEST_EDGE,
            y0: -FARTHEST_EDGE,
            y1: FARTHEST_EDGE,
            turn: Turn::None,
            zoom,
        }
    }
}

/// A zoom as the viewer has it.
#[derive(Clone, Copy, Debug, PartialEq)]
pub enum Zoom {
    /// Stop s, 0 to 16: 64 times the zoom is 2 to the power s.
    Stop(u8),
    /// The zoom itself, where 64 times it is a whole number from 1 to 65,536.
    Wheel(f32),
}

/// Bytes of the map of n marks.
pub const fn map_bytes(n: usize) -> usize {
    n.div_ceil(8)
}

/// Answers a view: writes which marks are shown to `map`, mark m as bit m mod 8 of
/// byte m / 8, and answers their count. A mark is shown if it lives at the zoom and its
/// label there, a disk about its turned place or a square about its place, by the sheet's own
/// [`Shape`](crate::Shape), reaches the rectangle, touching included. It lives from its
/// [popup](crate::popups()) on until it is removed. Unused bits of the last byte become 0, and
/// bytes past the first [`map_bytes`] of the marks stay as they are.
///
/// Of a sheet of disks that scheduling wrote, a view with a turn gives what a view without one
/// gives of the sheet that is scheduled from the marks at their [turned](Turn::turned)
/// places, where these fit 16 bits, and the parts beyond 3 but part 6. Squares take no turn.
///
/// # Errors
///
/// Asks [1 to 10](Refusal), [20](Refusal::Window) of the turn and the edges, and [11 to
/// 13](Refusal). A refused call writes nothing.
pub fn view(sheet: &[u8], view: View, map: &mut [u8]) -> Result<u32, Refusal> {
    ffi::view(sheet, view, map).settle(0)
}

/// Answers a view with a map of its own. The sheet is checked twice for that: a
/// viewer that is in a hurry lends a map to [`view`](crate::view()).
///
/// # Errors
///
/// Asks what [`view`](crate::view()) asks, but for 13.
pub fn view_to_map(sheet: &[u8], view: View) -> Result<Map, Refusal> {
    let marks = mark_count(sheet).unwrap_or(0);
    let mut bytes = vec![0; map_bytes(marks)];
    let count = crate::view(sheet, view, &mut bytes)?;
    Ok(Map {
        bytes,
        marks: marks as u32,
        count,
    })
}

/// The map of a view, with the number of marks of its sheet and the count of those
/// shown.
#[derive(Clone, Debug, PartialEq, Eq)]
pub struct Map {
    bytes: Vec<u8>,
    marks: u32,
    count: u32,
}

impl Map {
    /// The number of marks of the sheet.
    pub fn marks(&self) -> u32 {
        self.marks
    }

    /// The number of shown marks.
    pub fn count(&self) -> u32 {
        self.count
    }

    /// The map's bytes, mark m being bit m mod 8 of byte m / 8.
    pub fn as_bytes(&self) -> &[u8] {
        &self.bytes
    }

    /// Whether that mark is shown; no where the sheet has no such mark.
    pub fn contains(&self, mark: u32) -> bool {
        is_shown(&self.bytes, self.marks, mark).expect("the map is as long as its sheet asks for")
    }

    /// The numbers of the shown marks, rising.
    pub fn iter(&self) -> Shown<'_> {
        shown(&self.bytes, self.marks).expect("the map is as long as its sheet asks for")
    }
}

impl<'a> IntoIterator for &'a Map {
    type Item = u32;
    type IntoIter = Shown<'a>;

    fn into_iter(self) -> Shown<'a> {
        self.iter()
    }
}
