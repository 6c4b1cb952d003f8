//! The C interface of the proved library. This is the only file with unsafe code:
//! the declarations, as `include/rollmap.h` has them, and one wrapper each that
//! lends slices as a pointer and a length.
//!
//! The library is called with what a slice gives: a pointer that is never null,
//! to that many initialised bytes, which stay borrowed until the call is over. So
//! a buffer that is written overlaps no other. It keeps no pointer, has no state,
//! never unwinds, and takes every value of every number.

#![allow(unsafe_code)]

use crate::{Code, Mark, View, Zoom};

/// What a call answers: 0 or the refusing question's number, and a value.
#[derive(Clone, Copy)]
#[repr(C)]
pub(crate) struct Answer {
    pub(crate) number: u32,
    pub(crate) value: u32,
}

/// Where a part stands in its sheet.
#[derive(Clone, Copy)]
#[repr(C)]
pub(crate) struct Extent {
    pub(crate) offset: u32,
    pub(crate) length: u32,
}

/// The body of a part: where it is, and its length.
#[derive(Clone, Copy)]
#[repr(C)]
struct Body {
    bytes: *const u8,
    length: usize,
}

impl Body {
    const fn of(body: &[u8]) -> Self {
        Self {
            bytes: body.as_ptr(),
            length: body.len(),
        }
    }
}

extern "C" {
    fn rollmap_check(sheet: *const u8, sheet_length: usize) -> Answer;

    fn rollmap_schedule(
        sheet: *const u8,
        sheet_length: usize,
        work: *mut u8,
        work_length: usize,
        out: *mut u8,
        out_length: usize,
    ) -> Answer;

    fn rollmap_add(
        sheet: *const u8,
        sheet_length: usize,
        x: i16,
        y: i16,
        radius: u16,
        priority: u16,
        kind: u8,
        tag: u16,
        popup: u32,
        work: *mut u8,
        work_length: usize,
        out: *mut u8,
        out_length: usize,
    ) -> Answer;

    fn rollmap_take_out(
        sheet: *const u8,
        sheet_length: usize,
        m: u32,
        work: *mut u8,
        work_length: usize,
        out: *mut u8,
        out_length: usize,
    ) -> Answer;

    fn rollmap_judge(sheet: *const u8, sheet_length: usize) -> Answer;

    fn rollmap_count(
        sheet: *const u8,
        sheet_length: usize,
        out: *mut u8,
        out_length: usize,
    ) -> Answer;

    fn rollmap_assemble(
        codes: *const u16,
        codes_length: usize,
        bodies: *const Body,
        bodies_length: usize,
        out: *mut u8,
        out_length: usize,
    ) -> Answer;

    fn rollmap_fill(
        marks: *const u8,
        marks_length: usize,
        out: *mut u8,
        out_length: usize,
    ) -> Answer;

    fn rollmap_log_to_marks(
        log: *const u8,
        log_length: usize,
        out: *mut u8,
        out_length: usize,
    ) -> Answer;

    fn rollmap_marks_to_log(
        marks: *const u8,
        marks_length: usize,
        out: *mut u8,
        out_length: usize,
    ) -> Answer;

    fn rollmap_to_columns(
        marks: *const u8,
        marks_length: usize,
        out: *mut u8,
        out_length: usize,
    ) -> Answer;

    fn rollmap_from_columns(
        columns: *const u8,
        columns_length: usize,
        out: *mut u8,
        out_length: usize,
    ) -> Answer;

    fn rollmap_view_stop(
        sheet: *const u8,
        sheet_length: usize,
        x0: i32,
        x1: i32,
        y0: i32,
        y1: i32,
        turn: u8,
        stop: u8,
        map: *mut u8,
        map_length: usize,
    ) -> Answer;

    fn rollmap_view_wheel(
        sheet: *const u8,
        sheet_length: usize,
        x0: i32,
        x1: i32,
        y0: i32,
        y1: i32,
        turn: u8,
        wheel: f32,
        map: *mut u8,
        map_length: usize,
    ) -> Answer;

    fn rollmap_walk(map: *const u8, map_length: usize, n: u32, start: u32) -> Answer;

    fn rollmap_is_shown(map: *const u8, map_length: usize, n: u32, m: u32) -> Answer;

    fn rollmap_part(sheet: *const u8, sheet_length: usize, code: u32) -> Extent;
}

pub(crate) fn check(sheet: &[u8]) -> Answer {
    // SAFETY: pointer and length are a slice's (see the top of this file).
    unsafe { rollmap_check(sheet.as_ptr(), sheet.len()) }
}

pub(crate) fn schedule(sheet: &[u8], work: &mut [u8], out: &mut [u8]) -> Answer {
    // SAFETY: pointers and lengths are slices' (see the top of this file).
    unsafe {
        rollmap_schedule(
            sheet.as_ptr(),
            sheet.len(),
            work.as_mut_ptr(),
            work.len(),
            out.as_mut_ptr(),
            out.len(),
        )
    }
}

pub(crate) fn add(sheet: &[u8], mark: Mark, popup: u32, work: &mut [u8], out: &mut [u8]) -> Answer {
    // SAFETY: pointers and lengths are slices' (see the top of this file).
    unsafe {
        rollmap_add(
            sheet.as_ptr(),
            sheet.len(),
            mark.x,
            mark.y,
            mark.radius,
            mark.priority,
            mark.kind,
            mark.tag,
            popup,
            work.as_mut_ptr(),
            work.len(),
            out.as_mut_ptr(),
            out.len(),
        )
    }
}

pub(crate) fn take_out(sheet: &[u8], m: u32, work: &mut [u8], out: &mut [u8]) -> Answer {
    // SAFETY: pointers and lengths are slices' (see the top of this file).
    unsafe {
        rollmap_take_out(
            sheet.as_ptr(),
            sheet.len(),
            m,
            work.as_mut_ptr(),
            work.len(),
            out.as_mut_ptr(),
            out.len(),
        )
    }
}

pub(crate) fn judge(sheet: &[u8]) -> Answer {
    // SAFETY: pointer and length are a slice's (see the top of this file).
    unsafe { rollmap_judge(sheet.as_ptr(), sheet.len()) }
}

pub(crate) fn count(sheet: &[u8], out: &mut [u8]) -> Answer {
    // SAFETY: pointers and lengths are slices' (see the top of this file).
    unsafe { rollmap_count(sheet.as_ptr(), sheet.len(), out.as_mut_ptr(), out.len()) }
}

/// Rows for one more part than a sheet has: so many are refused as any more would be.
const ROWS: usize = Code::ALL.len() + 1;

pub(crate) fn assemble(parts: &[(Code, &[u8])], out: &mut [u8]) -> Answer {
    let mut codes = [0; ROWS];
    let mut bodies = [Body::of(&[]); ROWS];
    let count = parts.len().min(ROWS);
    for (row, &(code, body)) in parts[..count].iter().enumerate() {
        codes[row] = code.number();
        bodies[row] = Body::of(body);
    }
    // SAFETY: pointers and lengths are slices', those in the first `count` rows too (see
    // the top of this file); there are as many codes and rows, on this stack.
    unsafe {
        rollmap_assemble(
            codes.as_ptr(),
            count,
            bodies.as_ptr(),
            count,
            out.as_mut_ptr(),
            out.len(),
        )
    }
}

pub(crate) fn fill(marks: &[u8], out: &mut [u8]) -> Answer {
    // SAFETY: pointers and lengths are slices' (see the top of this file).
    unsafe { rollmap_fill(marks.as_ptr(), marks.len(), out.as_mut_ptr(), out.len()) }
}

pub(crate) fn log_to_marks(log: &[u8], out: &mut [u8]) -> Answer {
    // SAFETY: pointers and lengths are slices' (see the top of this file).
    unsafe { rollmap_log_to_marks(log.as_ptr(), log.len(), out.as_mut_ptr(), out.len()) }
}

pub(crate) fn marks_to_log(marks: &[u8], out: &mut [u8]) -> Answer {
    // SAFETY: pointers and lengths are slices' (see the top of this file).
    unsafe { rollmap_marks_to_log(marks.as_ptr(), marks.len(), out.as_mut_ptr(), out.len()) }
}

pub(crate) fn to_columns(marks: &[u8], out: &mut [u8]) -> Answer {
    // SAFETY: pointers and lengths are slices' (see the top of this file).
    unsafe { rollmap_to_columns(marks.as_ptr(), marks.len(), out.as_mut_ptr(), out.len()) }
}

pub(crate) fn from_columns(columns: &[u8], out: &mut [u8]) -> Answer {
    // SAFETY: pointers and lengths are slices' (see the top of this file).
    unsafe { rollmap_from_columns(columns.as_ptr(), columns.len(), out.as_mut_ptr(), out.len()) }
}

pub(crate) fn view(sheet: &[u8], view: View, map: &mut [u8]) -> Answer {
    let View { x0, x1, y0, y1, .. } = view;
    let turn = view.turn.quarters();
    let (bytes, length) = (sheet.as_ptr(), sheet.len());
    let (to, room) = (map.as_mut_ptr(), map.len());
    // SAFETY: pointers and lengths are slices' (see the top of this file).
    unsafe {
        match view.zoom {
            Zoom::Stop(stop) => {
                rollmap_view_stop(bytes, length, x0, x1, y0, y1, turn, stop, to, room)
            }
            Zoom::Wheel(wheel) => {
                rollmap_view_wheel(bytes, length, x0, x1, y0, y1, turn, wheel, to, room)
            }
        }
    }
}

pub(crate) fn walk(map: &[u8], n: u32, start: u32) -> Answer {
    // SAFETY: pointer and length are a slice's (see the top of this file).
    unsafe { rollmap_walk(map.as_ptr(), map.len(), n, start) }
}

pub(crate) fn is_shown(map: &[u8], n: u32, m: u32) -> Answer {
    // SAFETY: pointer and length are a slice's (see the top of this file).
    unsafe { rollmap_is_shown(map.as_ptr(), map.len(), n, m) }
}

pub(crate) fn part(sheet: &[u8], code: u32) -> Extent {
    // SAFETY: pointer and length are a slice's (see the top of this file).
    unsafe { rollmap_part(sheet.as_ptr(), sheet.len(), code) }
}
