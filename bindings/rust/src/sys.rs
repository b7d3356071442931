//! The library's calls, as bindings/c/wolamivens.h has them: the one file with unsafe code. Bytes pass as
//! a pointer and a length.
//!
//! Sound, in each call: a pointer goes with the length of its own slice, and is not null where that is
//! empty; what a call changes is lent to it as `&mut`; and the library keeps no pointer.

#![allow(unsafe_code)]

use std::slice;

use crate::Refusal;

/// A part that is handed out.
#[repr(C)]
struct Part {
    at: *const u8,
    len: usize,
}

impl Part {
    fn empty() -> Part {
        let none: &[u8] = &[];
        Part {
            at: none.as_ptr(),
            len: 0,
        }
    }

    /// Its bytes. They lie in a slice of this lifetime, as the call promises.
    unsafe fn bytes<'a>(self) -> &'a [u8] {
        match self.len {
            0 => &[],
            len => slice::from_raw_parts(self.at, len),
        }
    }
}

extern "C" {
    fn wol_note_open(memory: *mut u8, len: usize, n: usize) -> u8;
    fn wol_note_check(memory: *const u8, len: usize) -> bool;
    fn wol_note_insert(
        memory: *mut u8,
        len: usize,
        place: usize,
        piece: *const u8,
        piece_len: usize,
        change: &mut i64,
    ) -> u8;
    fn wol_note_remove(
        memory: *mut u8,
        len: usize,
        start: usize,
        end: usize,
        change: &mut i64,
    ) -> u8;
    fn wol_note_set_mark(memory: *mut u8, len: usize, place: usize, mark: &mut u64) -> u8;
    fn wol_note_drop_mark(memory: *mut u8, len: usize, mark: usize) -> u8;
    fn wol_note_copy(
        memory: *const u8,
        len: usize,
        start: usize,
        end: usize,
        out: *mut u8,
        out_len: usize,
        count: &mut u64,
    ) -> u8;
    fn wol_note_run(memory: *const u8, len: usize, place: usize, part: &mut Part) -> u8;
    fn wol_note_preview(
        memory: *const u8,
        len: usize,
        piece: *const u8,
        piece_len: usize,
        place: usize,
        from: usize,
        part: &mut Part,
    ) -> u8;
}

pub fn open(memory: &mut [u8], n: usize) -> Result<(), Refusal> {
    Refusal::told(unsafe { wol_note_open(memory.as_mut_ptr(), memory.len(), n) })
}

pub fn check(memory: &[u8]) -> bool {
    unsafe { wol_note_check(memory.as_ptr(), memory.len()) }
}

pub fn insert(memory: &mut [u8], place: usize, piece: &[u8]) -> Result<i64, Refusal> {
    let (at, len) = (memory.as_mut_ptr(), memory.len());
    let mut change = 0;
    Refusal::told(unsafe {
        wol_note_insert(at, len, place, piece.as_ptr(), piece.len(), &mut change)
    })?;
    Ok(change)
}

pub fn remove(memory: &mut [u8], start: usize, end: usize) -> Result<i64, Refusal> {
    let (at, len) = (memory.as_mut_ptr(), memory.len());
    let mut change = 0;
    Refusal::told(unsafe { wol_note_remove(at, len, start, end, &mut change) })?;
    Ok(change)
}

pub fn set_mark(memory: &mut [u8], place: usize) -> Result<u64, Refusal> {
    let mut mark = 0;
    Refusal::told(unsafe {
        wol_note_set_mark(memory.as_mut_ptr(), memory.len(), place, &mut mark)
    })?;
    Ok(mark)
}

pub fn drop_mark(memory: &mut [u8], mark: usize) -> Result<(), Refusal> {
    Refusal::told(unsafe { wol_note_drop_mark(memory.as_mut_ptr(), memory.len(), mark) })
}

pub fn copy(memory: &[u8], start: usize, end: usize, out: &mut [u8]) -> Result<usize, Refusal> {
    let (at, len) = (memory.as_ptr(), memory.len());
    let (out, out_len) = (out.as_mut_ptr(), out.len());
    let mut count = 0;
    Refusal::told(unsafe { wol_note_copy(at, len, start, end, out, out_len, &mut count) })?;
    Ok(count as usize)
}

pub fn run(memory: &[u8], place: usize) -> Result<&[u8], Refusal> {
    let mut part = Part::empty();
    Refusal::told(unsafe { wol_note_run(memory.as_ptr(), memory.len(), place, &mut part) })?;
    Ok(unsafe { part.bytes() })
}

pub fn preview<'a>(
    memory: &'a [u8],
    piece: &'a [u8],
    place: usize,
    from: usize,
) -> Result<&'a [u8], Refusal> {
    let (at, len) = (memory.as_ptr(), memory.len());
    let (piece, piece_len) = (piece.as_ptr(), piece.len());
    let mut part = Part::empty();
    Refusal::told(unsafe { wol_note_preview(at, len, piece, piece_len, place, from, &mut part) })?;
    Ok(unsafe { part.bytes() })
}

/// The calls that answer a number, some of an index or a mark.
macro_rules! numbers {
    ($($name:ident = $call:ident($($index:ident)?),)*) => {
        extern "C" {
            $(fn $call(memory: *const u8, len: usize, $($index: usize,)? value: &mut u64) -> u8;)*
        }

        $(pub fn $name(memory: &[u8], $($index: usize)?) -> Result<usize, Refusal> {
            let (at, len) = (memory.as_ptr(), memory.len());
            let mut value = 0;
            Refusal::told(unsafe { $call(at, len, $($index,)? &mut value) })?;
            Ok(value as usize)
        })*
    };
}

numbers! {
    len_bytes = wol_note_len_bytes(),
    len_chars = wol_note_len_chars(),
    len_utf16_cu = wol_note_len_utf16_cu(),
    len_lines = wol_note_len_lines(),
    slots = wol_note_slots(),
    edit_number = wol_note_edit_number(),
    byte_to_char = wol_note_byte_to_char(byte),
    char_to_byte = wol_note_char_to_byte(place),
    byte_to_line = wol_note_byte_to_line(byte),
    line_to_byte = wol_note_line_to_byte(line),
    char_to_line = wol_note_char_to_line(place),
    line_to_char = wol_note_line_to_char(line),
    char_to_utf16_cu = wol_note_char_to_utf16_cu(place),
    utf16_cu_to_char = wol_note_utf16_cu_to_char(unit),
    mark_place = wol_note_mark_place(mark),
    mark_line = wol_note_mark_line(mark),
}
