//! The proved library. A slice passes as its pointer, then its length. An answer that is refused
//! ends the program: none is asked for here.

use notes::asks::Call;
use notes::library::{wol_note_copy, wol_note_preview, wol_note_run, Slice};
use notes::marks::{self, Marking};

extern "C" {
    fn wol_raw_count_chars(text: *const u8, len: usize) -> usize;
    fn wol_raw_count_surrogates(text: *const u8, len: usize) -> usize;
    fn wol_raw_count_breaks(text: *const u8, len: usize) -> usize;
    fn wol_ask(
        call: u8,
        index: usize,
        bias_left: bool,
        text: *const u8,
        len: usize,
        out: &mut u64,
    ) -> u8;
}

// Sound, here and below: the pointer and the length come from one slice.
pub fn count_chars(text: &[u8]) -> usize {
    unsafe { wol_raw_count_chars(text.as_ptr(), text.len()) }
}

pub fn count_surrogates(text: &[u8]) -> usize {
    unsafe { wol_raw_count_surrogates(text.as_ptr(), text.len()) }
}

pub fn count_breaks(text: &[u8]) -> usize {
    unsafe { wol_raw_count_breaks(text.as_ptr(), text.len()) }
}

// The helpers, which refuse a text that is not well formed, by their numbers.
pub fn checked_chars(text: &[u8]) -> Option<usize> {
    ask(7, text)
}

pub fn checked_surrogates(text: &[u8]) -> Option<usize> {
    ask(10, text)
}

pub fn checked_breaks(text: &[u8]) -> Option<usize> {
    ask(11, text)
}

fn ask(call: u8, text: &[u8]) -> Option<usize> {
    let mut value = 0;
    let refusal = unsafe { wol_ask(call, 0, false, text.as_ptr(), text.len(), &mut value) };
    (refusal == 0).then_some(value as usize)
}

// The calls of a note.
pub fn open(memory: &mut [u8], n: usize) {
    assert_eq!(notes::ours::open(memory, n), 0, "opening");
}

pub fn read(call: Call, memory: &[u8], index: usize) -> usize {
    let (refusal, number) = notes::ours::read(call, memory, index);
    assert_eq!(refusal, 0, "{call:?} of {index}");
    number as usize
}

pub fn mark(memory: &mut [u8], marking: Marking) -> usize {
    let (refusal, number) = marks::mark(memory, marking);
    assert_eq!(refusal, 0, "{marking:?}");
    number as usize
}

/// Copies chars to the front of the output: how many bytes they are.
pub fn copy(memory: &[u8], start: usize, end: usize, out: &mut [u8]) -> usize {
    let (at, len) = (memory.as_ptr(), memory.len());
    let (out, out_len) = (out.as_mut_ptr(), out.len());
    let mut count = 0;
    let refusal = unsafe { wol_note_copy(at, len, start, end, out, out_len, &mut count) };
    assert_eq!(refusal, 0, "a copy of {start}..{end}");
    count as usize
}

/// The first byte of the run from a place on, or 0 at the end.
pub fn run(memory: &[u8], place: usize) -> usize {
    let (at, len) = (memory.as_ptr(), memory.len());
    let mut part = Slice { at, len: 0 };
    let refusal = unsafe { wol_note_run(at, len, place, &mut part) };
    assert_eq!(refusal, 0, "a run from {place}");
    match part.len {
        0 => 0,
        // Sound: the part lies in the memory, as the call promises.
        _ => usize::from(unsafe { *part.at }),
    }
}

/// The length of the first part behind the place of an insertion: that of the piece.
pub fn preview(memory: &[u8], piece: &[u8], place: usize) -> usize {
    let (at, len) = (memory.as_ptr(), memory.len());
    let mut part = Slice { at, len: 0 };
    let refusal = unsafe {
        wol_note_preview(
            at,
            len,
            piece.as_ptr(),
            piece.len(),
            place,
            place,
            &mut part,
        )
    };
    assert_eq!(refusal, 0, "a preview at {place}");
    part.len
}

/// The whole text.
pub fn text(memory: &[u8]) -> Vec<u8> {
    let mut text = vec![0; read(Call::LenBytes, memory, 0)];
    copy(memory, 0, read(Call::LenChars, memory, 0), &mut text);
    text
}
