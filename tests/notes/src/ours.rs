//! The library that is tested: it is opened, checked and asked.

use std::time::{Duration, Instant};

use crate::asks::{Answer, Ask, Call, Part, UNTOUCHED};
use crate::library::*;

/// Opens a note, and answers the refusal or 0.
pub fn open(memory: &mut [u8], n: usize) -> u8 {
    // Sound, here and below: each pointer goes with the length of its own slice.
    unsafe { wol_note_open(memory.as_mut_ptr(), memory.len(), n) }
}

pub fn check(memory: &[u8]) -> bool {
    unsafe { wol_note_check(memory.as_ptr(), memory.len()) }
}

/// A call that answers a number: the refusal or 0, and the number.
pub fn read(call: Call, memory: &[u8], index: usize) -> (u8, u64) {
    let mut number = UNTOUCHED;
    let refusal = unsafe { number_of(call, memory.as_ptr(), memory.len(), index, &mut number) };
    (refusal, number)
}

unsafe fn number_of(call: Call, at: *const u8, len: usize, i: usize, value: &mut u64) -> u8 {
    match call {
        Call::LenBytes => wol_note_len_bytes(at, len, value),
        Call::LenChars => wol_note_len_chars(at, len, value),
        Call::LenUtf16Cu => wol_note_len_utf16_cu(at, len, value),
        Call::LenLines => wol_note_len_lines(at, len, value),
        Call::Slots => wol_note_slots(at, len, value),
        Call::EditNumber => wol_note_edit_number(at, len, value),
        Call::ByteToChar => wol_note_byte_to_char(at, len, i, value),
        Call::CharToByte => wol_note_char_to_byte(at, len, i, value),
        Call::ByteToLine => wol_note_byte_to_line(at, len, i, value),
        Call::LineToByte => wol_note_line_to_byte(at, len, i, value),
        Call::CharToLine => wol_note_char_to_line(at, len, i, value),
        Call::LineToChar => wol_note_line_to_char(at, len, i, value),
        Call::CharToUtf16Cu => wol_note_char_to_utf16_cu(at, len, i, value),
        Call::Utf16CuToChar => wol_note_utf16_cu_to_char(at, len, i, value),
        Call::MarkPlace => wol_note_mark_place(at, len, i, value),
        Call::MarkLine => wol_note_mark_line(at, len, i, value),
    }
}

/// The answer, and how long it took.
pub fn ask(memory: &[u8], ask: &Ask) -> (Answer, Duration) {
    let (at, len) = (memory.as_ptr(), memory.len());
    let mut answer = Answer::REFUSED;
    let mut number = UNTOUCHED;
    let mut slice = Slice { at, len: 0 };
    if let Ask::Copy { out, .. } = ask {
        answer.out = out.to_vec();
    }
    let began = Instant::now();
    answer.refusal = unsafe {
        match *ask {
            Ask::Check => {
                number = u64::from(check(memory));
                0
            }
            Ask::Read(call, index) => number_of(call, at, len, index, &mut number),
            Ask::Copy { start, end, .. } => {
                let out = &mut answer.out;
                wol_note_copy(
                    at,
                    len,
                    start,
                    end,
                    out.as_mut_ptr(),
                    out.len(),
                    &mut number,
                )
            }
            Ask::Run(place) => wol_note_run(at, len, place, &mut slice),
            Ask::Preview { piece, place, from } => {
                let (piece, piece_len) = (piece.as_ptr(), piece.len());
                wol_note_preview(at, len, piece, piece_len, place, from, &mut slice)
            }
        }
    };
    let took = began.elapsed();
    answer.number = number;
    answer.part = part(memory, ask, &slice);
    (answer, took)
}

/// Where the part lies.
fn part(memory: &[u8], ask: &Ask, slice: &Slice) -> Part {
    let within = |lent: &[u8]| {
        let at = (slice.at as usize).checked_sub(lent.as_ptr() as usize)?;
        (at + slice.len <= lent.len()).then_some(at)
    };
    if slice.len == 0 {
        return Part::Empty;
    }
    if let Ask::Preview { piece, .. } = ask {
        if let Some(at) = within(piece) {
            return Part::OfPiece(at, slice.len);
        }
    }
    match within(memory) {
        Some(at) => Part::OfMemory(at, slice.len),
        None => Part::Elsewhere,
    }
}
