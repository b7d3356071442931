//! The proved library. A slice passes as its pointer, then its length.

use crate::calls::{Answer, Case, Func};

extern "C" {
    // The functions up to 21 by their numbers.
    fn wol_ask(
        call: u8,
        index: usize,
        bias_left: bool,
        text: *const u8,
        len: usize,
        out: &mut u64,
    ) -> u8;
    fn wol_raw_count_chars(text: *const u8, len: usize) -> usize;
    fn wol_raw_count_surrogates(text: *const u8, len: usize) -> usize;
    fn wol_raw_count_breaks(text: *const u8, len: usize) -> usize;
}

/// What the output holds before each call. No right answer is this large.
const UNTOUCHED: u64 = 0xA5A5_5A5A_C3C3_3C3C;

pub fn answer(case: &Case) -> Answer {
    let (text, len) = (case.text.as_ptr(), case.text.len());
    let mut written = UNTOUCHED;
    // Sound: the pointer and the length come from one slice, and the output is a number of its own.
    let refusal = unsafe {
        match case.func {
            Func::RawCountChars => return Answer::Value(wol_raw_count_chars(text, len) as u64),
            Func::RawCountSurrogates => {
                return Answer::Value(wol_raw_count_surrogates(text, len) as u64)
            }
            Func::RawCountBreaks => return Answer::Value(wol_raw_count_breaks(text, len) as u64),
            func => wol_ask(
                func as u8,
                case.index,
                case.bias_left,
                text,
                len,
                &mut written,
            ),
        }
    };
    match (refusal, written) {
        (0, value) => Answer::Value(value),
        (number, UNTOUCHED) => Answer::Refused(number),
        (number, value) => Answer::RefusedAndWrote(number, value),
    }
}
