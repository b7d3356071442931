//! The proved library. A slice passes as its pointer, then its length.

use super::calls::{with_margins, After, Case, MARGIN, UNTOUCHED};

extern "C" {
    fn wol_leaf(
        call: u8,
        left: *mut u8,
        left_size: usize,
        len: usize,
        start: usize,
        end: usize,
        piece: *const u8,
        piece_len: usize,
        right: *mut u8,
        right_size: usize,
        right_len: usize,
        out_left: &mut u64,
        out_right: &mut u64,
    ) -> u8;
    fn wol_text_info(
        text: *const u8,
        len: usize,
        bytes: &mut u32,
        chars: &mut u32,
        utf16_surrogates: &mut u32,
        line_breaks: &mut u32,
    ) -> u8;
    fn wol_text_sum(
        minus: bool,
        bytes: &mut u64,
        chars: &mut u64,
        utf16_surrogates: &mut u64,
        line_breaks: &mut u64,
        info_bytes: u32,
        info_chars: u32,
        info_utf16_surrogates: u32,
        info_line_breaks: u32,
    );
}

pub fn ask(case: &Case) -> After {
    ask_by(case.call as u8, case)
}

/// The call of any number, asked what the case has.
pub fn ask_by(call: u8, case: &Case) -> After {
    let mut left = with_margins(case.left);
    let mut right = with_margins(case.right);
    let mut lengths = UNTOUCHED;
    // Sound: each pointer goes with the length of its own slice, and no two slices overlap.
    let refusal = unsafe {
        wol_leaf(
            call,
            left[MARGIN..].as_mut_ptr(),
            case.left.len(),
            case.len,
            case.start,
            case.end,
            case.piece.as_ptr(),
            case.piece.len(),
            right[MARGIN..].as_mut_ptr(),
            case.right.len(),
            case.right_len,
            &mut lengths.0,
            &mut lengths.1,
        )
    };
    After {
        refusal,
        lengths,
        left,
        right,
    }
}

/// The counts of a text: bytes, chars, surrogate pairs and line breaks.
pub type Counts<T> = [T; 4];

/// What the counts hold before each call.
pub const UNCOUNTED: Counts<u32> = [0xA5A5_C3C3; 4];

/// The refusal or 0, and the counts.
pub fn text_info(text: &[u8]) -> (u8, Counts<u32>) {
    let mut counts = UNCOUNTED;
    let [bytes, chars, surrogates, breaks] = &mut counts;
    // Sound: the pointer and the length come from one slice, and each count is a number of its own.
    let refusal =
        unsafe { wol_text_info(text.as_ptr(), text.len(), bytes, chars, surrogates, breaks) };
    (refusal, counts)
}

/// A sum with the counts of one text added, or taken away.
pub fn text_sum(minus: bool, mut sum: Counts<u64>, info: Counts<u32>) -> Counts<u64> {
    let [bytes, chars, surrogates, breaks] = &mut sum;
    // Sound: each count is a number of its own.
    unsafe {
        wol_text_sum(
            minus, bytes, chars, surrogates, breaks, info[0], info[1], info[2], info[3],
        );
    }
    sum
}
