//! The proved library. A slice passes as its pointer, then its length.

use super::calls::{with_margins, After, Case, MARGIN, UNTOUCHED};

extern "C" {
    fn wol_list(
        call: u8,
        memory: *mut u8,
        memory_len: usize,
        slot: usize,
        other: usize,
        i: usize,
        j: usize,
        kid_slot: u32,
        kid_bytes: u32,
        kid_chars: u32,
        kid_surrogates: u32,
        kid_breaks: u32,
        a: &mut u64,
        b: &mut u64,
        c: &mut u64,
        d: &mut u64,
        e: &mut u64,
    ) -> u8;
}

pub fn ask(case: &Case) -> After {
    ask_by(case.call as u8, case)
}

/// The call of any number, asked what the case has.
pub fn ask_by(call: u8, case: &Case) -> After {
    let mut memory = with_margins(case.memory);
    let mut numbers = UNTOUCHED;
    let [a, b, c, d, e] = &mut numbers;
    let [bytes, chars, surrogates, breaks] = case.kid.counts;
    // Sound: the pointer goes with the length of its own slice, and each number is one of its own.
    let refusal = unsafe {
        wol_list(
            call,
            memory[MARGIN..].as_mut_ptr(),
            case.memory.len(),
            case.slot,
            case.other,
            case.i,
            case.j,
            case.kid.slot,
            bytes,
            chars,
            surrogates,
            breaks,
            a,
            b,
            c,
            d,
            e,
        )
    };
    After {
        refusal,
        numbers,
        memory,
    }
}
