//! The source crate's answers, with a refusal where the refusal table asks for one.

use std::panic::{catch_unwind, AssertUnwindSafe};

use ropey::{probe, str_utils};

use crate::calls::{Answer, Case, Func};

pub fn answer(case: &Case) -> Answer {
    match refusal(case) {
        0 => Answer::Value(ask(case)),
        number => Answer::Refused(number),
    }
}

/// Whether the source itself, asked without regard to the refusals, panics.
pub fn panics(case: &Case) -> bool {
    catch_unwind(AssertUnwindSafe(|| ask(case))).is_err()
}

/// The refusal's number by the table, or 0. The source has no refusals: it panics where a break
/// function has one, and its helpers take a text that the type already keeps well-formed.
fn refusal(case: &Case) -> u8 {
    match case.func {
        Func::SeamIsBreak if case.index == 0 || case.index == case.text.len() => 12,
        Func::IsBreak
        | Func::PrevBreak
        | Func::NextBreak
        | Func::NearestInternalBreak
        | Func::FindGoodSplit
            if case.index > case.text.len() =>
        {
            3
        }
        Func::IsBreak
        | Func::SeamIsBreak
        | Func::PrevBreak
        | Func::NextBreak
        | Func::NearestInternalBreak
        | Func::FindGoodSplit
        | Func::Valid => 0,
        _ if std::str::from_utf8(case.text).is_err() => 5,
        _ => 0,
    }
}

fn ask(case: &Case) -> u64 {
    let (text, index) = (case.text, case.index);
    match case.func {
        Func::IsBreak => u64::from(probe::is_break(index, text)),
        Func::SeamIsBreak => {
            let (left, right) = text.split_at(index);
            u64::from(probe::seam_is_break(left, right))
        }
        Func::PrevBreak => probe::prev_break(index, text) as u64,
        Func::NextBreak => probe::next_break(index, text) as u64,
        Func::NearestInternalBreak => probe::nearest_internal_break(index, text) as u64,
        Func::FindGoodSplit => probe::find_good_split(index, text, case.bias_left) as u64,
        Func::Valid => u64::from(std::str::from_utf8(text).is_ok()),
        helper => {
            let text = std::str::from_utf8(text).expect("a helper's text is well-formed");
            ask_helper(helper, text, index)
        }
    }
}

fn ask_helper(func: Func, text: &str, index: usize) -> u64 {
    let value = match func {
        // The source takes these three from str_indices as they are, and keeps the names private.
        Func::CountChars | Func::RawCountChars => str_indices::chars::count(text),
        Func::CountUtf16Surrogates | Func::RawCountSurrogates => {
            str_indices::utf16::count_surrogates(text)
        }
        Func::CountLineBreaks | Func::RawCountBreaks => str_indices::lines_crlf::count_breaks(text),
        Func::ByteToCharIdx => str_utils::byte_to_char_idx(text, index),
        Func::CharToByteIdx => str_utils::char_to_byte_idx(text, index),
        Func::ByteToLineIdx => str_utils::byte_to_line_idx(text, index),
        Func::LineToByteIdx => str_utils::line_to_byte_idx(text, index),
        Func::CharToLineIdx => str_utils::char_to_line_idx(text, index),
        Func::LineToCharIdx => str_utils::line_to_char_idx(text, index),
        // The source steps down to the text one by one, which from a huge index takes years; it
        // passes len + 2 on its way, so the answer from there is the same.
        Func::ByteToUtf16SurrogateIdx => {
            probe::byte_to_utf16_surrogate_idx(text, index.min(text.len() + 2))
        }
        Func::Utf16CodeUnitToCharIdx => probe::utf16_code_unit_to_char_idx(text, index),
        Func::LastLineStartByteIdx => probe::last_line_start_byte_idx(text),
        Func::TrimLineBreak => probe::trim_line_break(text).len(),
        Func::EndsWithLineBreak => usize::from(probe::ends_with_line_break(text)),
        other => unreachable!("{other:?} is no helper"),
    };
    value as u64
}
