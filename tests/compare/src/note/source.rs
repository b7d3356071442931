//! The source's rope over the same text: its totals and conversions.

use notes::asks::Call;
use ropey::Rope;

/// The source's answer, if it has this call. The index is in range.
pub fn ask(rope: &Rope, call: Call, index: usize) -> Option<usize> {
    Some(match call {
        Call::LenBytes => rope.len_bytes(),
        Call::LenChars => rope.len_chars(),
        Call::LenUtf16Cu => rope.len_utf16_cu(),
        Call::LenLines => rope.len_lines(),
        Call::Slots | Call::EditNumber | Call::MarkPlace | Call::MarkLine => return None,
        Call::ByteToChar => rope.byte_to_char(index),
        Call::CharToByte => rope.char_to_byte(index),
        Call::ByteToLine => rope.byte_to_line(index),
        Call::LineToByte => rope.line_to_byte(index),
        Call::CharToLine => rope.char_to_line(index),
        Call::LineToChar => rope.line_to_char(index),
        Call::CharToUtf16Cu => rope.char_to_utf16_cu(index),
        Call::Utf16CuToChar => rope.utf16_cu_to_char(index),
    })
}
