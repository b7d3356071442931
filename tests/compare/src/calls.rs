//! The calls that are compared, and what they answer.

/// A function of the library. The numbers up to 21 are those of the recorded sample.
#[derive(Clone, Copy, Debug, PartialEq, Eq)]
pub enum Func {
    IsBreak = 1,
    SeamIsBreak = 2,
    PrevBreak = 3,
    NextBreak = 4,
    NearestInternalBreak = 5,
    FindGoodSplit = 6,
    CountChars = 7,
    ByteToCharIdx = 8,
    CharToByteIdx = 9,
    CountUtf16Surrogates = 10,
    CountLineBreaks = 11,
    ByteToLineIdx = 12,
    LineToByteIdx = 13,
    CharToLineIdx = 14,
    LineToCharIdx = 15,
    ByteToUtf16SurrogateIdx = 16,
    Utf16CodeUnitToCharIdx = 17,
    LastLineStartByteIdx = 18,
    TrimLineBreak = 19,
    EndsWithLineBreak = 20,
    Valid = 21,
    RawCountChars = 22,
    RawCountSurrogates = 23,
    RawCountBreaks = 24,
}

use Func::*;

/// The break functions that take an index, with their bias where they have one.
pub const BREAK_FUNCS: [(Func, bool); 6] = [
    (IsBreak, false),
    (PrevBreak, false),
    (NextBreak, false),
    (NearestInternalBreak, false),
    (FindGoodSplit, false),
    (FindGoodSplit, true),
];

/// The helpers that take a text alone.
pub const WHOLE_FUNCS: [Func; 6] = [
    CountChars,
    CountUtf16Surrogates,
    CountLineBreaks,
    LastLineStartByteIdx,
    TrimLineBreak,
    EndsWithLineBreak,
];

/// The helpers that take a text and an index.
pub const INDEX_FUNCS: [Func; 8] = [
    ByteToCharIdx,
    CharToByteIdx,
    ByteToLineIdx,
    LineToByteIdx,
    CharToLineIdx,
    LineToCharIdx,
    ByteToUtf16SurrogateIdx,
    Utf16CodeUnitToCharIdx,
];

/// The counts without a check of the text, asked of well-formed texts only.
pub const RAW_FUNCS: [Func; 3] = [RawCountChars, RawCountSurrogates, RawCountBreaks];

/// One call. For `SeamIsBreak` the text is both sides joined and the index the left side's length.
#[derive(Clone, Copy, Debug)]
pub struct Case<'a> {
    pub func: Func,
    pub text: &'a [u8],
    pub index: usize,
    pub bias_left: bool,
}

impl<'a> Case<'a> {
    pub fn whole(func: Func, text: &'a [u8]) -> Self {
        Case::at(func, text, 0)
    }

    pub fn at(func: Func, text: &'a [u8], index: usize) -> Self {
        Case::biased((func, false), text, index)
    }

    pub fn biased((func, bias_left): (Func, bool), text: &'a [u8], index: usize) -> Self {
        Case {
            func,
            text,
            index,
            bias_left,
        }
    }
}

#[derive(Clone, Copy, Debug, PartialEq, Eq)]
pub enum Answer {
    /// A yes or no is 1 or 0; the trimmed text is its length, as it is always a prefix.
    Value(u64),
    Refused(u8),
    /// Refused by this number, but the output was changed to this value.
    RefusedAndWrote(u8, u64),
}
