//! The calls on child lists that are compared, and what one leaves behind.

use super::memory::Kid;

/// A call by its number: the functions of the source's file in their order.
#[derive(Clone, Copy, Debug, PartialEq, Eq)]
pub enum Call {
    New = 1,
    Len = 2,
    IsFull = 3,
    UpdateChildInfo = 4,
    Push = 5,
    PushSplit = 6,
    MergeDistribute = 7,
    DistributeWith = 8,
    CompactLeaves = 9,
    Pop = 10,
    Insert = 11,
    InsertSplit = 12,
    Remove = 13,
    SplitOff = 14,
    CombinedInfo = 15,
    SearchByte = 16,
    SearchChar = 17,
    SearchUtf16 = 18,
    SearchCharOnly = 19,
    SearchLineBreak = 20,
    SearchCharRange = 21,
    IsInfoAccurate = 22,
}

use Call::*;

/// In the order of their numbers, from 1.
pub const CALLS: [Call; 22] = [
    New,
    Len,
    IsFull,
    UpdateChildInfo,
    Push,
    PushSplit,
    MergeDistribute,
    DistributeWith,
    CompactLeaves,
    Pop,
    Insert,
    InsertSplit,
    Remove,
    SplitOff,
    CombinedInfo,
    SearchByte,
    SearchChar,
    SearchUtf16,
    SearchCharOnly,
    SearchLineBreak,
    SearchCharRange,
    IsInfoAccurate,
];

impl Call {
    pub fn name(self) -> &'static str {
        match self {
            New => "new",
            Len => "len",
            IsFull => "is_full",
            UpdateChildInfo => "update_child_info",
            Push => "push",
            PushSplit => "push_split",
            MergeDistribute => "merge_distribute",
            DistributeWith => "distribute_with",
            CompactLeaves => "compact_leaves",
            Pop => "pop",
            Insert => "insert",
            InsertSplit => "insert_split",
            Remove => "remove",
            SplitOff => "split_off",
            CombinedInfo => "combined_info",
            SearchByte => "search_byte_idx",
            SearchChar => "search_char_idx",
            SearchUtf16 => "search_utf16_code_unit_idx",
            SearchCharOnly => "search_char_idx_only",
            SearchLineBreak => "search_line_break_idx",
            SearchCharRange => "search_char_idx_range",
            IsInfoAccurate => "is_info_accurate",
        }
    }
}

/// One call, with the lent memory as it lies before it.
#[derive(Clone, Copy)]
pub struct Case<'a> {
    pub call: Call,
    pub memory: &'a [u8],
    pub slot: usize,
    pub other: usize,
    pub i: usize,
    pub j: usize,
    pub kid: Kid,
}

impl<'a> Case<'a> {
    /// A question to the list in a slot, still to be put to a call.
    pub fn of(memory: &'a [u8], slot: usize) -> Self {
        Case {
            call: New,
            memory,
            slot,
            other: 0,
            i: 0,
            j: 0,
            kid: Kid::NONE,
        }
    }

    /// The same question to this call, with these indices.
    pub fn at(self, call: Call, i: usize, j: usize) -> Self {
        Case { call, i, j, ..self }
    }

    pub fn beside(self, other: usize) -> Self {
        Case { other, ..self }
    }
}

/// The five numbers of an answer.
pub type Numbers = [u64; 5];

/// What the numbers hold before each call.
pub const UNTOUCHED: Numbers = [
    0xA5A5_5A5A_C3C3_3C3C,
    0x5A5A_A5A5_3C3C_C3C3,
    0xA5C3_3C5A_A5C3_3C5A,
    0x3C5A_A5C3_3C5A_A5C3,
    0xC3A5_5A3C_C3A5_5A3C,
];

/// What a call leaves: the refusal or 0, the numbers, and the memory with its margins.
#[derive(PartialEq, Eq)]
pub struct After {
    pub refusal: u8,
    pub numbers: Numbers,
    pub memory: Vec<u8>,
}

/// Bytes on both sides of the lent memory, which no call may touch.
pub const MARGIN: usize = 16;

/// A copy of a memory between two margins.
pub fn with_margins(memory: &[u8]) -> Vec<u8> {
    let mut bytes = Vec::with_capacity(memory.len() + 2 * MARGIN);
    bytes.extend_from_slice(&[0xEE; MARGIN]);
    bytes.extend_from_slice(memory);
    bytes.extend_from_slice(&[0xEE; MARGIN]);
    bytes
}
