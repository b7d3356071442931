//! The leaf's calls that are compared, and what one leaves behind.

/// A call by its number.
#[derive(Clone, Copy, Debug, PartialEq, Eq)]
pub enum Call {
    FromStr = 1,
    InsertStr = 2,
    InsertStrSplit = 3,
    PushStr = 4,
    PushStrSplit = 5,
    Truncate = 6,
    TruncateFront = 7,
    RemoveRange = 8,
    SplitOff = 9,
    FixSegmentSeam = 10,
}

use Call::*;

/// In the order of their numbers, from 1.
pub const CALLS: [Call; 10] = [
    FromStr,
    InsertStr,
    InsertStrSplit,
    PushStr,
    PushStrSplit,
    Truncate,
    TruncateFront,
    RemoveRange,
    SplitOff,
    FixSegmentSeam,
];

impl Call {
    pub fn name(self) -> &'static str {
        match self {
            FromStr => "from_str",
            InsertStr => "insert_str",
            InsertStrSplit => "insert_str_split",
            PushStr => "push_str",
            PushStrSplit => "push_str_split",
            Truncate => "truncate",
            TruncateFront => "truncate_front",
            RemoveRange => "remove_range",
            SplitOff => "split_off",
            FixSegmentSeam => "fix_segment_seam",
        }
    }

    /// Whether the call writes a right leaf, and not the left one alone.
    pub fn writes_right(self) -> bool {
        matches!(
            self,
            InsertStrSplit | PushStrSplit | SplitOff | FixSegmentSeam
        )
    }
}

/// One call, with the two lent regions as they lie before it.
#[derive(Clone, Copy)]
pub struct Case<'a> {
    pub call: Call,
    pub left: &'a [u8],
    pub len: usize,
    pub start: usize,
    pub end: usize,
    pub piece: &'a [u8],
    pub right: &'a [u8],
    pub right_len: usize,
}

impl<'a> Case<'a> {
    /// The same question to this call, at [start, end).
    pub fn at(self, call: Call, start: usize, end: usize) -> Self {
        Case {
            call,
            start,
            end,
            ..self
        }
    }

    /// The left leaf: no more than its region.
    pub fn leaf(&self) -> &'a [u8] {
        &self.left[..self.len.min(self.left.len())]
    }

    pub fn right_leaf(&self) -> &'a [u8] {
        &self.right[..self.right_len.min(self.right.len())]
    }

    /// The piece of the calls that take one.
    pub fn taken_piece(&self) -> &'a [u8] {
        match self.call {
            FromStr | InsertStr | InsertStrSplit | PushStr | PushStrSplit => self.piece,
            _ => b"",
        }
    }
}

/// What the two outputs hold before each call. No right length is as large.
pub const UNTOUCHED: (u64, u64) = (0xA5A5_5A5A_C3C3_3C3C, 0x5A5A_A5A5_3C3C_C3C3);

/// What a call leaves: the refusal or 0, the two outputs, and the two regions with their margins.
#[derive(PartialEq, Eq)]
pub struct After {
    pub refusal: u8,
    pub lengths: (u64, u64),
    pub left: Vec<u8>,
    pub right: Vec<u8>,
}

impl After {
    /// The two leaves, both empty where the call is refused.
    pub fn leaves(&self) -> (&[u8], &[u8]) {
        if self.refusal != 0 {
            return (b"", b"");
        }
        let (left, right) = (self.lengths.0 as usize, self.lengths.1 as usize);
        (&self.left[MARGIN..][..left], &self.right[MARGIN..][..right])
    }
}

/// Bytes on both sides of a lent region, which no call may touch.
pub const MARGIN: usize = 16;

/// A copy of a region between two margins.
pub fn with_margins(region: &[u8]) -> Vec<u8> {
    let mut bytes = vec![0xEE; region.len() + 2 * MARGIN];
    bytes[MARGIN..MARGIN + region.len()].copy_from_slice(region);
    bytes
}
