//! The leaf's calls in the sample. All regions have the size of a leaf.
//!
//! A record, numbers big-endian: function 1 (21 and the call's number), start 2, end 2, a zero,
//! leaf length 2, the leaf, length 2 of the piece or the right leaf, that, refusal 1 (0: accepted),
//! the lengths 2 and 2 of the two leaves afterwards, and these (empty where refused). Of a leaf no
//! more bytes stand there than a region has.

use super::calls::Call::{self, *};
use super::calls::{Case, CALLS};
use super::rules::{self, MAX_BYTES};
use super::source;
use crate::record::Sample;
use crate::texts::{Random, CHARS, DAMAGED};

/// Records of the leaf's calls.
const RECORDS: usize = 2_000;

/// The functions before the leaf's calls.
const BEFORE: u8 = 21;

/// Asked at every index, with every one of the pieces and beside each other.
const LEAVES: [&str; 7] = ["", "a", "\r", "\r\nb", "a\r\n", "é\r", "\n😀"];
const PIECES: [&str; 5] = ["", "\n", "\r", "xあ", "\r\n\r\n"];

/// The sizes where a limit is met, passed or just missed.
const SIZES: [usize; 5] = [1, 256, 511, 512, 513];

pub fn write(sample: &mut Sample) {
    let end = sample.records + RECORDS;
    for leaf in LEAVES {
        for index in 0..=leaf.len() + 1 {
            at_index(sample, leaf.as_bytes(), index);
        }
        for other in PIECES.into_iter().chain(LEAVES).chain(CHARS) {
            beside(sample, leaf.as_bytes(), other.as_bytes());
        }
    }
    for bytes in DAMAGED {
        beside(sample, bytes, b"a");
        beside(sample, b"a", bytes);
        at_index(sample, bytes, 0);
    }
    let mut random = Random::new();
    for leaf in SIZES {
        for other in SIZES {
            long(sample, &mut random, leaf, other);
        }
    }
    while sample.records < end {
        let leaf = random.text(24).into_bytes();
        let other = random.text(16).into_bytes();
        let call = random.pick(&CALLS);
        let range = (random.index_of(&leaf), random.index_of(&leaf));
        add(sample, call, &leaf, range, &other);
    }
}

/// The calls at one index, and removal from there to each index.
fn at_index(sample: &mut Sample, leaf: &[u8], start: usize) {
    for call in [Truncate, TruncateFront, SplitOff] {
        add(sample, call, leaf, (start, 0), b"");
    }
    for end in 0..=leaf.len() + 1 {
        add(sample, RemoveRange, leaf, (start, end), b"");
    }
    for piece in PIECES {
        for call in [InsertStr, InsertStrSplit] {
            add(sample, call, leaf, (start, 0), piece.as_bytes());
        }
    }
}

/// The calls that take another text and no index.
fn beside(sample: &mut Sample, leaf: &[u8], other: &[u8]) {
    for call in [FromStr, PushStr, PushStrSplit, FixSegmentSeam] {
        add(sample, call, leaf, (0, 0), other);
    }
}

/// Texts of these sizes, with CR before the seam and LF behind it: one call that splits, one that
/// mends, one that joins and one that cuts.
fn long(sample: &mut Sample, random: &mut Random, leaf: usize, other: usize) {
    let mut leaf = random.text_of(leaf - 1);
    leaf.push(b'\r');
    let mut other = random.text_of(other - 1);
    other.insert(0, b'\n');
    let start = random.index_of(&leaf);
    for call in [InsertStrSplit, FixSegmentSeam] {
        add(sample, call, &leaf, (start, 0), &other);
    }
    let call = random.pick(&[InsertStr, PushStr, PushStrSplit, FromStr]);
    add(sample, call, &leaf, (start, 0), &other);
    let call = random.pick(&[Truncate, TruncateFront, SplitOff]);
    add(sample, call, &leaf, (start, 0), b"");
}

/// The record of one call. A piece and a right leaf have one place, as no call takes both.
fn add(sample: &mut Sample, call: Call, leaf: &[u8], (start, end): (usize, usize), other: &[u8]) {
    let mut left = leaf.to_vec();
    let mut right = match call {
        FixSegmentSeam => other.to_vec(),
        _ => Vec::new(),
    };
    let right_len = right.len();
    left.resize(MAX_BYTES, 0);
    right.resize(MAX_BYTES, 0);
    let case = Case {
        call,
        left: &left,
        len: leaf.len(),
        start,
        end,
        piece: other,
        right: &right,
        right_len,
    };
    let due = rules::due(&case, &source::ask(&case));
    let (left_after, right_after) = due.leaves();

    let two = |n: usize| {
        u16::try_from(n)
            .expect("the number fits 2 bytes")
            .to_be_bytes()
    };
    let mut bytes = Vec::new();
    bytes.extend_from_slice(&two(start));
    bytes.extend_from_slice(&two(end));
    bytes.push(0);
    bytes.extend_from_slice(&two(leaf.len()));
    bytes.extend_from_slice(case.leaf());
    bytes.extend_from_slice(&two(other.len()));
    bytes.extend_from_slice(match call {
        FixSegmentSeam => case.right_leaf(),
        _ => other,
    });
    bytes.push(due.refusal);
    bytes.extend_from_slice(&two(left_after.len()));
    bytes.extend_from_slice(&two(right_after.len()));
    bytes.extend_from_slice(left_after);
    bytes.extend_from_slice(right_after);
    sample.push(BEFORE + call as u8, due.refusal != 0, &bytes);
}
