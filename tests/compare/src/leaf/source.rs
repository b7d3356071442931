//! The source crate's leaf functions. They take texts, so bytes that are none cannot be asked about.

use std::str;

use ropey::probe;

use super::calls::{Call, Case};
use crate::panics::caught;

/// What the source comes to.
pub enum Source {
    /// The two leaves; of a call on one leaf the right one is as it lies.
    Leaves(Vec<u8>, Vec<u8>),
    Panicked,
    NoText,
}

pub fn ask(case: &Case) -> Source {
    let other = match case.call {
        Call::FixSegmentSeam => case.right_leaf(),
        _ => case.taken_piece(),
    };
    // The leaf that `from_str` writes over may hold anything.
    let leaf = match case.call {
        Call::FromStr => b"",
        _ => case.leaf(),
    };
    let (leaf, other) = match (str::from_utf8(leaf), str::from_utf8(other)) {
        (Ok(leaf), Ok(other)) => (leaf, other),
        _ => return Source::NoText,
    };
    match caught(|| leaves(case, leaf, other)) {
        Some((left, right)) => Source::Leaves(left, right),
        None => Source::Panicked,
    }
}

fn leaves(case: &Case, leaf: &str, other: &str) -> (Vec<u8>, Vec<u8>) {
    let two = |(left, right): (String, String)| (left.into_bytes(), right.into_bytes());
    let one = |left: String| (left.into_bytes(), case.right_leaf().to_vec());
    let (start, end) = (case.start, case.end);
    match case.call {
        // Opened only with another call behind it: one that changes nothing.
        Call::FromStr => one(probe::leaf_truncate(other, other.len())),
        Call::InsertStr => one(probe::leaf_insert(leaf, start, other)),
        Call::InsertStrSplit => two(probe::leaf_insert_split(leaf, start, other)),
        // Not opened: its body is the same call of the small string.
        Call::PushStr => one(probe::leaf_insert(leaf, leaf.len(), other)),
        Call::PushStrSplit => two(probe::leaf_push_split(leaf, other)),
        Call::Truncate => one(probe::leaf_truncate(leaf, start)),
        Call::TruncateFront => one(probe::leaf_truncate_front(leaf, start)),
        Call::RemoveRange => one(probe::leaf_remove_range(leaf, start, end)),
        Call::SplitOff => two(probe::leaf_split_off(leaf, start)),
        Call::FixSegmentSeam => two(probe::seam(leaf, other)),
    }
}
