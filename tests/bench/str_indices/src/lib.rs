//! Stands in for the crate str_indices, which is not at hand, below the rope that is timed. Written from
//! document 01's section Counting, to be quick: it allocates nothing, and counts many bytes at once.

/// Weights of a part add up to less than 256.
const PART: usize = 96;

/// A byte's weight, by the byte and the one behind it; behind the last is 0.
type Weight = fn(u8, u8) -> u8;

fn is_start(byte: u8) -> bool {
    byte & 0xC0 != 0x80
}

/// The sum of the weights of the bytes from `start` up to `end`.
#[inline(always)]
fn weigh_part(text: &[u8], start: usize, end: usize, weight: impl Fn(u8, u8) -> u8) -> usize {
    let behind = &text[text.len().min(start + 1)..text.len().min(end + 1)];
    let pairs = text[start..end].iter().zip(behind);
    let sum = pairs.fold(0u8, |sum, (&a, &b)| sum.wrapping_add(weight(a, b)));
    let last = match end == text.len() && start < end {
        true => weight(text[end - 1], 0),
        false => 0,
    };
    usize::from(sum.wrapping_add(last))
}

/// The same, however many they are.
#[inline(always)]
fn weigh(text: &[u8], end: usize, weight: impl Fn(u8, u8) -> u8 + Copy) -> usize {
    let mut sum = 0;
    let mut start = 0;
    while start < end {
        let next = end.min(start + PART);
        sum += weigh_part(text, start, next, weight);
        start = next;
    }
    sum
}

/// The first byte with which the weights pass `index`, or the end.
#[inline(always)]
fn passes(text: &[u8], index: usize, weight: impl Fn(u8, u8) -> u8 + Copy) -> usize {
    let mut left = index;
    let mut start = 0;
    while start < text.len() {
        let end = text.len().min(start + 32);
        let sum = weigh_part(text, start, end, weight);
        if left < sum {
            for at in start..end {
                let behind = text.get(at + 1).copied().unwrap_or(0);
                let own = usize::from(weight(text[at], behind));
                if left < own {
                    return at;
                }
                left -= own;
            }
        }
        left -= sum;
        start = end;
    }
    text.len()
}

/// The start of the char that a byte lies in, or the end.
fn floor(text: &[u8], index: usize) -> usize {
    let mut at = index.min(text.len());
    while at < text.len() && !is_start(text[at]) {
        at -= 1;
    }
    at
}

pub mod chars {
    use super::*;

    const WEIGHT: Weight = |byte, _| u8::from(is_start(byte));

    pub fn count(text: &str) -> usize {
        weigh(text.as_bytes(), text.len(), WEIGHT)
    }

    pub fn from_byte_idx(text: &str, byte_idx: usize) -> usize {
        let text = text.as_bytes();
        weigh(text, floor(text, byte_idx), WEIGHT)
    }

    pub fn to_byte_idx(text: &str, char_idx: usize) -> usize {
        passes(text.as_bytes(), char_idx, WEIGHT)
    }
}

pub mod utf16 {
    use super::*;

    pub fn count_surrogates(text: &str) -> usize {
        weigh(text.as_bytes(), text.len(), |byte, _| {
            u8::from(byte >= 0xF0)
        })
    }

    pub fn to_byte_idx(text: &str, unit: usize) -> usize {
        passes(text.as_bytes(), unit, |byte, _| {
            u8::from(is_start(byte)) + u8::from(byte >= 0xF0)
        })
    }
}

pub mod lines_crlf {
    use super::*;

    /// A break ends with this byte.
    const WEIGHT: Weight =
        |byte, behind| u8::from(byte == b'\n' || byte == b'\r' && behind != b'\n');

    pub fn count_breaks(text: &str) -> usize {
        weigh(text.as_bytes(), text.len(), WEIGHT)
    }

    pub fn from_byte_idx(text: &str, byte_idx: usize) -> usize {
        weigh(text.as_bytes(), byte_idx.min(text.len()), WEIGHT)
    }

    pub fn to_byte_idx(text: &str, line_idx: usize) -> usize {
        match line_idx {
            0 => 0,
            _ => text
                .len()
                .min(passes(text.as_bytes(), line_idx - 1, WEIGHT) + 1),
        }
    }
}
