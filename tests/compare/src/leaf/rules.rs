//! What is due: the source's two leaves, or a refusal by the table of document 01.

use super::calls::{with_margins, After, Call, Case, UNTOUCHED};
use super::source::Source;

/// The most bytes of a leaf.
pub const MAX_BYTES: usize = 512;

const PLACE: u8 = 3;
const TEXT: u8 = 5;
const SIZE: u8 = 11;
const SIDE: u8 = 12;

/// What has to be left behind, given what the source came to.
pub fn due(case: &Case, source: &Source) -> After {
    match (refusal_of_given(case), source) {
        (0, Source::Leaves(left, right)) => {
            let over = case.call.writes_right() && right.len() > room(case.right);
            if over || left.len() > room(case.left) {
                return refused(case, SIZE);
            }
            After {
                refusal: 0,
                lengths: (left.len() as u64, right.len() as u64),
                left: with_margins(&laid(case.left, left)),
                right: with_margins(&laid(case.right, right)),
            }
        }
        (number, _) => refused(case, number),
    }
}

/// A refused call changes nothing.
pub fn refused(case: &Case, refusal: u8) -> After {
    After {
        refusal,
        lengths: UNTOUCHED,
        left: with_margins(case.left),
        right: with_margins(case.right),
    }
}

/// Whether the source panics exactly where the table has 3 or 12, if it can be asked at all.
pub fn panic_is_due(case: &Case, source: &Source) -> bool {
    let due = matches!(refusal_of_given(case), PLACE | SIDE);
    match source {
        Source::Leaves(..) => !due,
        Source::Panicked => due,
        Source::NoText => true,
    }
}

/// The refusal for what the call is given, or 0: 12 before all, then by rising number.
fn refusal_of_given(case: &Case) -> u8 {
    let leaf = case.leaf();
    let no_text = |bytes| std::str::from_utf8(bytes).is_err();
    if case.call == Call::FixSegmentSeam {
        let right = case.right_leaf();
        return if leaf.is_empty() || right.is_empty() {
            SIDE
        } else if no_text(leaf) || no_text(right) {
            TEXT
        } else if case.len > room(case.left) || case.right_len > room(case.right) {
            SIZE
        } else {
            0
        };
    }

    let (start, end) = match case.call {
        Call::FromStr => (0, 0),
        Call::PushStr | Call::PushStrSplit => (leaf.len(), leaf.len()),
        Call::Truncate => (case.start, leaf.len()),
        Call::TruncateFront => (0, case.start),
        Call::RemoveRange => (case.start, case.end),
        _ => (case.start, case.start),
    };
    let takes_leaf = case.call != Call::FromStr;
    if start > end || !is_boundary(leaf, start) || !is_boundary(leaf, end) {
        PLACE
    } else if (takes_leaf && no_text(leaf)) || no_text(case.taken_piece()) {
        TEXT
    } else if takes_leaf && case.len > room(case.left) {
        SIZE
    } else {
        0
    }
}

/// 0, the end, or a byte that is no continuation byte.
fn is_boundary(leaf: &[u8], index: usize) -> bool {
    index == 0 || index == leaf.len() || leaf.get(index).map_or(false, |b| b & 0xC0 != 0x80)
}

/// How long a leaf in a region can be.
fn room(region: &[u8]) -> usize {
    region.len().min(MAX_BYTES)
}

/// The region with a text at its front, and as it was behind that.
fn laid(region: &[u8], text: &[u8]) -> Vec<u8> {
    let mut bytes = text.to_vec();
    bytes.extend_from_slice(&region[text.len()..]);
    bytes
}
