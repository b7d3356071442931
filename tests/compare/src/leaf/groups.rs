//! What is asked of each leaf, and the groups of leaves.

use super::calls::Call::*;
use super::calls::{Case, CALLS};
use super::info;
use super::rules::MAX_BYTES;
use super::tally::{Group, Tally};
use crate::tally::Totals;
use crate::texts::{every_string, Random, CHARS, DAMAGED};

/// How much a run asks.
pub struct Extent {
    /// Most chars of a leaf and of a piece, of all chars of the alphabet.
    pub leaf: usize,
    pub piece: usize,
    /// The same where the regions have every size.
    pub tight: usize,
    /// Most chars that are laid around the half and at a seam.
    pub around: usize,
    pub random: usize,
    /// Most chars of the texts that are counted.
    pub counted: usize,
}

/// The sizes of the two lent regions.
#[derive(Clone, Copy)]
struct Rooms {
    left: usize,
    right: usize,
}

const WHOLE: Rooms = Rooms {
    left: MAX_BYTES,
    right: MAX_BYTES,
};

/// Sizes of a leaf, a piece or a region where a limit is met, passed or just missed.
const SIZES: [usize; 9] = [0, 1, 2, 255, 256, 511, 512, 513, 600];

/// Sizes of a piece that is split at once: two leaves have 1,024 bytes.
const LONG_PIECES: [usize; 4] = [1_023, 1_024, 1_025, 1_100];

pub fn run(extent: &Extent, totals: &mut Totals) {
    let mut random = Random::new();
    let mut tally = Tally::default();

    let (leaf, piece) = (extent.leaf, extent.piece);
    let name = format!("leaves to {leaf} chars, pieces to {piece}");
    tally.group(totals, &name, |group| small(group, leaf, piece));
    let name = format!("leaves and pieces to {} chars, every room", extent.tight);
    tally.group(totals, &name, |group| tight(group, extent.tight));
    let name = format!("texts to {} chars around the half", extent.around);
    tally.group(totals, &name, |group| around_half(group, extent.around));
    let name = format!("texts to {} chars at a seam", extent.around);
    tally.group(totals, &name, |group| at_seam(group, extent.around));
    tally.group(totals, "leaves, pieces and rooms at the limits", |group| {
        limits(group, &mut random)
    });
    tally.group(totals, "random leaves and pieces", |group| {
        for _ in 0..extent.random {
            any(group, &mut random, |_, text| text);
        }
    });
    tally.group(totals, "damaged leaves and pieces", |group| {
        for _ in 0..extent.random {
            any(group, &mut random, |random, text| random.damaged(&text));
        }
    });
    tally.group(totals, "leaves and pieces that are no text", ill_formed);
    tally.group(totals, "lengths far past the regions", far);
    tally.group(totals, "numbers that name no call", unknown);

    tally.close();
    info::run(extent.counted, extent.random, &mut random, totals);
}

/// A region with a leaf, or as much of it as fits, before bytes that tell every move.
fn region(size: usize, leaf: &[u8]) -> Vec<u8> {
    let mut bytes: Vec<u8> = (0..size).map(|i| (i * 37 + i / 256) as u8 ^ 0xA5).collect();
    let held = size.min(leaf.len());
    bytes[..held].copy_from_slice(&leaf[..held]);
    bytes
}

/// The calls that take a piece, at these indices. What the right region holds is arbitrary.
fn with_piece(group: &mut Group, rooms: Rooms, leaf: &[u8], piece: &[u8], indices: &[usize]) {
    let (left, right) = (region(rooms.left, leaf), region(rooms.right, b"\r\n"));
    let case = case(&left, leaf.len(), piece, &right, rooms.left);
    for call in [FromStr, PushStr, PushStrSplit] {
        group.compare(&case.at(call, 0, 0));
    }
    for &start in indices {
        for call in [InsertStr, InsertStrSplit] {
            group.compare(&case.at(call, start, 0));
        }
    }
}

/// The calls that only take away, at these indices and pairs of them.
fn without(group: &mut Group, rooms: Rooms, leaf: &[u8], indices: &[usize]) {
    let (left, right) = (region(rooms.left, leaf), region(rooms.right, b"\r\n"));
    let case = case(&left, leaf.len(), b"\xFF", &right, rooms.left);
    for &start in indices {
        for call in [Truncate, TruncateFront, SplitOff] {
            group.compare(&case.at(call, start, 0));
        }
        for &end in indices {
            group.compare(&case.at(RemoveRange, start, end));
        }
    }
}

fn seam(group: &mut Group, rooms: Rooms, leaf: &[u8], right_leaf: &[u8]) {
    let (left, right) = (region(rooms.left, leaf), region(rooms.right, right_leaf));
    let case = case(&left, leaf.len(), b"\xFF", &right, right_leaf.len());
    group.compare(&case.at(FixSegmentSeam, 0, 0));
}

/// A question that is still to be put to a call.
fn case<'a>(
    left: &'a [u8],
    len: usize,
    piece: &'a [u8],
    right: &'a [u8],
    right_len: usize,
) -> Case<'a> {
    Case {
        call: FromStr,
        left,
        len,
        start: 0,
        end: 0,
        piece,
        right,
        right_len,
    }
}

/// Every index of a leaf, and two past its end.
fn every_index(leaf: &[u8]) -> Vec<usize> {
    (0..=leaf.len() + 1).chain([usize::MAX]).collect()
}

fn strings(most: usize) -> Vec<Vec<u8>> {
    let mut all = Vec::new();
    every_string(&CHARS.map(str::as_bytes), most, &mut |text| {
        all.push(text.to_vec())
    });
    all
}

/// All short leaves, with all short pieces and beside all short leaves, in regions of full size.
fn small(group: &mut Group, most_leaf: usize, most_piece: usize) {
    let leaves = strings(most_leaf);
    let pieces = strings(most_piece);
    for leaf in &leaves {
        let indices = every_index(leaf);
        without(group, WHOLE, leaf, &indices);
        for piece in &pieces {
            with_piece(group, WHOLE, leaf, piece, &indices);
            seam(group, WHOLE, leaf, piece);
            seam(group, WHOLE, piece, leaf);
        }
    }
}

/// The same in regions of every size from nothing to more than is needed.
fn tight(group: &mut Group, most: usize) {
    let texts = strings(most);
    for leaf in &texts {
        let indices = every_index(leaf);
        for other in &texts {
            for left in 0..=leaf.len() + other.len() + 1 {
                for right in 0..=leaf.len() + other.len() + 1 {
                    let rooms = Rooms { left, right };
                    with_piece(group, rooms, leaf, other, &indices);
                    seam(group, rooms, leaf, other);
                    if other.is_empty() {
                        without(group, rooms, leaf, &indices);
                    }
                }
            }
        }
    }
}

/// Every short text at every place of the eight bytes around the half of a whole, which is cut
/// into a leaf and a piece at many places.
fn around_half(group: &mut Group, most: usize) {
    for text in strings(most) {
        for total in [8, 9, 10, 13, 24, 511, 512, 513, 1_023, 1_024, 1_025] {
            let mid: usize = total / 2;
            for from in mid.saturating_sub(5)..=mid + 4 {
                if from + text.len() <= total {
                    let mut whole = vec![b'a'; total];
                    whole[from..from + text.len()].copy_from_slice(&text);
                    cut_whole(group, &whole, from, text.len());
                }
            }
        }
    }
}

/// A whole as a leaf with a piece put in: the piece ends, starts or lies around the text.
fn cut_whole(group: &mut Group, whole: &[u8], from: usize, len: usize) {
    let ends = [
        0,
        1,
        from,
        from + 1,
        from + len,
        whole.len() - 1,
        whole.len(),
    ];
    let chars = std::str::from_utf8(whole).expect("the whole is a text");
    for a in ends {
        for b in ends {
            if a <= b && chars.is_char_boundary(a) && chars.is_char_boundary(b) {
                let leaf = [&whole[..a], &whole[b..]].concat();
                if leaf.len() <= MAX_BYTES {
                    let rooms = Rooms {
                        left: MAX_BYTES + a % 2,
                        right: MAX_BYTES + b % 2,
                    };
                    with_piece(group, rooms, &leaf, &whole[a..b], &[a]);
                }
            }
        }
    }
}

/// Every short text before a seam and every one behind it, with leaves of several sizes around.
fn at_seam(group: &mut Group, most: usize) {
    let texts = strings(most);
    let longer = [0, 1, 100, 511, 512, 513];
    for before in &texts {
        for behind in &texts {
            for left in longer {
                for right in longer {
                    let mut leaf = vec![b'a'; left.max(before.len()) - before.len()];
                    leaf.extend_from_slice(before);
                    let mut right_leaf = behind.clone();
                    right_leaf.resize(right.max(behind.len()), b'a');
                    seam(group, WHOLE, &leaf, &right_leaf);
                }
            }
        }
    }
}

/// Leaves, pieces and regions of the sizes at the limits, in all combinations.
fn limits(group: &mut Group, random: &mut Random) {
    for leaf_len in SIZES {
        let leaf = random.text_of(leaf_len);
        let mut indices = vec![0, 1, 2, leaf_len / 2, leaf_len, leaf_len + 1, usize::MAX];
        indices.extend(leaf_len.checked_sub(1));
        indices.push(random.below(leaf_len + 1));
        for left in SIZES {
            for right in SIZES {
                let rooms = Rooms { left, right };
                without(group, rooms, &leaf, &indices);
                for other_len in SIZES.into_iter().chain(LONG_PIECES) {
                    let other = random.text_of(other_len);
                    with_piece(group, rooms, &leaf, &other, &indices);
                    seam(group, rooms, &leaf, &other);
                }
            }
        }
    }
}

/// A random leaf with a random piece or right leaf, each damaged or not, at some indices.
fn any(
    group: &mut Group,
    random: &mut Random,
    mut damage: impl FnMut(&mut Random, Vec<u8>) -> Vec<u8>,
) {
    let most = random.pick(&[12, 80, MAX_BYTES, MAX_BYTES]);
    let mut texts = [
        random.text(most).into_bytes(),
        random.text(most).into_bytes(),
    ];
    // One of the two is spared, or none.
    let spared = random.below(3);
    for (k, text) in texts.iter_mut().enumerate() {
        if spared != k {
            *text = damage(random, std::mem::take(text));
        }
    }
    let [leaf, other] = texts;
    let mut size = |text: &[u8]| match random.below(4) {
        0 => random.below(text.len() + other.len() + 2),
        1 => MAX_BYTES + random.below(90),
        _ => MAX_BYTES,
    };
    let rooms = Rooms {
        left: size(&leaf),
        right: size(&leaf),
    };
    let indices: Vec<usize> = (0..4).map(|_| random.index_of(&leaf)).collect();
    with_piece(group, rooms, &leaf, &other, &indices);
    without(group, rooms, &leaf, &indices);
    seam(group, rooms, &leaf, &other);
    seam(group, rooms, &leaf, &leaf[..leaf.len() / 2]);
}

/// Each way in which bytes are no text, alone and between chars, as a leaf and beside one.
fn ill_formed(group: &mut Group) {
    for bytes in DAMAGED {
        for bytes in [bytes.to_vec(), [b"\n", bytes, b"\r"].concat()] {
            let indices = every_index(&bytes);
            without(group, WHOLE, &bytes, &indices);
            for other in strings(1) {
                with_piece(group, WHOLE, &bytes, &other, &indices);
                with_piece(group, WHOLE, &other, &bytes, &every_index(&other));
                seam(group, WHOLE, &bytes, &other);
                seam(group, WHOLE, &other, &bytes);
            }
        }
    }
}

/// Regions with a leaf in all their bytes, whose length is said to be the greatest there is.
fn far(group: &mut Group) {
    for leaf in strings(2) {
        let case = case(&leaf, usize::MAX, b"\n", &leaf, usize::MAX);
        for call in CALLS {
            for start in every_index(&leaf) {
                group.compare(&case.at(call, start, start));
            }
        }
    }
}

fn unknown(group: &mut Group) {
    let (left, right) = (region(20, b"ab\r"), region(20, b"\nc"));
    let case = case(&left, 3, b"x", &right, 2);
    for number in (0..=0).chain(FixSegmentSeam as u8 + 1..=u8::MAX) {
        group.compare_unknown(number, &case);
    }
}
