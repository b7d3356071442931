//! The searches, at every index of small sums, and else at each child's end and its neighbours.

use super::calls::Call::*;
use super::calls::Case;
use super::edits::{any_kid, FAR};
use super::memory::{self, Kid, MAX_CHILDREN};
use super::tally::Group;
use crate::texts::Random;

/// Sums to which every index is asked.
const SMALL: u64 = 40;

/// Pairs of indices of one list that a range is asked at.
const RANGES: usize = 60;

pub fn run(group: &mut Group, random: &mut Random) {
    for len in 0..=MAX_CHILDREN {
        let mut memory = memory::noise(1);
        let kids = kids(random, len);
        memory::put_list(&mut memory, 0, &kids);
        if random.below(2) == 0 {
            memory::spoil(&mut memory, 0, len);
        }
        let case = Case::of(&memory, 0);
        for (call, counts) in [
            (SearchByte, &[0][..]),
            (SearchChar, &[1]),
            (SearchUtf16, &[1, 2]),
            (SearchCharOnly, &[1]),
            (SearchLineBreak, &[3]),
        ] {
            for i in indices(&kids, counts) {
                group.compare(&case.at(call, i, random.pick(&FAR)));
            }
        }
        let ends = indices(&kids, &[1]);
        for k in 0..RANGES {
            let (i, j) = (random.pick(&ends), random.pick(&ends));
            // Most of them rise, and end at a child's end or near it.
            let (i, j) = match k % 4 {
                0 => (i, j),
                1 => (i, i.saturating_add(1)),
                _ => (i.min(j), i.max(j)),
            };
            group.compare(&case.at(SearchCharRange, i, j));
        }
    }
}

/// Children of which many are empty, or small, or as large as a leaf, or any.
fn kids(random: &mut Random, len: usize) -> Vec<Kid> {
    let most = random.pick(&[1, 2, 4, 512, 0]);
    let mut kid = |_| match most {
        0 => any_kid(random),
        _ => Kid {
            slot: random.below(80) as u32,
            counts: [(); 4].map(|()| random.below(most + 1) as u32),
        },
    };
    (0..len).map(&mut kid).collect()
}

/// The indices that are asked of the sums of these counts.
fn indices(kids: &[Kid], counts: &[usize]) -> Vec<usize> {
    let count = |kid: &Kid| {
        counts
            .iter()
            .map(|k| u64::from(kid.counts[*k]))
            .sum::<u64>()
    };
    let all: u64 = kids.iter().map(count).sum();
    let mut asked = vec![0, 1, usize::MAX];
    if all <= SMALL {
        asked.extend(2..=all as usize + 2);
        return asked;
    }
    let mut end = 0;
    for kid in kids {
        end += count(kid) as usize;
        asked.extend([end.saturating_sub(1), end, end + 1, end + 2]);
    }
    asked
}
