//! Lists with their children's nodes: leaves and lists that are merged, shared out, packed and
//! counted.

use super::calls::Call::*;
use super::calls::Case;
use super::edits::FAR;
use super::memory::{self, counts_of, Kid, MAX_BYTES, MAX_CHILDREN};
use super::tally::Group;
use crate::texts::{every_string, Random, CHARS};

/// A child's node.
pub enum Child {
    Leaf(Vec<u8>),
    List(Vec<Kid>),
}

/// A list in a memory, with its children in slots of any order.
pub struct Made {
    pub memory: Vec<u8>,
    pub slot: usize,
    pub kids: Vec<Kid>,
}

impl Made {
    /// In a memory of noise with two slots more than there are children, whose counts are the true
    /// ones.
    pub fn of(random: &mut Random, children: &[Child]) -> Self {
        Self::within(memory::noise(children.len() + 2), random, children)
    }

    /// The same in this memory, which has as many slots.
    pub fn within(mut memory: Vec<u8>, random: &mut Random, children: &[Child]) -> Self {
        let slots = children.len() + 2;
        let mut order: Vec<usize> = (0..slots).collect();
        for k in (1..slots).rev() {
            order.swap(k, random.below(k + 1));
        }
        let mut kids = Vec::new();
        for (child, &slot) in children.iter().zip(&order) {
            let counts = match child {
                Child::Leaf(text) => {
                    memory::put_leaf(&mut memory, slot, text);
                    counts_of(&String::from_utf8_lossy(text))
                }
                Child::List(list) => {
                    memory::put_list(&mut memory, slot, list);
                    sums(list)
                }
            };
            kids.push(Kid {
                slot: slot as u32,
                counts,
            });
        }
        let slot = order[children.len()];
        memory::put_list(&mut memory, slot, &kids);
        Made { memory, slot, kids }
    }

    pub fn case(&self) -> Case<'_> {
        Case::of(&self.memory, self.slot)
    }

    /// Changes one count of a child, or nothing.
    fn miscount(&mut self, random: &mut Random) {
        if self.kids.is_empty() || random.below(3) == 0 {
            return;
        }
        let k = random.below(self.kids.len());
        let count = &mut self.kids[k].counts[random.below(4)];
        *count = count.wrapping_add(random.pick(&[1, u32::MAX, 7]));
        memory::put_list(&mut self.memory, self.slot, &self.kids);
    }

    /// Spoils what is not read of the list, or nothing.
    fn spoil(&mut self, random: &mut Random) {
        if random.below(2) == 0 {
            memory::spoil(&mut self.memory, self.slot, self.kids.len());
        }
    }
}

/// The sums of a list's counts; one above 32 bits is never stored and so may be anything.
fn sums(list: &[Kid]) -> [u32; 4] {
    let mut sums = [0u32; 4];
    for kid in list {
        for (sum, count) in sums.iter_mut().zip(kid.counts) {
            *sum = sum.wrapping_add(count);
        }
    }
    sums
}

/// Two leaves: merged or shared out, and packed.
fn two(group: &mut Group, random: &mut Random, left: &[u8], right: &[u8]) {
    let mut made = Made::of(
        random,
        &[Child::Leaf(left.to_vec()), Child::Leaf(right.to_vec())],
    );
    made.miscount(random);
    made.spoil(random);
    group.compare(&made.case().at(MergeDistribute, 0, 1));
    group.compare(&made.case().at(CompactLeaves, 0, 0));
}

/// Every short text around the half of two leaves and around the end of a full one, cut in two at
/// many places.
pub fn around_half(group: &mut Group, most: usize) {
    let random = &mut Random::new();
    every_string(&CHARS.map(str::as_bytes), most, &mut |text| {
        for total in [511, 512, 513, 514, 515, 700, 1_021, 1_022, 1_023, 1_024] {
            for from in (total / 2 - 4..total / 2 + 4).chain(MAX_BYTES - 4..MAX_BYTES + 2) {
                if from + text.len() <= total {
                    let mut whole = vec![b'a'; total];
                    whole[from..from + text.len()].copy_from_slice(text);
                    cut_whole(group, random, &whole, from, text.len());
                }
            }
        }
    });
}

fn cut_whole(group: &mut Group, random: &mut Random, whole: &[u8], from: usize, len: usize) {
    let chars = std::str::from_utf8(whole).expect("the whole is a text");
    let least = whole.len().saturating_sub(MAX_BYTES);
    let most = whole.len().min(MAX_BYTES);
    let cuts = [least, from, from + 1, from + len / 2, from + len, most];
    for (k, &cut) in cuts.iter().enumerate() {
        let is_new = !cuts[..k].contains(&cut);
        if is_new && least <= cut && cut <= most && chars.is_char_boundary(cut) {
            two(group, random, &whole[..cut], &whole[cut..]);
        }
    }
}

/// A text of this many bytes, between these two where they fit.
fn between(random: &mut Random, len: usize, first: &str, last: &str) -> Vec<u8> {
    match len.checked_sub(first.len() + last.len()) {
        Some(rest) => [first.as_bytes(), &random.text_of(rest), last.as_bytes()].concat(),
        None => random.text_of(len),
    }
}

/// Leaves of the sizes where a limit is met, passed or just missed, with several seams.
pub fn limits(group: &mut Group, random: &mut Random) {
    let sizes = [
        0, 1, 2, 3, 4, 5, 100, 255, 256, 257, 507, 508, 509, 510, 511, 512,
    ];
    for left in sizes {
        for right in sizes {
            seams(group, random, left, right);
        }
    }
    for left in 0..=MAX_BYTES {
        seams(group, random, left, MAX_BYTES - left);
        if left > 0 {
            seams(group, random, left, MAX_BYTES + 1 - left);
        }
    }
}

fn seams(group: &mut Group, random: &mut Random, left: usize, right: usize) {
    for (last, first) in [
        ("\r", "\n"),
        ("\n", "\r"),
        ("\r\n", "\n"),
        ("\r", "\r\n"),
        ("", ""),
        ("😀", "😀"),
        ("あ", "é"),
    ] {
        let left = between(random, left, "", last);
        let right = between(random, right, first, CHARS[right % CHARS.len()]);
        two(group, random, &left, &right);
    }
}

/// Two lists of every pair of lengths, among children that are not looked at.
pub fn pairs(group: &mut Group, random: &mut Random) {
    for left in 0..=MAX_CHILDREN {
        for right in 0..=MAX_CHILDREN {
            let (left, right) = lists(random, left, right);
            let lens = (left.len(), right.len());
            let i = random.below(3);
            let j = i + 1 + random.below(3);
            let mut children: Vec<Child> = (0..j + random.below(3))
                .map(|_| Child::Leaf(b"\xFF".to_vec()))
                .collect();
            children.insert(i, Child::List(left));
            children.insert(j, Child::List(right));
            let mut made = Made::of(random, &children);
            made.miscount(random);
            made.spoil(random);
            for (k, len) in [(i, lens.0), (j, lens.1)] {
                if random.below(2) == 0 {
                    memory::spoil(&mut made.memory, made.kids[k].slot as usize, len);
                }
            }
            group.compare(&made.case().at(MergeDistribute, i, j));
            for k in [i, j] {
                group.compare(&made.case().at(UpdateChildInfo, k, 0));
            }
        }
    }
}

/// Two lists whose counts are small, or all the greatest, or add up to 32 bits or one more where
/// they are put together.
fn lists(random: &mut Random, left: usize, right: usize) -> (Vec<Kid>, Vec<Kid>) {
    let total = left + right;
    let most = random.pick(&[4, 1 << 10, 1 << 20]);
    let mut kids = small_list(random, total, most);
    match random.below(4) {
        0 => kids.iter_mut().for_each(|kid| kid.counts = [u32::MAX; 4]),
        1 if total > 0 => {
            // One list afterwards; the count in question is none elsewhere, so that no list has
            // more of it before.
            let half = total - total / 2;
            let (from, to) = match total {
                0..=MAX_CHILDREN => (0, total),
                _ => random.pick(&[(0, half), (half, total)]),
            };
            let field = random.below(4);
            for (k, kid) in kids.iter_mut().enumerate() {
                if k < from || k >= to {
                    kid.counts[field] = 0;
                }
            }
            kids[from].counts[field] = u32::MAX - sums(&kids[from + 1..to])[field];
            if random.below(2) == 0 {
                kids[to - 1].counts[field] = kids[to - 1].counts[field].saturating_add(1);
            }
        }
        _ => {}
    }
    let rest = kids.split_off(left);
    (kids, rest)
}

fn small_list(random: &mut Random, len: usize, most: usize) -> Vec<Kid> {
    let kid = |_| Kid {
        slot: random.below(1 << 32) as u32,
        counts: [(); 4].map(|()| random.below(most) as u32),
    };
    (0..len).map(kid).collect()
}

/// Children of one kind, or of any.
pub fn any_children(random: &mut Random, len: usize) -> Vec<Child> {
    let kind = random.below(6);
    let sizes = random.pick(&[
        &[0, 1, 2, 3][..],
        &[255, 256, 257, 1],
        &[509, 510, 511, 512],
        &[512, 511, 1, 0],
        &[],
    ]);
    let mut child = |_| {
        if kind == 0 || (kind == 1 && random.below(2) == 0) {
            let len = random.below(MAX_CHILDREN + 1);
            return Child::List(small_list(random, len, 1 << 12));
        }
        let len = match sizes {
            [] => random.below(MAX_BYTES + 1),
            sizes => random.pick(sizes),
        };
        let (first, last) = (
            random.pick(&["\n", "", "\r\n"]),
            random.pick(&["\r", "", "\r\n"]),
        );
        Child::Leaf(between(random, len, first, last))
    };
    (0..len).map(&mut child).collect()
}

/// A list of any length with any children: packed, and its children counted and put together.
pub fn any(group: &mut Group, random: &mut Random) {
    let len = random.below(MAX_CHILDREN + 1);
    let children = any_children(random, len);
    let leaves = children
        .iter()
        .filter(|child| matches!(child, Child::Leaf(_)))
        .count();
    let mut made = Made::of(random, &children);
    made.miscount(random);
    made.spoil(random);
    group.compare(&made.case().at(CompactLeaves, 0, 0));
    group.compare(&made.case().at(IsInfoAccurate, 0, 0));
    let any = random.below(len + 1);
    for i in [0, any, any / 2, random.pick(&[len, FAR[0], FAR[1]])] {
        group.compare(&made.case().at(UpdateChildInfo, i, 0));
    }
    // A leaf that is written gets its whole head.
    if random.below(2) == 0 {
        for kid in &made.kids {
            memory::spoil(&mut made.memory, kid.slot as usize, MAX_CHILDREN);
        }
    }
    let is_alike = leaves == 0 || leaves == len;
    if is_alike {
        let (i, j) = (random.pick(&FAR), random.pick(&[0, 1, FAR[0], FAR[1]]));
        group.compare(&made.case().at(MergeDistribute, i, j));
    }
    for _ in 0..4 {
        let i = random.below(len.max(1));
        let any = random.below(len + 2);
        let j = random.pick(&[i + 1, i + 1, any.max(i + 1), any, len, FAR[0]]);
        // Of children of two kinds, only pairs that rise are asked: which refusal comes first is
        // not at issue.
        if is_alike || (i < j && j < len) {
            group.compare(&made.case().at(MergeDistribute, i, j));
        }
    }
}
