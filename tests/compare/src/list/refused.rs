//! Memories that are not well formed, lists and children that are none, and what else is refused.

use super::calls::Call::*;
use super::calls::{Case, CALLS};
use super::edits::{any_kid, two_slots};
use super::memory::{self, Kid, Node, HEAD, LEAF, LIST, MAX_CHILDREN, SLOT};
use super::nodes::{any_children, Made};
use super::tally::Group;
use crate::texts::{Random, DAMAGED};

/// A slot's number that comes to the front again where 640 times it is cut to 64 bits.
const AROUND: usize = 1 << 57;

/// Kinds and lengths of slots that hold no list; some hold no node.
const NO_LISTS: [(u8, usize); 11] = [
    (0, 0),
    (0, 3),
    (LEAF, 0),
    (LEAF, 16),
    (LEAF, 513),
    (LEAF, 0x8000),
    (LIST, 17),
    (LIST, 0x0110),
    (LIST, 0xFFFF),
    (3, 2),
    (0xFF, 0),
];

pub fn run(group: &mut Group, random: &mut Random) {
    no_list(group, random);
    cut_memory(group, random);
    other_slot(group, random);
    for len in 1..=MAX_CHILDREN {
        for _ in 0..8 {
            spoilt_children(group, random, len);
        }
        far_sums(group, random, len);
    }
}

/// Every call on slots that hold no list.
fn no_list(group: &mut Group, random: &mut Random) {
    let (slot, other) = two_slots(random, 3);
    let kids: Vec<Kid> = (0..3).map(|_| any_kid(random)).collect();
    let mut memory = memory::noise(3);
    memory::put_list(&mut memory, slot, &kids);
    memory::put_list(&mut memory, other, &kids);
    for call in CALLS {
        for far in [3, 4, AROUND + slot, usize::MAX, usize::MAX / SLOT] {
            group.compare(&Case::of(&memory, far).beside(other).at(call, 0, 1));
        }
    }
    for (kind, len) in NO_LISTS {
        memory::put_head(&mut memory, slot, kind, len);
        for call in CALLS {
            group.compare(&Case::of(&memory, slot).beside(other).at(call, 0, 1));
        }
        group.compare(
            &Case::of(&memory, other)
                .beside(slot)
                .at(DistributeWith, 0, 0),
        );
    }
}

/// Every call on memories that end before the slot does, or just behind it.
fn cut_memory(group: &mut Group, random: &mut Random) {
    let mut memory = memory::noise(2);
    let kids: Vec<Kid> = (0..2).map(|_| any_kid(random)).collect();
    memory::put_list(&mut memory, 0, &kids);
    memory::put_list(&mut memory, 1, &kids);
    for len in [0, 1, HEAD - 1, HEAD, HEAD + 8, HEAD + SLOT - 1, HEAD + SLOT] {
        for call in CALLS {
            let case = Case::of(&memory[..len], 0).beside(1);
            group.compare(&case.at(call, 0, 1));
            let case = Case::of(&memory[..len + SLOT], 0).beside(1);
            group.compare(&case.at(call, 0, 1));
            let case = Case::of(&memory[..len + SLOT], 1).beside(0);
            group.compare(&case.at(call, 0, 1));
        }
    }
}

/// The calls on two lists, with the other slot outside the memory or the same, beside what else
/// they refuse.
fn other_slot(group: &mut Group, random: &mut Random) {
    for len in [0, 1, 2, MAX_CHILDREN] {
        let slot = random.below(3);
        let mut memory = memory::noise(3);
        let kids: Vec<Kid> = (0..len).map(|_| any_kid(random)).collect();
        memory::put_list(&mut memory, slot, &kids);
        for other in [slot, 3, AROUND + slot, AROUND + 1, usize::MAX] {
            let case = Case::of(&memory, slot).beside(other);
            for call in [PushSplit, InsertSplit, SplitOff, DistributeWith] {
                for i in [0, len, len + 1, usize::MAX] {
                    group.compare(&case.at(call, i, 0));
                }
            }
        }
    }
}

/// A list with one or two children that cannot be taken as they are.
fn spoilt_children(group: &mut Group, random: &mut Random, len: usize) {
    let children = any_children(random, len);
    let mut made = Made::of(random, &children);
    for _ in 0..1 + random.below(2) {
        let k = random.below(len);
        spoil_child(&mut made, random, k);
    }
    let case = made.case();
    group.compare(&case.at(CompactLeaves, 0, 0));
    group.compare(&case.at(IsInfoAccurate, 0, 0));
    for i in 0..len {
        group.compare(&case.at(UpdateChildInfo, i, 0));
        if i + 1 < len {
            group.compare(&case.at(MergeDistribute, i, i + 1));
            let j = i + 1 + random.below(len - i - 1);
            group.compare(&case.at(MergeDistribute, i, j));
        }
    }
}

fn spoil_child(made: &mut Made, random: &mut Random, k: usize) {
    let slots = made.kids.len() as u32 + 2;
    let slot = made.kids[k].slot as usize;
    match random.below(6) {
        0 => made.kids[k].slot = random.pick(&[slots, slots + 1, u32::MAX]),
        1 => made.kids[k].slot = made.slot as u32,
        2 => made.kids[k].slot = random.pick(&made.kids).slot,
        3 if slot < slots as usize => {
            let (kind, len) = random.pick(&NO_LISTS);
            memory::put_head(&mut made.memory, slot, kind, len);
        }
        _ => {
            if let Some(Node::Leaf(_)) = memory::node(&made.memory, slot) {
                memory::put_leaf(&mut made.memory, slot, random.pick(&DAMAGED));
            }
        }
    }
    memory::put_list(&mut made.memory, made.slot, &made.kids);
}

/// Children whose own counts add up to more than 32 bits, in one count or in all.
fn far_sums(group: &mut Group, random: &mut Random, len: usize) {
    let children = any_children(random, len);
    let mut made = Made::of(random, &children);
    let k = random.below(len);
    let mut kids = vec![Kid::NONE; 2 + random.below(MAX_CHILDREN - 1)];
    let field = random.below(4);
    let last = kids.len() - 1;
    kids[0].counts[field] = random.pick(&[u32::MAX, u32::MAX - 1]);
    kids[last].counts[field] = 1;
    memory::put_list(&mut made.memory, made.kids[k].slot as usize, &kids);
    let case = made.case();
    group.compare(&case.at(CompactLeaves, 0, 0));
    group.compare(&case.at(IsInfoAccurate, 0, 0));
    group.compare(&case.at(UpdateChildInfo, k, 0));
}

pub fn unknown(group: &mut Group) {
    let mut memory = memory::noise(2);
    memory::put_list(&mut memory, 0, &[Kid::NONE; 3]);
    memory::put_list(&mut memory, 1, &[Kid::NONE; 2]);
    let case = Case::of(&memory, 0).beside(1);
    for number in (0..=0).chain(IsInfoAccurate as u8 + 1..=u8::MAX) {
        group.compare_unknown(number, &case);
        group.compare_unknown(number, &Case::of(&[], 0));
    }
}
