//! Lists by value: what the calls do to the entries, whatever nodes these name.

use super::calls::Call::*;
use super::calls::Case;
use super::memory::{self, Kid, MAX_CHILDREN};
use super::tally::Group;
use crate::texts::Random;

/// Slots of the memories here.
const SLOTS: usize = 4;

/// An index far past every end.
pub const FAR: [usize; 3] = [usize::MAX, 1 << 32, 255];

/// An entry of any numbers: some small, some at the ends of 32 bits.
pub fn any_kid(random: &mut Random) -> Kid {
    let mut number = || match random.below(4) {
        0 => random.below(4) as u32,
        1 => random.pick(&[u32::MAX, u32::MAX - 1, 1 << 31, 1 << 16]),
        _ => random.below(1 << 32) as u32,
    };
    Kid {
        slot: number(),
        counts: [number(), number(), number(), number()],
    }
}

/// Two slots that differ.
pub fn two_slots(random: &mut Random, slots: usize) -> (usize, usize) {
    let slot = random.below(slots);
    (slot, (slot + 1 + random.below(slots - 1)) % slots)
}

/// One list of each length, in a memory of noise: every call that takes it by value, at every
/// index.
pub fn run(group: &mut Group, random: &mut Random) {
    for len in 0..=MAX_CHILDREN {
        let (slot, other) = two_slots(random, SLOTS);
        let mut memory = memory::noise(SLOTS);
        put_any(&mut memory, random, slot, len);
        let case = Case {
            kid: any_kid(random),
            ..Case::of(&memory, slot).beside(other)
        };
        // Whatever these do not read is anything.
        let far = random.pick(&FAR);
        for call in [New, Len, IsFull, CombinedInfo, Push, PushSplit, Pop] {
            group.compare(&case.at(call, far, far));
        }
        for i in (0..=len + 1).chain(FAR) {
            for call in [Insert, InsertSplit, Remove, SplitOff] {
                group.compare(&case.at(call, i, far));
            }
        }
        group.compare(&Case::of(&memory, other).at(New, far, far));
        for right in 0..=MAX_CHILDREN {
            let mut memory = memory.clone();
            put_any(&mut memory, random, other, right);
            let case = Case::of(&memory, slot).beside(other);
            group.compare(&case.at(DistributeWith, far, far));
        }
    }
}

/// A list of any entries, and now and then anything where nothing is read.
fn put_any(memory: &mut [u8], random: &mut Random, slot: usize, len: usize) {
    let kids: Vec<Kid> = (0..len).map(|_| any_kid(random)).collect();
    memory::put_list(memory, slot, &kids);
    if random.below(2) == 0 {
        memory::spoil(memory, slot, len);
    }
}
