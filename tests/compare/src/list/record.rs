//! The calls on lists in the sample.
//!
//! A record, numbers big-endian: the call's number 1, i 2, j 2, slot 1, other 1,
//! the number n 1 of the memory's slots (at most 7), the child that is put in 20 (an entry: slot
//! and four counts), the n slots; then what is due: refusal 1 (0: accepted), the five numbers 4
//! each (0 where refused), the number 1 of slots that the call changes, and for each its number 1
//! and the slot as it is afterwards. A slot is its head 8, a length 2, and as many bytes from the
//! front of its region; the rest of its 640 bytes is zeros, and so are the 6,144 bytes before the
//! slots.

use super::calls::Call::{self, *};
use super::calls::{Case, CALLS, MARGIN};
use super::memory::{self, Kid, HEAD, LEAF, LIST, MAX_CHILDREN, REGION, SLOT};
use super::nodes::{Child, Made};
use super::{rules, source};
use crate::record::Sample;
use crate::texts::{Random, DAMAGED};

/// Records of the calls on lists.
const RECORDS: usize = 1_000;

/// Most slots of a memory.
const MOST_SLOTS: usize = 7;

const SEARCHES: [Call; 5] = [
    SearchByte,
    SearchChar,
    SearchUtf16,
    SearchCharOnly,
    SearchLineBreak,
];

/// Two leaves: the left one's length and last chars, the right one's length and first chars.
const SEAMS: [(usize, &str, usize, &str); 9] = [
    (3, "\r", 5, "\n"),
    (3, "a", 5, "\r\n"),
    (3, "é", 5, "😀"),
    (3, "\r\n", 5, "\n"),
    (200, "é", 312, "😀"),
    (200, "\r", 313, "\n"),
    (511, "\r", 512, "\n"),
    (512, "\r", 512, "\n"),
    (512, "\r", 512, "\r\n"),
];

pub fn write(sample: &mut Sample) {
    let random = &mut Random::new();
    for len in [0, 1, 2, 3, MAX_CHILDREN] {
        by_value(sample, random, len);
    }
    for (left, last, right, first) in SEAMS {
        let mut leaf = random.text_of(left - last.len());
        leaf.extend_from_slice(last.as_bytes());
        let other = [first.as_bytes(), &random.text_of(right - first.len())].concat();
        let made = made(random, &[Child::Leaf(leaf), Child::Leaf(other)]);
        add(sample, &made.case().at(MergeDistribute, 0, 1));
        add(sample, &made.case().at(CompactLeaves, 0, 0));
    }
    for (left, right) in [(0, 0), (3, 6), (8, 8), (9, 8), (1, 16), (16, 16)] {
        let children = [left, right].map(|len| Child::List(kids(random, len)));
        let made = made(random, &children);
        for call in [
            MergeDistribute,
            CompactLeaves,
            IsInfoAccurate,
            UpdateChildInfo,
        ] {
            add(sample, &made.case().at(call, 0, 1));
        }
    }
    for (kind, len) in [(0, 0), (LEAF, 513), (LIST, 17), (3, 1)] {
        spoilt(sample, random, kind, len);
    }
    while sample.records < RECORDS {
        match sample.records % 3 {
            0 => any_nodes(sample, random),
            _ => any_list(sample, random),
        }
    }
}

fn made(random: &mut Random, children: &[Child]) -> Made {
    Made::within(
        vec![0; HEAD + SLOT * (children.len() + 2)],
        random,
        children,
    )
}

/// Entries with small counts: every sum fits the record.
fn kids(random: &mut Random, len: usize) -> Vec<Kid> {
    let kid = |_| Kid {
        slot: random.below(80) as u32,
        counts: [(); 4].map(|()| random.below(4) as u32),
    };
    (0..len).map(kid).collect()
}

/// The calls on one list of this length by value, at some indices.
fn by_value(sample: &mut Sample, random: &mut Random, len: usize) {
    let mut memory = vec![0; HEAD + SLOT * 2];
    memory::put_list(&mut memory, 1, &kids(random, len));
    memory::put_list(&mut memory, 0, &kids(random, 1));
    let case = Case {
        kid: kids(random, 1)[0],
        ..Case::of(&memory, 1).beside(0)
    };
    for call in CALLS {
        add(sample, &case.at(call, 0, 1));
    }
    for i in [len / 2, len, len + 1] {
        for call in [Insert, InsertSplit, Remove, SplitOff] {
            add(sample, &case.at(call, i, 0));
        }
    }
    for i in [2, 5, 60] {
        for call in SEARCHES {
            add(sample, &case.at(call, i, 0));
        }
        add(sample, &case.at(SearchCharRange, i / 2, i));
    }
    for other in [1, 2] {
        for call in [PushSplit, InsertSplit, SplitOff, DistributeWith] {
            add(sample, &case.beside(other).at(call, 0, 0));
        }
    }
}

/// Every call on a slot with such a head, and those that look at nodes with such a child.
fn spoilt(sample: &mut Sample, random: &mut Random, kind: u8, len: usize) {
    let mut made = made(
        random,
        &[Child::Leaf(b"a\r".to_vec()), Child::Leaf(b"\n".to_vec())],
    );
    memory::put_head(&mut made.memory, made.kids[1].slot as usize, kind, len);
    for call in [
        MergeDistribute,
        CompactLeaves,
        IsInfoAccurate,
        UpdateChildInfo,
    ] {
        add(sample, &made.case().at(call, 0, 1));
        add(sample, &made.case().at(call, 1, 1));
    }
    memory::put_head(&mut made.memory, made.slot, kind, len);
    for call in CALLS {
        add(sample, &made.case().at(call, 0, 1));
    }
}

/// A list of a few small leaves or lists, or of both, now and then with bytes that are no text.
fn any_nodes(sample: &mut Sample, random: &mut Random) {
    let kind = random.below(8);
    let most = random.pick(&[2, 3, 3, MOST_SLOTS - 2]);
    let len = 1 + random.below(most);
    let mut child = |_| match kind {
        0 => {
            let len = random.below(4);
            Child::List(kids(random, len))
        }
        1 if random.below(3) == 0 => Child::List(Vec::new()),
        2 if random.below(3) == 0 => Child::Leaf(random.pick(&DAMAGED).to_vec()),
        _ => Child::Leaf(random.text(12).into_bytes()),
    };
    let children: Vec<Child> = (0..len).map(&mut child).collect();
    let made = made(random, &children);
    let (i, any) = (random.below(len), random.below(len + 2));
    let call = random.pick(&[
        MergeDistribute,
        CompactLeaves,
        IsInfoAccurate,
        UpdateChildInfo,
    ]);
    let j = random.pick(&[i + 1, i + 1, any.max(i + 1), any]);
    // Of children of two kinds, and of ones that are no text, only pairs that rise are asked.
    let call = match call {
        MergeDistribute if kind <= 2 && !(i < j && j < len) => CompactLeaves,
        call => call,
    };
    add(sample, &made.case().at(call, i, j));
}

/// A call on a short list by value, seldom past its end.
fn any_list(sample: &mut Sample, random: &mut Random) {
    let len = random.below(5);
    let kids = kids(random, len + 1);
    let mut memory = vec![0; HEAD + SLOT * 2];
    memory::put_list(&mut memory, 0, &kids[1..]);
    let call = random.pick(&CALLS);
    if call == DistributeWith {
        memory::put_list(&mut memory, 1, &kids);
    }
    let case = Case {
        kid: kids[0],
        ..Case::of(&memory, 0).beside(1)
    };
    let i = match call {
        call if SEARCHES.contains(&call) => random.below(2 * len + 2),
        _ => random.below(len + 1),
    };
    let j = i + random.below(3);
    add(sample, &case.at(call, i, j));
}

fn add(sample: &mut Sample, case: &Case) {
    let due = rules::due(case, &source::ask(case));
    let after = &due.memory[MARGIN..MARGIN + case.memory.len()];
    let slots = (case.memory.len() - HEAD) / SLOT;
    let one = |n: usize| u8::try_from(n).expect("the number fits 1 byte");
    let two = |n: usize| {
        u16::try_from(n)
            .expect("the number fits 2 bytes")
            .to_be_bytes()
    };

    let mut bytes = Vec::new();
    bytes.extend_from_slice(&two(case.i));
    bytes.extend_from_slice(&two(case.j));
    bytes.extend_from_slice(&[one(case.slot), one(case.other), one(slots)]);
    bytes.extend_from_slice(&memory::entry(&case.kid));
    for slot in 0..slots {
        push_slot(&mut bytes, slot_of(case.memory, slot));
    }
    bytes.push(due.refusal);
    for number in due.numbers {
        let number = if due.refusal == 0 { number } else { 0 };
        let number = u32::try_from(number).expect("the number fits 4 bytes");
        bytes.extend_from_slice(&number.to_be_bytes());
    }
    let is_changed = |slot: &usize| slot_of(case.memory, *slot) != slot_of(after, *slot);
    let changed: Vec<usize> = (0..slots).filter(is_changed).collect();
    bytes.push(one(changed.len()));
    for slot in changed {
        bytes.push(one(slot));
        push_slot(&mut bytes, slot_of(after, slot));
    }
    sample.push(case.call as u8, due.refusal != 0, &bytes);
}

fn slot_of(memory: &[u8], slot: usize) -> &[u8] {
    &memory[HEAD + SLOT * slot..HEAD + SLOT * (slot + 1)]
}

/// A slot without the zeros at its end.
fn push_slot(bytes: &mut Vec<u8>, slot: &[u8]) {
    let region = &slot[REGION..];
    let len = region
        .iter()
        .rposition(|b| *b != 0)
        .map_or(0, |last| last + 1);
    bytes.extend_from_slice(&slot[..8]);
    bytes.extend_from_slice(&(len as u16).to_be_bytes());
    bytes.extend_from_slice(&region[..len]);
}
