//! What is due: what the source leaves, laid into the memory, or a refusal by the table of document
//! 01.

use super::calls::Call::{self, *};
use super::calls::{with_margins, After, Case, UNTOUCHED};
use super::memory::{self, Kid, Node, MAX_BYTES, MAX_CHILDREN};
use super::source::{Done, Entry, Left, Source};

const MEMORY: u8 = 2;
const PLACE: u8 = 3;
const TEXT: u8 = 5;
const SIZE: u8 = 11;
const SIDE: u8 = 12;

/// What has to be left behind, given what the source came to.
pub fn due(case: &Case, source: &Source) -> After {
    match (refusal_of_given(case), source) {
        (0, Source::Done(done)) => match laid(case, done) {
            Ok(memory) => After {
                refusal: 0,
                numbers: done.numbers,
                memory: with_margins(&memory),
            },
            Err(number) => refused(case, number),
        },
        (number, _) => refused(case, number),
    }
}

/// A refused call changes nothing.
pub fn refused(case: &Case, refusal: u8) -> After {
    After {
        refusal,
        numbers: UNTOUCHED,
        memory: with_margins(case.memory),
    }
}

/// Whether the source panics exactly where the table refuses what it could be asked.
pub fn panic_is_due(case: &Case, source: &Source) -> bool {
    let refusal = refusal_of_given(case);
    // What the source cannot see is refused alone: slots that are one, and counts above 32 bits.
    let is_unseen = matches!(refusal, MEMORY | TEXT);
    match source {
        Source::Done(_) => refusal == 0 || is_unseen || is_left_alone(case),
        Source::Panicked | Source::NotAsked => refusal != 0,
    }
}

/// `compact_leaves` of the source looks at the first child alone, and leaves a list that begins
/// with a list as it is, also if leaves follow: document 01 has 12 for siblings of different kinds.
fn is_left_alone(case: &Case) -> bool {
    let kids = memory::list(case.memory, case.slot).unwrap_or_default();
    let first = kids
        .first()
        .and_then(|kid| memory::node(case.memory, kid.slot as usize));
    case.call == CompactLeaves && matches!(first, Some(Node::List(_)))
}

/// The memory with what the source left, or the refusal of what does not fit there.
fn laid(case: &Case, done: &Done) -> Result<Vec<u8>, u8> {
    let mut memory = case.memory.to_vec();
    if let Some(list) = &done.list {
        let kids = fitting(list)?;
        if renews_entries(case, done) {
            memory::put_entries(&mut memory, case.slot, &kids);
        } else {
            memory::put_list(&mut memory, case.slot, &kids);
        }
    }
    if let Some(other) = &done.other {
        memory::put_list(&mut memory, case.other, &fitting(other)?);
    }
    for (slot, left) in &done.nodes {
        match left {
            Left::Leaf(text) if text.len() > MAX_BYTES => return Err(SIZE),
            Left::Leaf(text) => memory::put_leaf(&mut memory, *slot as usize, text),
            Left::List(list) => memory::put_list(&mut memory, *slot as usize, &fitting(list)?),
        }
    }
    Ok(memory)
}

/// Whether the call counts children anew where they lie, and writes nothing else of the list.
fn renews_entries(case: &Case, done: &Done) -> bool {
    let distributes = case.call == MergeDistribute && done.numbers[0] == 0;
    case.call == UpdateChildInfo || distributes
}

/// The entries with counts of 32 bits.
fn fitting(list: &[Entry]) -> Result<Vec<Kid>, u8> {
    let kid = |(slot, counts): &Entry| {
        if counts.iter().any(|count| *count > u64::from(u32::MAX)) {
            return Err(MEMORY);
        }
        Ok(Kid {
            slot: *slot,
            counts: counts.map(|count| count as u32),
        })
    };
    list.iter().map(kid).collect()
}

/// Refusals that apply, by their numbers.
#[derive(Clone, Copy, Default)]
struct Refusals(u16);

impl Refusals {
    fn with(self, number: u8, applies: bool) -> Self {
        Refusals(self.0 | u16::from(applies) << number)
    }

    fn and(self, other: Refusals) -> Self {
        Refusals(self.0 | other.0)
    }

    /// The one that is given, or 0: 12 before all, then the lowest.
    fn given(self) -> u8 {
        match self.0 {
            0 => 0,
            all if all >> SIDE & 1 == 1 => SIDE,
            all => all.trailing_zeros() as u8,
        }
    }
}

/// The refusal for what the call is given, or 0.
fn refusal_of_given(case: &Case) -> u8 {
    let none = Refusals::default();
    if case.call == New {
        return none
            .with(MEMORY, memory::is_outside(case.memory, case.slot))
            .given();
    }
    match memory::list(case.memory, case.slot) {
        Some(kids) => refusals(case, &kids).given(),
        None => MEMORY,
    }
}

fn refusals(case: &Case, kids: &[Kid]) -> Refusals {
    let (i, len) = (case.i, kids.len());
    let none = Refusals::default();
    let of_empty = none.with(SIDE, len == 0);
    let of_other = none.with(
        MEMORY,
        case.other == case.slot || memory::is_outside(case.memory, case.other),
    );
    match case.call {
        New | Len | IsFull | CombinedInfo => none,
        UpdateChildInfo if i < len => of_child(case.memory, &kids[i]),
        UpdateChildInfo | Remove => of_empty.with(PLACE, i >= len),
        Push => none.with(SIZE, len == MAX_CHILDREN),
        PushSplit => of_empty.and(of_other),
        MergeDistribute if i < case.j && case.j < len => {
            let two = [kids[i], kids[case.j]];
            of_siblings(case, &two)
        }
        MergeDistribute => of_empty.with(PLACE, true),
        DistributeWith => of_other.with(MEMORY, memory::list(case.memory, case.other).is_none()),
        CompactLeaves => of_empty.and(of_siblings(case, kids)),
        Pop => of_empty,
        Insert => none.with(PLACE, i > len).with(SIZE, len == MAX_CHILDREN),
        InsertSplit => of_empty.with(PLACE, i > len).and(of_other),
        SplitOff => of_other.with(PLACE, i > len),
        SearchCharRange => {
            let past = case.j as u64 > end_of(case.call, kids);
            of_empty.with(PLACE, i > case.j || past)
        }
        SearchByte | SearchChar | SearchUtf16 | SearchCharOnly | SearchLineBreak => {
            of_empty.with(PLACE, i as u64 > end_of(case.call, kids))
        }
        IsInfoAccurate => kids
            .iter()
            .fold(none, |all, kid| all.and(of_child(case.memory, kid))),
    }
}

/// The last index that a search takes.
fn end_of(call: Call, kids: &[Kid]) -> u64 {
    let sums = sums(kids);
    match call {
        SearchByte => sums[0],
        SearchUtf16 => sums[1] + sums[2],
        SearchLineBreak => sums[3] + 1,
        _ => sums[1],
    }
}

fn sums(kids: &[Kid]) -> [u64; 4] {
    let mut sums = [0; 4];
    for kid in kids {
        for (sum, count) in sums.iter_mut().zip(kid.counts) {
            *sum += u64::from(count);
        }
    }
    sums
}

/// A child whose counts are asked for: it is a node, its counts fit 32 bits, and a leaf is text.
fn of_child(memory: &[u8], kid: &Kid) -> Refusals {
    let none = Refusals::default();
    match memory::node(memory, kid.slot as usize) {
        None => none.with(MEMORY, true),
        Some(Node::Leaf(text)) => none.with(TEXT, std::str::from_utf8(text).is_err()),
        Some(Node::List(kids)) => none.with(
            MEMORY,
            sums(&kids).iter().any(|sum| *sum > u64::from(u32::MAX)),
        ),
    }
}

/// Children that are put together: nodes of one kind, leaves that are text, and all in slots of
/// their own beside the list's. What does not fit 32 bits afterwards shows in the source's answer.
fn of_siblings(case: &Case, kids: &[Kid]) -> Refusals {
    let mut slots: Vec<usize> = kids.iter().map(|kid| kid.slot as usize).collect();
    slots.push(case.slot);
    slots.sort_unstable();
    let mut all = Refusals::default().with(MEMORY, slots.windows(2).any(|two| two[0] == two[1]));
    let (mut leaves, mut lists) = (false, false);
    for kid in kids {
        all = all.and(of_child(case.memory, kid));
        match memory::node(case.memory, kid.slot as usize) {
            None => {}
            Some(Node::Leaf(_)) => leaves = true,
            Some(Node::List(_)) => lists = true,
        }
    }
    all.with(SIDE, leaves && lists)
}
