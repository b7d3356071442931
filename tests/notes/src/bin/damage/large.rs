//! Notes of many slots, damaged by chance: bytes, entries and slot numbers, cycles in the tree and
//! in the chain of free slots, counts, marks, and lent memory cut off. And layouts that break one
//! rule and keep the others.

use notes::build::{self, Shape};
use notes::formed;
use notes::lent::Lent;
use notes::memory::{
    self, ENTRY, FREE, FREE_SLOT, HEAD, HEIGHT, LIST, MARK, MARKS, REGION, ROOT, SLOT,
};
use notes::texts::Random;

use crate::tally::Tally;
use crate::Extent;

/// Damaged copies of one note.
const COPIES: usize = 30;

pub fn run(extent: &Extent, tally: &mut Tally) {
    tally.group("damage by chance, of 17 to 300 slots", |group| {
        for k in 0..extent.middle / COPIES {
            let mut random = Random::row(k as u64);
            let n = 17 + random.below(284);
            copies(&mut random, n, group);
        }
    });
    tally.group("damage by chance, of 4,096 slots", |group| {
        for k in 0..extent.large / COPIES {
            copies(&mut Random::row(1_000_000 + k as u64), 4_096, group);
        }
    });
    tally.group("layouts that may break a rule", |group| {
        for k in 0..extent.shapes {
            shaped(&mut Random::row(2_000_000 + k as u64), group);
        }
    });
}

fn copies(random: &mut Random, n: usize, group: &mut Tally) {
    let most = memory::limit(n);
    let any = random.below(most + 1);
    let len = random.pick(&[most, any]);
    let text = random.note_text(len);
    let bytes = build::well_formed(random, text.as_bytes(), n);
    let known = Known::of(&bytes, n);
    let mut memory = Lent::new(&bytes);
    for _ in 0..COPIES {
        memory.copy_from_slice(&bytes);
        let mut done = Vec::new();
        for _ in 0..1 + random.below(2) {
            done.push(damage(random, &mut memory, &known));
        }
        let cut = match random.below(20) {
            0 => memory.len() - 1,
            1 => random.below(memory.len()),
            _ => memory.len(),
        };
        let what =
            || format!("a note of {n} slots and {len} bytes, cut to {cut} bytes, with {done:?}");
        // A memory that is cut off has its own end, so that a read behind it is caught.
        if cut < memory.len() {
            group.hold(random, &Lent::new(&memory[..cut]), &what);
        } else {
            group.hold(random, &memory, &what);
        }
    }
}

/// What damage aims at.
struct Known {
    n: usize,
    chars: usize,
    /// The slots of leaves, of lists and of the free ones.
    leaves: Vec<usize>,
    lists: Vec<usize>,
    free: Vec<usize>,
    /// Where the entries of the lists lie, the root's among them.
    entries: Vec<usize>,
}

impl Known {
    fn of(bytes: &[u8], n: usize) -> Known {
        let note = formed::note(bytes).expect("the layout is well formed");
        let kind = |slot: &usize| bytes[memory::slot_start(*slot)];
        let lists: Vec<usize> = (0..n).filter(|slot| kind(slot) == LIST).collect();
        let mut entries = vec![ROOT];
        for &slot in &lists {
            let len = memory::list(bytes, slot).map_or(0, |kids| kids.len());
            entries.extend((0..len).map(|k| memory::slot_start(slot) + REGION + ENTRY * k));
        }
        Known {
            n,
            chars: note.places.chars(),
            leaves: note.leaves.iter().map(|leaf| leaf.slot).collect(),
            free: (0..n).filter(|slot| kind(slot) == FREE).collect(),
            lists,
            entries,
        }
    }
}

/// Damages the memory, and tells how. Now and then what comes is well formed all the same.
fn damage(random: &mut Random, memory: &mut [u8], known: &Known) -> String {
    let any_slot = random.below(known.n) as u32;
    match random.below(10) {
        0 => bytes(random, memory, known),
        1 => {
            let (a, b) = (random.pick(&known.entries), random.pick(&known.entries));
            for k in 0..random.pick(&[4, ENTRY]) {
                memory.swap(a + k, b + k);
            }
            format!("the entries at {a} and {b} swapped")
        }
        2 => {
            let at = random.pick(&known.entries);
            let list = *known.lists.first().unwrap_or(&0) as u32;
            let new = random.pick(&[any_slot, list, known.n as u32, u32::MAX]);
            memory::put_four(memory, at, new);
            format!("the child at {at} is slot {new}")
        }
        3 => {
            let at = random.pick(&known.entries) + 4 * (1 + random.below(4));
            let count = memory::four(memory, at);
            let new = random.pick(&[count.wrapping_add(1), count.wrapping_sub(1), 0, u32::MAX]);
            memory::put_four(memory, at, new);
            format!("the count at {at} is {new}")
        }
        4 => {
            // The sum stays: the counts of two neighbours, which may be children of one list.
            let k = random.below(known.entries.len());
            let (a, b) = (
                known.entries[k],
                known.entries[(k + 1) % known.entries.len()],
            );
            let count = 4 * (1 + random.below(4));
            let (x, y) = (
                memory::four(memory, a + count),
                memory::four(memory, b + count),
            );
            memory::put_four(memory, a + count, x.wrapping_add(1));
            memory::put_four(memory, b + count, y.wrapping_sub(1));
            format!(
                "one moved from the count at {} to that at {}",
                b + count,
                a + count
            )
        }
        5 => {
            let height = memory[HEIGHT];
            memory[HEIGHT] = random.pick(&[height.wrapping_add(1), height.wrapping_sub(1), 255, 0]);
            format!("the height is {}", memory[HEIGHT])
        }
        6 => chain(random, memory, known),
        7 => {
            let mark = MARKS + MARK * random.below(256);
            let place =
                random.pick(&[known.chars, known.chars + 1, usize::from(u16::MAX), 0]) as u32;
            memory[mark] = random.pick(&[1, 1, 1, 2, 255]);
            memory::put_four(memory, mark + 4, place);
            format!("the mark at {mark} is {} at {place}", memory[mark])
        }
        8 if !known.lists.is_empty() => {
            // A list that is its own child, under a height that would never end.
            let list = random.pick(&known.lists);
            memory::put_four(memory, memory::slot_start(list) + REGION, list as u32);
            memory::put_four(memory, ROOT, list as u32);
            memory[HEIGHT] = 255;
            format!("slot {list} is its own child")
        }
        _ => texts(random, memory, known),
    }
}

/// Up to twenty bytes, mostly of fields.
fn bytes(random: &mut Random, memory: &mut [u8], known: &Known) -> String {
    let mut places = Vec::new();
    for _ in 0..1 + random.below(20) {
        let slot = memory::slot_start(random.below(known.n));
        let entry = random.pick(&known.entries);
        let at = match random.below(6) {
            0 => random.below(40),
            1 => MARKS + random.below(HEAD - MARKS),
            2 => slot + random.below(8),
            3 => entry + random.below(ENTRY),
            4 => slot + random.below(SLOT),
            _ => random.below(memory.len()),
        };
        let any = random.below(256) as u8;
        memory[at] = random.pick(&[any, memory[at] ^ 1, memory[at].wrapping_add(1)]);
        places.push(at);
    }
    format!("the bytes at {places:?}")
}

/// A byte of a leaf's text, or the leaf's length.
fn texts(random: &mut Random, memory: &mut [u8], known: &Known) -> String {
    let start = memory::slot_start(random.pick(&known.leaves));
    // It may have been damaged before.
    let stored = u16::from_be_bytes([memory[start + 2], memory[start + 3]]);
    let len = usize::from(stored).min(memory::MAX_BYTES);
    if len == 0 || random.below(4) == 0 {
        let new = random.pick(&[len + 1, len.saturating_sub(1), 0, 513, 0xFFFF]) as u16;
        memory[start + 2..start + 4].copy_from_slice(&new.to_be_bytes());
        return format!("the leaf at {start} has {new} bytes");
    }
    let any = random.below(len);
    let at = start + REGION + random.pick(&[0, len - 1, any]);
    memory[at] = random.pick(&[b'\r', b'\n', b'a', 0x80, 0xC3, 0xF4, 0xFF]);
    format!("the text's byte at {at} is {}", memory[at])
}

/// The chain of free slots: another order, which is well formed, or a slot that follows another, or
/// itself, or none.
fn chain(random: &mut Random, memory: &mut [u8], known: &Known) -> String {
    if known.free.is_empty() {
        memory::put_four(memory, FREE_SLOT, 0);
        return "a free slot, of none".to_string();
    }
    if random.below(2) == 0 {
        let mut from = FREE_SLOT;
        for &slot in known.free.iter().rev() {
            memory::put_four(memory, from, slot as u32);
            from = memory::slot_start(slot) + 4;
        }
        memory::put_four(memory, from, known.n as u32);
        return "another chain".to_string();
    }
    let from = random.pick(&known.free);
    let at = random.pick(&[FREE_SLOT, memory::slot_start(from) + 4]);
    let (free, any) = (random.pick(&known.free), random.below(known.n));
    let next = random.pick(&[
        free,
        free,
        from,
        any,
        known.n,
        known.n + 1,
        u32::MAX as usize,
    ]) as u32;
    memory::put_four(memory, at, next);
    format!("the free slot at {at} is {next}")
}

/// A layout with bounds that are a little wider than document 01's, and right counts.
fn shaped(random: &mut Random, group: &mut Tally) {
    let shape = Shape {
        leaf: (random.pick(&[128, 128, 127, 100]), random.pick(&[512, 400])),
        list: random.pick(&[(4, 16), (4, 16), (3, 16), (1, 5)]),
        root: random.pick(&[2, 2, 1]),
        chars: random.below(3) > 0,
        breaks: random.below(3) > 0,
    };
    let any = 17 + random.below(120);
    let n = match random.below(20) {
        0 => random.pick(&[1, 15, 16, 17, 4_096, 4_097]),
        _ => any,
    };
    let most = memory::limit(n.max(16));
    let len = match random.below(4) {
        0 => most + random.below(3),
        _ => random.below(most + 1),
    };
    let text = random.note_text(len);
    if let Some(bytes) = build::note(random, text.as_bytes(), n, &shape) {
        let what = || format!("a layout of {n} slots and {} bytes", text.len());
        group.hold(random, &Lent::new(&bytes), &what);
    }
}
