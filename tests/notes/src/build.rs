//! Lays a text out as a note in a lent memory, by docs/DECISIONS.md, in shapes that chance picks.

use std::ops::Range;

use crate::memory::{self, Kid};
use crate::texts::Random;

/// What a layout keeps to.
pub struct Shape {
    /// The fewest and the most bytes of a leaf and children of a list that are not the root.
    pub leaf: (usize, usize),
    pub list: (usize, usize),
    /// The fewest children of a root list.
    pub root: usize,
    /// Whether leaves end between chars, and not between CR and LF.
    pub chars: bool,
    pub breaks: bool,
}

/// Document 01's.
const WELL_FORMED: Shape = Shape {
    leaf: (128, 512),
    list: (4, 16),
    root: 2,
    chars: true,
    breaks: true,
};

#[derive(Clone, Copy)]
enum Habit {
    Any,
    Most,
    Fewest,
}

/// A layout that is well formed, of a text that is within the note's size.
pub fn well_formed(random: &mut Random, text: &[u8], n: usize) -> Vec<u8> {
    // A habit may leave an end that no cut meets; another one is tried.
    let mut tries = (0..1_000).map(|_| note(random, text, n, &WELL_FORMED));
    tries
        .find_map(|built| built)
        .expect("a text that fits has a layout")
}

/// The memory of a note of n slots with the text, marks at any places, and noise in all that is not
/// read, or nothing if the text does not go into the shape or the slots. The counts of a list are
/// those of its children, added up.
pub fn note(random: &mut Random, text: &[u8], n: usize, shape: &Shape) -> Option<Vec<u8>> {
    let mut memory = memory::noise(n);
    let mut slots: Vec<usize> = (0..n).collect();
    for k in (1..n).rev() {
        slots.swap(k, random.below(k + 1));
    }
    let habit = random.pick(&[Habit::Any, Habit::Any, Habit::Most, Habit::Fewest]);

    let may_end = |at: usize| {
        let starts = text.get(at).map_or(true, |byte| byte & 0xC0 != 0x80);
        let parts = at > 0 && text[at - 1] == b'\r' && text.get(at) == Some(&b'\n');
        (starts || !shape.chars) && !(parts && shape.breaks)
    };
    let mut nodes = Vec::new();
    for part in cut(random, habit, text.len(), shape.leaf, 0, may_end)? {
        let slot = slots.pop()?;
        put_leaf(&mut memory, slot, &text[part.clone()]);
        nodes.push(Kid {
            slot: slot as u32,
            counts: memory::counts_of_bytes(&text[part]),
        });
    }
    let mut height = 0;
    while nodes.len() > 1 || shape.root < 2 && height < 4 && random.below(2) == 0 {
        let mut above = Vec::new();
        for part in cut(random, habit, nodes.len(), shape.list, shape.root, |_| true)? {
            let slot = slots.pop()?;
            put_list(&mut memory, slot, &nodes[part.clone()]);
            above.push(Kid {
                slot: slot as u32,
                counts: [0, 1, 2, 3]
                    .map(|k| nodes[part.clone()].iter().map(|kid| kid.counts[k]).sum()),
            });
        }
        nodes = above;
        height += 1;
    }

    memory[memory::ROOT..][..memory::ENTRY].copy_from_slice(&memory::entry(&nodes[0]));
    memory[memory::HEIGHT] = height;
    memory::put_four(&mut memory, memory::N, n as u32);
    put_free(&mut memory, n, &slots);
    put_marks(random, &mut memory, nodes[0].counts[1] as usize);
    Some(memory)
}

/// Cuts a row of this length into parts of the sizes: into a single one, the root, if that has
/// `root` or more and not too many.
fn cut(
    random: &mut Random,
    habit: Habit,
    len: usize,
    (fewest, most): (usize, usize),
    root: usize,
    may_end: impl Fn(usize) -> bool,
) -> Option<Vec<Range<usize>>> {
    let ends_here = |random: &mut Random, left: usize| {
        left < 2 * fewest
            || match habit {
                Habit::Any => random.below(2) == 0,
                Habit::Most => true,
                Habit::Fewest => false,
            }
    };
    if (root..=most).contains(&len) && ends_here(random, len) {
        return Some(vec![0..len]);
    }
    let mut parts = Vec::new();
    let mut at = 0;
    while at < len {
        let left = len - at;
        if (fewest..=most).contains(&left) && ends_here(random, left) {
            parts.push(at..len);
            break;
        }
        let (low, high) = (fewest, most.min(left.checked_sub(fewest)?));
        if low > high {
            return None;
        }
        let wanted = match habit {
            Habit::Any => low + random.below(high - low + 1),
            Habit::Most => high,
            Habit::Fewest => low,
        };
        // The nearest end that is allowed.
        let size = (0..=high - low)
            .flat_map(|off| [wanted.checked_sub(off), Some(wanted + off)])
            .flatten()
            .find(|&size| (low..=high).contains(&size) && may_end(at + size))?;
        parts.push(at..at + size);
        at += size;
    }
    Some(parts)
}

// What is read of a slot's head, and no more, here and below: its kind, and the length or the next
// free slot.
fn put_leaf(memory: &mut [u8], slot: usize, text: &[u8]) {
    put_kind(memory, slot, memory::LEAF, text.len());
    memory[memory::slot_start(slot) + memory::REGION..][..text.len()].copy_from_slice(text);
}

fn put_list(memory: &mut [u8], slot: usize, kids: &[Kid]) {
    put_kind(memory, slot, memory::LIST, kids.len());
    memory::put_entries(memory, slot, kids);
}

fn put_kind(memory: &mut [u8], slot: usize, kind: u8, len: usize) {
    let start = memory::slot_start(slot);
    memory[start] = kind;
    memory[start + 2..start + 4].copy_from_slice(&(len as u16).to_be_bytes());
}

/// The slots as a chain of free ones, in their order.
fn put_free(memory: &mut [u8], n: usize, slots: &[usize]) {
    let mut from = memory::FREE_SLOT;
    for &slot in slots {
        memory::put_four(memory, from, slot as u32);
        memory[memory::slot_start(slot)] = memory::FREE;
        from = memory::slot_start(slot) + 4;
    }
    memory::put_four(memory, from, n as u32);
}

/// A third of the marks live, at any places, the ends among them.
fn put_marks(random: &mut Random, memory: &mut [u8], chars: usize) {
    for mark in memory[memory::MARKS..memory::HEAD].chunks_mut(memory::MARK) {
        mark[0] = u8::from(random.below(3) == 0);
        if mark[0] == 1 {
            let any = random.below(chars + 1);
            let place = random.pick(&[0, chars, any, any]);
            memory::put_four(mark, 4, place as u32);
        }
    }
}
