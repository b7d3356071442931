//! Whether a lent memory is well formed, and the note that it then is: document 01's rules, clause
//! by clause. The tree is walked level by level from the root down, and no more nodes than there
//! are slots, so that it ends whatever the bytes are.

use crate::marks::Marks;
use crate::memory::{self, Kid, Node};
use crate::places::Places;

/// A leaf of the tree: its slot, and where in the text it begins and ends.
#[derive(Clone, Copy, Debug)]
pub struct Leaf {
    pub slot: usize,
    pub start: usize,
    pub end: usize,
}

/// A note, and the leaves that its tree has.
pub struct Note {
    pub text: String,
    pub places: Places,
    pub marks: Marks,
    pub n: usize,
    pub leaves: Vec<Leaf>,
}

/// The note, if the memory is well formed.
pub fn note(memory: &[u8]) -> Option<Note> {
    let n = slots(memory)?;
    let own = &memory[..memory::need(n)];
    let levels = levels(own, n)?;
    let leaves = leaves(own, levels.last()?);
    let text = text(own, &leaves)?;
    let is_whole = sizes_hold(own, &levels)
        && counts_hold(own, &levels, &leaves, &text)
        && each_slot_once(own, n, &levels)
        && text.len() <= memory::limit(n);
    let places = Places::of(&text);
    (is_whole && marks_hold(own, places.chars())).then(|| Note {
        places,
        marks: Marks::of(own),
        n,
        leaves,
        text,
    })
}

/// The stored n, if it is one and its need is met.
fn slots(memory: &[u8]) -> Option<usize> {
    if memory.len() < memory::HEAD {
        return None;
    }
    let n = memory::four(memory, memory::N) as usize;
    ((17..=4_096).contains(&n) && memory::need(n) <= memory.len()).then_some(n)
}

/// The entries that lead to the nodes, level by level from the root's: lists on each, and leaves on
/// the last.
fn levels(own: &[u8], n: usize) -> Option<Vec<Vec<Kid>>> {
    let height = usize::from(own[memory::HEIGHT]);
    let mut levels = vec![vec![memory::kid(&own[memory::ROOT..])]];
    let mut met = 1;
    for _ in 0..height {
        let mut below = Vec::new();
        for kid in levels.last()? {
            below.append(&mut memory::list(own, kid.slot as usize)?);
            if met + below.len() > n {
                return None;
            }
        }
        met += below.len();
        levels.push(below);
    }
    let are_leaves = levels.last()?.iter().all(|kid| leaf(own, kid).is_some());
    are_leaves.then_some(levels)
}

fn leaf<'a>(own: &'a [u8], kid: &Kid) -> Option<&'a [u8]> {
    match memory::node(own, kid.slot as usize) {
        Some(Node::Leaf(text)) => Some(text),
        _ => None,
    }
}

fn leaves(own: &[u8], kids: &[Kid]) -> Vec<Leaf> {
    let mut end = 0;
    let leaves = kids.iter().map(|kid| {
        let start = end;
        end += leaf(own, kid).map_or(0, <[u8]>::len);
        Leaf {
            slot: kid.slot as usize,
            start,
            end,
        }
    });
    leaves.collect()
}

/// The text, if each leaf is UTF-8 and no seam parts CR from LF.
fn text(own: &[u8], leaves: &[Leaf]) -> Option<String> {
    let mut text = String::new();
    for &Leaf { slot, start, end } in leaves {
        let at = memory::slot_start(slot) + memory::REGION;
        let next = std::str::from_utf8(&own[at..at + end - start]).ok()?;
        if text.ends_with('\r') && next.starts_with('\n') {
            return None;
        }
        text.push_str(next);
    }
    Some(text)
}

/// A root leaf may have any length, and a root list two children; else a leaf has 128 bytes and a
/// list four children, or more.
fn sizes_hold(own: &[u8], levels: &[Vec<Kid>]) -> bool {
    let height = levels.len() - 1;
    levels.iter().enumerate().all(|(depth, kids)| {
        let least = match (depth, depth == height) {
            (0, true) => 0,
            (0, false) => 2,
            (_, true) => 128,
            (_, false) => 4,
        };
        kids.iter()
            .all(|kid| match memory::node(own, kid.slot as usize) {
                Some(Node::Leaf(text)) => text.len() >= least,
                Some(Node::List(kids)) => kids.len() >= least,
                None => false,
            })
    })
}

/// The stored counts of each node, the root among them, are those of the text below it.
fn counts_hold(own: &[u8], levels: &[Vec<Kid>], leaves: &[Leaf], text: &str) -> bool {
    // How many leaves each node of a level has below it, from the last level up.
    let mut below = vec![1; leaves.len()];
    for (depth, kids) in levels.iter().enumerate().rev() {
        if depth + 1 < levels.len() {
            let mut under = below.iter();
            below = kids
                .iter()
                .map(|kid| {
                    let len = memory::list(own, kid.slot as usize).map_or(0, |list| list.len());
                    under.by_ref().take(len).sum()
                })
                .collect();
        }
        let mut first = 0;
        for (kid, &count) in kids.iter().zip(&below) {
            let part = match &leaves[first..first + count] {
                [] => "",
                leaves => &text[leaves[0].start..leaves[count - 1].end],
            };
            if memory::counts_of(part) != kid.counts {
                return false;
            }
            first += count;
        }
    }
    true
}

/// Each slot is in the tree once, or in the chain of the free ones once.
fn each_slot_once(own: &[u8], n: usize, levels: &[Vec<Kid>]) -> bool {
    let mut times = vec![0; n];
    for kid in levels.iter().flatten() {
        times[kid.slot as usize] += 1;
    }
    let mut at = memory::four(own, memory::FREE_SLOT) as usize;
    for _ in 0..n {
        if at >= n || own[memory::slot_start(at)] != memory::FREE {
            break;
        }
        times[at] += 1;
        at = memory::four(own, memory::slot_start(at) + 4) as usize;
    }
    at == n && times.iter().all(|&times| times == 1)
}

fn marks_hold(own: &[u8], chars: usize) -> bool {
    own[memory::MARKS..memory::HEAD]
        .chunks(memory::MARK)
        .all(|mark| match mark[0] {
            0 => true,
            1 => memory::four(mark, 4) as usize <= chars,
            _ => false,
        })
}
