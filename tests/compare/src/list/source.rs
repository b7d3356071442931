//! The source crate's child lists, built from what lies in the memory. Its children are nodes of
//! their own, and the slots go with them by their addresses.

use std::str;

use ropey::probe::lists::{Child, Counts, List};

use super::calls::Call::*;
use super::calls::{Case, Numbers};
use super::memory::{self, Kid, Node};
use crate::panics::caught;

/// A child's slot, and its counts, which have 64 bits in the source.
pub type Entry = (u32, Counts);

/// What the source leaves in a node.
pub enum Left {
    Leaf(Vec<u8>),
    List(Vec<Entry>),
}

/// What a call leaves that the source accepts.
#[derive(Default)]
pub struct Done {
    pub numbers: Numbers,
    /// The list and the other one, where the call stores them.
    pub list: Option<Vec<Entry>>,
    pub other: Option<Vec<Entry>>,
    /// The children that the call writes, by their slots.
    pub nodes: Vec<(u32, Left)>,
}

/// What the source comes to.
pub enum Source {
    Done(Done),
    Panicked,
    /// What lies there cannot be built: no list, no node, or a leaf that is no text.
    NotAsked,
}

/// The slot of each node, by its address.
#[derive(Default)]
struct Names(Vec<(usize, u32)>);

impl Names {
    fn named(&mut self, slot: u32, child: Child) -> Child {
        self.0.push((child.id(), slot));
        child
    }

    fn slot(&self, id: usize) -> u32 {
        let found = self.0.iter().find(|name| name.0 == id);
        found.expect("a child keeps its address").1
    }

    fn entries(&self, of: Vec<(usize, Counts)>) -> Vec<Entry> {
        let entry = |(id, counts)| (self.slot(id), counts);
        of.into_iter().map(entry).collect()
    }

    /// A child whose node is not looked at.
    fn bare(&mut self, kid: &Kid) -> Child {
        self.named(kid.slot, Child::leaf(kid.counts.map(u64::from), ""))
    }

    fn bare_list(&mut self, kids: &[Kid]) -> List {
        let mut list = List::new();
        for kid in kids {
            list.push(self.bare(kid));
        }
        list
    }

    /// A child with its node.
    fn whole(&mut self, memory: &[u8], kid: &Kid) -> Option<Child> {
        let counts = kid.counts.map(u64::from);
        let child = match memory::node(memory, kid.slot as usize)? {
            Node::Leaf(text) => Child::leaf(counts, str::from_utf8(text).ok()?),
            Node::List(kids) => Child::list(counts, self.bare_list(&kids)),
        };
        Some(self.named(kid.slot, child))
    }

    /// The list of the call, with the nodes that it looks at.
    fn list(&mut self, case: &Case, kids: &[Kid]) -> Option<List> {
        let mut list = List::new();
        for (k, kid) in kids.iter().enumerate() {
            let is_read = match case.call {
                UpdateChildInfo => k == case.i,
                MergeDistribute => k == case.i || k == case.j,
                CompactLeaves | IsInfoAccurate => true,
                _ => false,
            };
            list.push(if is_read {
                self.whole(case.memory, kid)?
            } else {
                self.bare(kid)
            });
        }
        Some(list)
    }

    /// The child's node as the call leaves it.
    fn node(&self, list: &List, k: usize) -> (u32, Left) {
        let left = if list.is_leaf(k) {
            Left::Leaf(list.text_of(k).as_bytes().to_vec())
        } else {
            Left::List(self.entries(list.entries_of(k)))
        };
        (self.slot(list.entries()[k].0), left)
    }
}

pub fn ask(case: &Case) -> Source {
    match build(case) {
        None => Source::NotAsked,
        Some((names, list, other, kid)) => match caught(|| done(case, &names, list, other, kid)) {
            Some(done) => Source::Done(done),
            None => Source::Panicked,
        },
    }
}

/// The lists and the child that the call is given.
fn build(case: &Case) -> Option<(Names, List, List, Child)> {
    let mut names = Names::default();
    let list = match case.call {
        New => List::new(),
        _ => names.list(case, &memory::list(case.memory, case.slot)?)?,
    };
    let other = match case.call {
        DistributeWith => names.bare_list(&memory::list(case.memory, case.other)?),
        _ => List::new(),
    };
    let kid = names.bare(&case.kid);
    Some((names, list, other, kid))
}

fn done(case: &Case, names: &Names, mut list: List, mut other: List, kid: Child) -> Done {
    let (i, j) = (case.i, case.j);
    let mut done = Done::default();
    let mut stored = true;
    match case.call {
        New => {}
        UpdateChildInfo => list.update_child_info(i),
        Push => list.push(kid),
        PushSplit => done.other = Some(names.entries(list.push_split(kid).entries())),
        MergeDistribute => {
            let is_merged = list.merge_distribute(i, j);
            done.numbers[0] = u64::from(is_merged);
            done.nodes.push(names.node(&list, i));
            if !is_merged {
                done.nodes.push(names.node(&list, j));
            }
        }
        DistributeWith => {
            list.distribute_with(&mut other);
            done.other = Some(names.entries(other.entries()));
        }
        CompactLeaves => {
            stored = list.len() > 1 && list.is_leaf(0);
            list.compact_leaves();
            if stored {
                done.nodes = (0..list.len()).map(|k| names.node(&list, k)).collect();
            }
        }
        Pop => done.numbers = child(names, &list.pop()),
        Insert => list.insert(i, kid),
        InsertSplit => done.other = Some(names.entries(list.insert_split(i, kid).entries())),
        Remove => done.numbers = child(names, &list.remove(i)),
        SplitOff => done.other = Some(names.entries(list.split_off(i).entries())),
        _ => {
            stored = false;
            done.numbers = told(case, &list);
        }
    }
    if stored {
        done.list = Some(names.entries(list.entries()));
    }
    done
}

/// The answers of the calls that only look.
fn told(case: &Case, list: &List) -> Numbers {
    let (i, j) = (case.i, case.j);
    match case.call {
        Len => [list.len() as u64, 0, 0, 0, 0],
        IsFull => [u64::from(list.is_full()), 0, 0, 0, 0],
        CombinedInfo => five(0, list.combined_info()),
        SearchByte => found(list.search_byte_idx(i)),
        SearchChar => found(list.search_char_idx(i)),
        SearchUtf16 => found(list.search_utf16_code_unit_idx(i)),
        SearchCharOnly => {
            let (k, chars) = list.search_char_idx_only(i);
            [k as u64, chars as u64, 0, 0, 0]
        }
        SearchLineBreak => found(list.search_line_break_idx(i)),
        SearchCharRange => {
            let (left, right) = list.search_char_idx_range(i, j);
            [left.0, left.1, right.0, right.1, 0].map(|n| n as u64)
        }
        IsInfoAccurate => [u64::from(list.is_info_accurate()), 0, 0, 0, 0],
        other => unreachable!("{other:?} stores a list"),
    }
}

fn five(a: u64, [b, c, d, e]: Counts) -> Numbers {
    [a, b, c, d, e]
}

fn found((k, sums): (usize, Counts)) -> Numbers {
    five(k as u64, sums)
}

fn child(names: &Names, child: &Child) -> Numbers {
    five(u64::from(names.slot(child.id())), child.counts())
}
