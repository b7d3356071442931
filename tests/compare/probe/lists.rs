//! New: opens the crate's child lists to the tests, with children of both kinds. No logic of its
//! own. tests/oracle.sh lays this file beside the oracle's probe.rs.
use crate::tree::{Node, NodeChildren, NodeText, TextInfo};
use std::sync::Arc;

/// Bytes, chars, surrogate pairs and line breaks.
pub type Counts = [u64; 4];

fn counts(i: TextInfo) -> Counts {
    [i.bytes, i.chars, i.utf16_surrogates, i.line_breaks]
}
fn info([bytes, chars, utf16_surrogates, line_breaks]: Counts) -> TextInfo {
    TextInfo {
        bytes,
        chars,
        utf16_surrogates,
        line_breaks,
    }
}
fn id(node: &Arc<Node>) -> usize {
    Arc::as_ptr(node) as usize
}
fn entries(list: &NodeChildren) -> Vec<(usize, Counts)> {
    list.iter().map(|(i, n)| (id(n), counts(*i))).collect()
}

/// A node, with the counts that a list keeps of it.
pub struct Child(TextInfo, Arc<Node>);

impl Child {
    pub fn leaf(c: Counts, text: &str) -> Self {
        Child(info(c), Arc::new(Node::Leaf(NodeText::from_str(text))))
    }
    pub fn list(c: Counts, list: List) -> Self {
        Child(info(c), Arc::new(Node::Internal(list.0)))
    }
    /// The node's address, which it keeps as long as it is there.
    pub fn id(&self) -> usize {
        id(&self.1)
    }
    pub fn counts(&self) -> Counts {
        counts(self.0)
    }
    fn item(self) -> (TextInfo, Arc<Node>) {
        (self.0, self.1)
    }
}

pub struct List(NodeChildren);

impl List {
    pub fn new() -> Self {
        List(NodeChildren::new())
    }
    pub fn len(&self) -> usize {
        self.0.len()
    }
    pub fn is_full(&self) -> bool {
        self.0.is_full()
    }
    /// Each child's address and counts.
    pub fn entries(&self) -> Vec<(usize, Counts)> {
        entries(&self.0)
    }
    pub fn is_leaf(&self, k: usize) -> bool {
        self.0.nodes()[k].is_leaf()
    }
    pub fn text_of(&self, k: usize) -> &str {
        self.0.nodes()[k].leaf_text()
    }
    pub fn entries_of(&self, k: usize) -> Vec<(usize, Counts)> {
        entries(self.0.nodes()[k].children())
    }
    pub fn update_child_info(&mut self, i: usize) {
        self.0.update_child_info(i)
    }
    pub fn push(&mut self, c: Child) {
        self.0.push(c.item())
    }
    pub fn push_split(&mut self, c: Child) -> Self {
        List(self.0.push_split(c.item()))
    }
    pub fn merge_distribute(&mut self, i: usize, j: usize) -> bool {
        self.0.merge_distribute(i, j)
    }
    pub fn distribute_with(&mut self, o: &mut List) {
        self.0.distribute_with(&mut o.0)
    }
    pub fn compact_leaves(&mut self) {
        self.0.compact_leaves()
    }
    pub fn pop(&mut self) -> Child {
        let (i, n) = self.0.pop();
        Child(i, n)
    }
    pub fn insert(&mut self, i: usize, c: Child) {
        self.0.insert(i, c.item())
    }
    pub fn insert_split(&mut self, i: usize, c: Child) -> Self {
        List(self.0.insert_split(i, c.item()))
    }
    pub fn remove(&mut self, i: usize) -> Child {
        let (i, n) = self.0.remove(i);
        Child(i, n)
    }
    pub fn split_off(&mut self, i: usize) -> Self {
        List(self.0.split_off(i))
    }
    pub fn combined_info(&self) -> Counts {
        counts(self.0.combined_info())
    }
    pub fn search_byte_idx(&self, i: usize) -> (usize, Counts) {
        let (k, a) = self.0.search_byte_idx(i);
        (k, counts(a))
    }
    pub fn search_char_idx(&self, i: usize) -> (usize, Counts) {
        let (k, a) = self.0.search_char_idx(i);
        (k, counts(a))
    }
    pub fn search_utf16_code_unit_idx(&self, i: usize) -> (usize, Counts) {
        let (k, a) = self.0.search_utf16_code_unit_idx(i);
        (k, counts(a))
    }
    pub fn search_char_idx_only(&self, i: usize) -> (usize, usize) {
        self.0.search_char_idx_only(i)
    }
    pub fn search_line_break_idx(&self, i: usize) -> (usize, Counts) {
        let (k, a) = self.0.search_line_break_idx(i);
        (k, counts(a))
    }
    pub fn search_char_idx_range(&self, s: usize, e: usize) -> ((usize, usize), (usize, usize)) {
        self.0.search_char_idx_range(s, e)
    }
    pub fn is_info_accurate(&self) -> bool {
        self.0.is_info_accurate()
    }
}
