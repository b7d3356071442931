//! The lent memory: 6,144 bytes of head, then slots of 640 bytes, one node in each.

pub const MAX_BYTES: usize = 512;
pub const MAX_CHILDREN: usize = 16;

pub const HEAD: usize = 6_144;
pub const SLOT: usize = 640;

/// In the head: the number of slots, the edit number, the root's entry, its height, the first free
/// slot, and the marks with the bytes of one.
pub const N: usize = 0;
pub const EDIT: usize = 4;
pub const ROOT: usize = 8;
pub const HEIGHT: usize = 28;
pub const FREE_SLOT: usize = 32;
pub const MARKS: usize = 2_048;
pub const MARK: usize = 16;

/// In a slot: where the region starts, and the bytes of one entry of a list.
pub const REGION: usize = 128;
pub const ENTRY: usize = 20;

pub const FREE: u8 = 0;
pub const LEAF: u8 = 1;
pub const LIST: u8 = 2;

/// An entry of a list: a child's slot, and its bytes, chars, surrogate pairs and line breaks.
#[derive(Clone, Copy, Debug, PartialEq, Eq)]
pub struct Kid {
    pub slot: u32,
    pub counts: [u32; 4],
}

impl Kid {
    pub const NONE: Kid = Kid {
        slot: 0,
        counts: [0; 4],
    };
}

/// The bytes that n slots need.
pub fn need(n: usize) -> usize {
    HEAD + SLOT * n
}

/// The bytes that the note of n slots may have.
pub fn limit(n: usize) -> usize {
    64 * (n - 16)
}

pub fn slot_start(slot: usize) -> usize {
    HEAD + SLOT * slot
}

/// The number in four bytes.
pub fn four(memory: &[u8], at: usize) -> u32 {
    u32::from_be_bytes(memory[at..at + 4].try_into().expect("4 bytes"))
}

pub fn put_four(memory: &mut [u8], at: usize, number: u32) {
    memory[at..at + 4].copy_from_slice(&number.to_be_bytes());
}

/// What a slot holds if it holds a node.
#[derive(Clone)]
pub enum Node<'a> {
    Leaf(&'a [u8]),
    List(Vec<Kid>),
}

/// The slot's bytes, if all of them lie in the memory.
fn bytes_of(memory: &[u8], slot: usize) -> Option<&[u8]> {
    let start = slot.checked_mul(SLOT)?.checked_add(HEAD)?;
    memory.get(start..start.checked_add(SLOT)?)
}

pub fn is_outside(memory: &[u8], slot: usize) -> bool {
    bytes_of(memory, slot).is_none()
}

pub fn node(memory: &[u8], slot: usize) -> Option<Node<'_>> {
    let bytes = bytes_of(memory, slot)?;
    let len = usize::from(u16::from_be_bytes([bytes[2], bytes[3]]));
    let region = &bytes[REGION..];
    match bytes[0] {
        LEAF if len <= MAX_BYTES => Some(Node::Leaf(&region[..len])),
        LIST if len <= MAX_CHILDREN => Some(Node::List(
            region.chunks(ENTRY).take(len).map(kid).collect(),
        )),
        _ => None,
    }
}

pub fn list(memory: &[u8], slot: usize) -> Option<Vec<Kid>> {
    match node(memory, slot) {
        Some(Node::List(kids)) => Some(kids),
        _ => None,
    }
}

/// The child in the first twenty bytes.
pub fn kid(entry: &[u8]) -> Kid {
    Kid {
        slot: four(entry, 0),
        counts: [4, 8, 12, 16].map(|at| four(entry, at)),
    }
}

/// Writes a head: the kind and the length, and zeros for the rest.
pub fn put_head(memory: &mut [u8], slot: usize, kind: u8, len: usize) {
    let start = HEAD + SLOT * slot;
    let len = (len as u16).to_be_bytes();
    memory[start..start + 8].copy_from_slice(&[kind, 0, len[0], len[1], 0, 0, 0, 0]);
}

/// Writes a list: its head and all sixteen entries, zeros behind the children.
pub fn put_list(memory: &mut [u8], slot: usize, kids: &[Kid]) {
    put_head(memory, slot, LIST, kids.len());
    let mut all = kids.to_vec();
    all.resize(MAX_CHILDREN, Kid::NONE);
    put_entries(memory, slot, &all);
}

/// Writes the first entries of a list.
pub fn put_entries(memory: &mut [u8], slot: usize, kids: &[Kid]) {
    let start = HEAD + SLOT * slot + REGION;
    for (k, kid) in kids.iter().enumerate() {
        memory[start + ENTRY * k..start + ENTRY * (k + 1)].copy_from_slice(&entry(kid));
    }
}

/// A child as it lies in a list.
pub fn entry(kid: &Kid) -> [u8; ENTRY] {
    let mut entry = [0; ENTRY];
    entry[..4].copy_from_slice(&kid.slot.to_be_bytes());
    for (count, place) in kid.counts.iter().zip(entry[4..].chunks_mut(4)) {
        place.copy_from_slice(&count.to_be_bytes());
    }
    entry
}

/// Spoils what is not read of a head without marks.
pub fn spoil_head(memory: &mut [u8]) {
    for (at, new) in noise(0).into_iter().enumerate() {
        let is_live = at >= MARKS && (at - MARKS) % MARK == 0;
        let is_field = at <= HEIGHT || (FREE_SLOT..FREE_SLOT + 4).contains(&at);
        if !is_live && !is_field {
            memory[at] = new;
        }
    }
}

/// Writes a leaf: its head, and its text at the front of the region.
pub fn put_leaf(memory: &mut [u8], slot: usize, text: &[u8]) {
    put_head(memory, slot, LEAF, text.len());
    let start = HEAD + SLOT * slot + REGION;
    memory[start..start + text.len()].copy_from_slice(text);
}

/// A memory of this many slots, of bytes that tell every move.
pub fn noise(slots: usize) -> Vec<u8> {
    let mut memory = vec![0; HEAD + SLOT * slots];
    for (row, bytes) in memory.chunks_mut(256).enumerate() {
        for (at, byte) in bytes.iter_mut().enumerate() {
            *byte = (at as u8).wrapping_mul(37).wrapping_add(row as u8) ^ 0xA5;
        }
    }
    memory
}

/// Spoils what is not read of a list: the head's second byte and next slot, and the entries behind
/// the children.
pub fn spoil(memory: &mut [u8], slot: usize, len: usize) {
    let start = HEAD + SLOT * slot;
    let behind = start + REGION + ENTRY * len..start + REGION + ENTRY * MAX_CHILDREN;
    for at in [start + 1]
        .into_iter()
        .chain(start + 4..start + 8)
        .chain(behind)
    {
        memory[at] = (at * 29) as u8 ^ 0x5A;
    }
}

/// The counts of a text.
pub fn counts_of(text: &str) -> [u32; 4] {
    let mut counts = [text.len() as u32, 0, 0, 0];
    let mut last = ' ';
    for c in text.chars() {
        counts[1] += 1;
        counts[2] += u32::from(c.len_utf16() == 2);
        counts[3] += u32::from(c == '\r' || (c == '\n' && last != '\r'));
        last = c;
    }
    counts
}

/// The counts of bytes that may be no text: their own number, and what else is counted of what they
/// most nearly are.
pub fn counts_of_bytes(bytes: &[u8]) -> [u32; 4] {
    let mut counts = counts_of(&String::from_utf8_lossy(bytes));
    counts[0] = bytes.len() as u32;
    counts
}
