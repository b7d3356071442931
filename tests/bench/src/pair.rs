//! A note and the source's rope, made of the same text in the same way.

use notes::lent::Lent;
use notes::memory;

use crate::edits::{Rope, UNCHECKED};
use crate::ours;

/// What a note has room for beyond its text, at least: the edits of one turn.
const ROOM: usize = 512;

/// The slots of a note with so many bytes of text: the most that there are for 240 KiB, else as few
/// as have room.
pub fn slots_for(bytes: usize) -> usize {
    match bytes {
        crate::LARGEST => 4_096,
        _ => (bytes + ROOM).div_ceil(64) + 16,
    }
}

/// Pieces of at most 256 bytes that are the text, each with its place.
fn pieces(text: &str) -> impl Iterator<Item = (usize, &str)> {
    let (mut rest, mut chars) = (text, 0);
    std::iter::from_fn(move || {
        let mut end = rest.len().min(256);
        while !rest.is_char_boundary(end) {
            end -= 1;
        }
        let (piece, behind) = rest.split_at(end);
        let place = chars;
        rest = behind;
        chars += piece.chars().count();
        (!piece.is_empty()).then_some((place, piece))
    })
}

/// The text in a note, put in from its start on, piece by piece. What stands in the end is checked.
pub fn note_of(text: &str) -> Lent {
    let n = slots_for(text.len());
    let mut memory = Lent::new(&memory::noise(n));
    ours::open(&mut memory, n);
    for (place, piece) in pieces(text) {
        UNCHECKED.insert(&mut memory, place, piece);
    }
    must_be(&memory, text);
    memory
}

/// The same in a rope.
pub fn rope_of<R: Rope>(text: &str) -> R {
    let mut rope = R::default();
    for (place, piece) in pieces(text) {
        rope.put_in(place, piece);
    }
    rope
}

/// The memory is well formed, and this is its text.
pub fn must_be(memory: &[u8], text: &str) {
    assert!(notes::ours::check(memory), "the memory is well formed");
    assert!(ours::text(memory) == text.as_bytes(), "the texts are equal");
}
