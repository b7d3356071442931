//! The same edits of a note, by one of the ways into the library, and of the source's rope.

use std::hint::black_box;

use notes::library::{wol_note_insert, wol_note_remove};
use notes::texts::Random;

use crate::clock::Way;

type Insert = unsafe extern "C" fn(*mut u8, usize, usize, *const u8, usize, &mut i64) -> u8;
type Remove = unsafe extern "C" fn(*mut u8, usize, usize, usize, &mut i64) -> u8;

extern "C" {
    // Of tests/bench/unchecked.rt.txt.
    fn wol_unchecked_insert(
        memory: *mut u8,
        len: usize,
        place: usize,
        piece: *const u8,
        piece_len: usize,
        change: &mut i64,
    ) -> u8;
    fn wol_unchecked_remove(
        memory: *mut u8,
        len: usize,
        start: usize,
        end: usize,
        change: &mut i64,
    ) -> u8;
    fn wol_text_insert(
        memory: *mut u8,
        len: usize,
        place: usize,
        piece: *const u8,
        piece_len: usize,
        change: &mut i64,
    ) -> u8;
    fn wol_text_remove(
        memory: *mut u8,
        len: usize,
        start: usize,
        end: usize,
        change: &mut i64,
    ) -> u8;
}

/// A way into the library.
pub struct Editor {
    insert: Insert,
    remove: Remove,
}

/// The public calls.
pub const PUBLIC: Editor = Editor {
    insert: wol_note_insert,
    remove: wol_note_remove,
};

/// The same without the check of the memory.
pub const UNCHECKED: Editor = Editor {
    insert: wol_unchecked_insert,
    remove: wol_unchecked_remove,
};

/// Without that, and without marks and edit number.
pub const TEXT_ALONE: Editor = Editor {
    insert: wol_text_insert,
    remove: wol_text_remove,
};

impl Editor {
    pub fn insert(&self, memory: &mut [u8], place: usize, piece: &str) {
        let mut change = 0;
        let (at, len) = (memory.as_mut_ptr(), memory.len());
        // Sound, here and below: each pointer goes with the length of its own slice; and the memory is
        // well formed where no check sees to it, as each note is opened and edited by these calls alone.
        let refusal =
            unsafe { (self.insert)(at, len, place, piece.as_ptr(), piece.len(), &mut change) };
        assert_eq!(refusal, 0, "an insertion at {place}");
    }

    fn remove(&self, memory: &mut [u8], start: usize, end: usize) {
        let mut change = 0;
        let (at, len) = (memory.as_mut_ptr(), memory.len());
        let refusal = unsafe { (self.remove)(at, len, start, end, &mut change) };
        assert_eq!(refusal, 0, "a removal of {start}..{end}");
    }
}

/// A piece that is put in at one place after another, and taken out again.
pub struct Edits {
    piece: String,
    chars: usize,
    places: Vec<usize>,
}

impl Edits {
    /// The text's first chars, at random places of the text.
    pub fn new(text: &str, chars: usize, places: usize) -> Edits {
        let mut random = Random::new();
        let all = text.chars().count();
        Edits {
            piece: text.chars().take(chars).collect(),
            chars,
            places: (0..places).map(|_| random.below(all + 1)).collect(),
        }
    }

    fn place(&self, k: usize) -> usize {
        black_box(self.places[k % self.places.len()])
    }

    pub fn edit(&self, editor: &Editor, memory: &mut [u8], way: Way, k: usize) {
        let start = self.place(k);
        match way {
            Way::There => editor.insert(memory, start, &self.piece),
            Way::Back => editor.remove(memory, start, start + self.chars),
        }
    }

    pub fn edit_rope(&self, rope: &mut impl Rope, way: Way, k: usize) {
        let start = self.place(k);
        match way {
            Way::There => rope.put_in(start, &self.piece),
            Way::Back => rope.take_out(start, start + self.chars),
        }
    }
}

/// The source's rope, as it is timed throughout and as it is compared elsewhere: they differ in the
/// str_indices below them.
pub trait Rope: Default {
    fn put_in(&mut self, place: usize, piece: &str);
    fn take_out(&mut self, start: usize, end: usize);
}

impl Rope for ropey::Rope {
    fn put_in(&mut self, place: usize, piece: &str) {
        self.insert(place, piece);
    }

    fn take_out(&mut self, start: usize, end: usize) {
        self.remove(start..end);
    }
}

impl Rope for compared::Rope {
    fn put_in(&mut self, place: usize, piece: &str) {
        self.insert(place, piece);
    }

    fn take_out(&mut self, start: usize, end: usize) {
        self.remove(start..end);
    }
}
