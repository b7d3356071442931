//! What keeps a text: the source crate's ropes, and a note of the library.

use wolamivens::{need, Note, Place};

pub trait Kept {
    fn insert(&mut self, place: usize, piece: &str);
    fn text(&self) -> String;
}

macro_rules! rope {
    ($ropey:ident) => {
        impl Kept for $ropey::Rope {
            fn insert(&mut self, place: usize, piece: &str) {
                $ropey::Rope::insert(self, place, piece);
            }

            /// The leaves joined. By the crate's count chars are bytes, and in each leaf its char of a
            /// number is the byte of that number: no other answer is right of ASCII, so that the stand-in
            /// for str_indices, which gives them, is not to blame.
            fn text(&self) -> String {
                for leaf in self.chunks() {
                    for at in 0..=leaf.len() {
                        assert_eq!($ropey::str_utils::char_to_byte_idx(leaf, at), at);
                    }
                }
                let text: String = self.chunks().collect();
                assert_eq!(self.len_chars(), text.len());
                text
            }
        }
    };
}

rope!(published);
rope!(mended);
rope!(sized);

/// A note of the library, in memory of its own.
pub struct Ours(Vec<u8>);

/// Room for a note of 5,120 bytes.
const SLOTS: usize = 96;

impl Ours {
    pub fn new() -> Ours {
        let mut memory = vec![0; need(SLOTS).unwrap()];
        Note::open(&mut memory, SLOTS).unwrap();
        Ours(memory)
    }
}

impl Kept for Ours {
    /// In parts of at most 256 bytes, the last part first: a longer piece is refused.
    fn insert(&mut self, place: usize, piece: &str) {
        let mut note = Note::attach(&mut self.0).unwrap();
        for part in piece.as_bytes().rchunks(256) {
            note.insert(Place(place), part).unwrap();
        }
    }

    fn text(&self) -> String {
        let mut memory = self.0.clone();
        let note = Note::attach(&mut memory).unwrap();
        let mut out = vec![0; note.len_bytes().unwrap().0];
        let all = Place(0)..note.len_chars().unwrap();
        note.copy_out(all, &mut out).unwrap().to_string()
    }
}
