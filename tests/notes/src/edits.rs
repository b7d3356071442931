//! The calls that edit a note, and which refusal is due of them by document 01.

use std::fmt;

use crate::library::{wol_note_insert, wol_note_remove};
use crate::memory;

#[derive(Clone)]
pub enum Edit {
    Insert { place: usize, piece: Vec<u8> },
    Remove { start: usize, end: usize },
}

impl fmt::Debug for Edit {
    fn fmt(&self, f: &mut fmt::Formatter) -> fmt::Result {
        match self {
            Edit::Insert { place, piece } => {
                write!(f, "insertion of {piece:02X?} at {place}")
            }
            Edit::Remove { start, end } => write!(f, "removal of {start}..{end}"),
        }
    }
}

impl Edit {
    /// Whether it is an empty piece or range, which changes nothing where it is accepted.
    pub fn is_idle(&self) -> bool {
        match self {
            Edit::Insert { piece, .. } => piece.is_empty(),
            Edit::Remove { start, end } => start == end,
        }
    }

    /// How many chars a piece that is a text brings in.
    pub fn new_chars(&self) -> usize {
        match self {
            Edit::Insert { piece, .. } => piece.iter().filter(|&byte| byte & 0xC0 != 0x80).count(),
            Edit::Remove { .. } => 0,
        }
    }
}

/// What is in the change if none is written.
pub const UNTOUCHED: i64 = i64::MIN;

/// The refusal or 0, and the change of the number of lines.
pub fn edit(memory: &mut [u8], edit: &Edit) -> (u8, i64) {
    let (at, len) = (memory.as_mut_ptr(), memory.len());
    let mut change = UNTOUCHED;
    // Sound: each pointer goes with the length of its own slice.
    let refusal = unsafe {
        match edit {
            Edit::Insert { place, piece } => {
                wol_note_insert(at, len, *place, piece.as_ptr(), piece.len(), &mut change)
            }
            Edit::Remove { start, end } => wol_note_remove(at, len, *start, *end, &mut change),
        }
    };
    (refusal, change)
}

/// The refusal that is due of a well-formed memory of n slots, whose note has so many bytes and
/// chars.
pub fn due(edit: &Edit, n: usize, bytes: usize, chars: usize) -> Option<u8> {
    match edit {
        Edit::Insert { place, .. } if *place > chars => Some(3),
        Edit::Insert { piece, .. } if piece.len() > 256 => Some(4),
        Edit::Insert { piece, .. } if std::str::from_utf8(piece).is_err() => Some(5),
        Edit::Insert { piece, .. } if bytes + piece.len() > memory::limit(n) => Some(6),
        Edit::Remove { start, end } if start > end || *end > chars => Some(3),
        _ => None,
    }
}
