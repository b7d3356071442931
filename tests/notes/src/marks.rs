//! The calls that set and drop a mark, and a plain model of the marks and the edit number, by
//! document 01's rules.

use crate::asks::UNTOUCHED;
use crate::edits::Edit;
use crate::library::{wol_note_drop_mark, wol_note_set_mark};
use crate::memory::{self, EDIT, HEAD, MARK, MARKS};

/// How many marks there are.
pub const MOST: usize = 256;

/// In a mark: where its place lies.
const PLACE: usize = 4;

/// A mark set at a place, or dropped by its number.
#[derive(Clone, Copy, Debug)]
pub enum Marking {
    Set(usize),
    Drop(usize),
}

/// The refusal or 0, and the number of a mark that was set.
pub fn mark(memory: &mut [u8], marking: Marking) -> (u8, u64) {
    let (at, len) = (memory.as_mut_ptr(), memory.len());
    let mut number = UNTOUCHED;
    // Sound: the pointer goes with the length of its own slice.
    let refusal = unsafe {
        match marking {
            Marking::Set(place) => wol_note_set_mark(at, len, place, &mut number),
            Marking::Drop(mark) => wol_note_drop_mark(at, len, mark),
        }
    };
    (refusal, number)
}

/// By number, the place of each mark that is live; and the edit number.
pub struct Marks {
    pub places: Vec<Option<usize>>,
    pub edits: u32,
}

impl Marks {
    /// As they lie in the head of a well-formed memory.
    pub fn of(memory: &[u8]) -> Marks {
        let marks = memory[MARKS..HEAD].chunks(MARK);
        let place = |mark: &[u8]| (mark[0] == 1).then(|| memory::four(mark, PLACE) as usize);
        Marks {
            places: marks.map(place).collect(),
            edits: memory::four(memory, EDIT),
        }
    }

    /// Writes which marks are live, their places and the edit number. All other bytes stay, the places
    /// of free marks among them.
    pub fn put(&self, memory: &mut [u8]) {
        memory::put_four(memory, EDIT, self.edits);
        let marks = memory[MARKS..HEAD].chunks_mut(MARK);
        for (mark, place) in marks.zip(&self.places) {
            mark[0] = u8::from(place.is_some());
            if let Some(place) = place {
                memory::put_four(mark, PLACE, *place as u32);
            }
        }
    }

    pub fn live(&self) -> usize {
        self.places.iter().flatten().count()
    }

    /// Where a mark stands, or refusal 7.
    pub fn place(&self, mark: usize) -> Result<usize, u8> {
        self.places.get(mark).copied().flatten().ok_or(7)
    }

    /// Sets or drops a mark in a note of so many chars: its number, or the refusal.
    pub fn mark(&mut self, marking: Marking, chars: usize) -> Result<usize, u8> {
        match marking {
            Marking::Set(place) if place > chars => Err(3),
            Marking::Set(place) => {
                let lowest = self.places.iter().position(Option::is_none).ok_or(8)?;
                self.places[lowest] = Some(place);
                Ok(lowest)
            }
            Marking::Drop(mark) => {
                self.place(mark)?;
                self.places[mark] = None;
                Ok(mark)
            }
        }
    }

    /// Follows an edit that was accepted and changed the text.
    pub fn edit(&mut self, edit: &Edit) {
        for q in self.places.iter_mut().flatten() {
            match edit {
                Edit::Insert { place, .. } if *q >= *place => *q += edit.new_chars(),
                Edit::Remove { start, end } if *q >= *end => *q -= end - start,
                Edit::Remove { start, .. } if *q >= *start => *q = *start,
                _ => {}
            }
        }
        self.edits = self.edits.wrapping_add(1);
    }
}
