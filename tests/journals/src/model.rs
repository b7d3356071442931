//! The listing that is due of a journal, by document 01: the text is held by the source's rope, which
//! counts it too, and marks by a plain list.

use std::fmt::Write;

use notes::edits::{self, Edit};
use notes::marks::{self, Marking, Marks};
use notes::memory;
use ropey::Rope;

/// The slots of the program's note.
const SLOTS: usize = 80;

/// Given of another tag, a wrong length and a cut field.
pub const BAD: u8 = 10;

/// How the reading of a journal ends: with the journal, by a bad field that is all there, or by a cut
/// one.
#[derive(Clone, Copy, PartialEq)]
pub enum End {
    Whole,
    Bad,
    Cut,
}

/// What a field asks for.
pub enum Field {
    Edit(Edit),
    Mark(usize),
}

impl Field {
    /// What a whole field asks for, or none where it is bad.
    fn of(tag: u8, body: &[u8]) -> Option<Field> {
        match (tag, body.len()) {
            (1, 4..) => Some(Field::Edit(Edit::Insert {
                place: number(&body[..4]),
                piece: body[4..].to_vec(),
            })),
            (2, 8) => Some(Field::Edit(Edit::Remove {
                start: number(&body[..4]),
                end: number(&body[4..]),
            })),
            (3, 4) => Some(Field::Mark(number(body))),
            _ => None,
        }
    }
}

/// Big-endian.
fn number(bytes: &[u8]) -> usize {
    bytes
        .iter()
        .fold(0, |sum, &byte| sum * 256 + usize::from(byte))
}

/// The field at the front of a journal that is not empty, and what comes behind it; or how it ends the
/// reading.
fn split(journal: &[u8]) -> Result<(Field, &[u8]), End> {
    let len = number(journal.get(1..3).ok_or(End::Cut)?);
    let body = journal.get(3..3 + len).ok_or(End::Cut)?;
    let field = Field::of(journal[0], body).ok_or(End::Bad)?;
    Ok((field, &journal[3 + len..]))
}

pub struct Note {
    pub rope: Rope,
    text: String,
    pub marks: Marks,
    /// Insertions whose LF the source misplaced (docs/DIFFERENCES.md).
    pub misplaced: u64,
}

impl Note {
    pub fn opened() -> Note {
        Note {
            rope: Rope::new(),
            text: String::new(),
            marks: Marks {
                places: vec![None; marks::MOST],
                edits: 0,
            },
            misplaced: 0,
        }
    }

    /// The bytes that still go into it.
    pub fn room(&self) -> usize {
        memory::limit(SLOTS) - self.rope.len_bytes()
    }

    /// Does what a field asks for and gives 0, or changes nothing and gives the refusal.
    pub fn play(&mut self, field: &Field) -> u8 {
        let (bytes, chars) = (self.rope.len_bytes(), self.rope.len_chars());
        match field {
            Field::Mark(place) => self.marks.mark(Marking::Set(*place), chars).err(),
            Field::Edit(edit) => {
                let refusal = edits::due(edit, SLOTS, bytes, chars);
                if refusal.is_none() && !edit.is_idle() {
                    self.edit(edit);
                    self.marks.edit(edit);
                }
                refusal
            }
        }
        .unwrap_or(0)
    }

    /// Edits the rope and a plain text. Where the rope misplaces an LF, by the source's known fault, it
    /// is made anew.
    fn edit(&mut self, edit: &Edit) {
        let rope = &mut self.rope;
        let may_misplace = match edit {
            Edit::Insert { place, piece } => {
                let piece = std::str::from_utf8(piece).expect("an accepted piece is a text");
                let is_chunk_start = *place > 0 && rope.chunk_at_char(*place).2 == *place;
                self.text.insert_str(rope.char_to_byte(*place), piece);
                rope.insert(*place, piece);
                is_chunk_start && piece.starts_with('\n')
            }
            Edit::Remove { start, end } => {
                let range = rope.char_to_byte(*start)..rope.char_to_byte(*end);
                self.text.replace_range(range, "");
                rope.remove(*start..*end);
                false
            }
        };
        if *rope != *self.text {
            assert!(
                may_misplace,
                "the source's rope has another text than is due"
            );
            self.misplaced += 1;
            *rope = Rope::from_str(&self.text);
        }
    }

    /// The totals, and a line for each live mark.
    pub fn ending(&self) -> String {
        let rope = &self.rope;
        let mut lines = format!(
            "bytes {} chars {} utf16 {} lines {}\n",
            rope.len_bytes(),
            rope.len_chars(),
            rope.len_utf16_cu(),
            rope.len_lines()
        );
        for (number, place) in self.marks.places.iter().enumerate() {
            if let Some(place) = place {
                let line = rope.char_to_line(*place);
                writeln!(lines, "mark {number} place {place} line {line}").expect("no limit");
            }
        }
        lines
    }
}

/// The line of field k, where it came to this number.
pub fn line(k: usize, code: u8) -> String {
    match code {
        0 => format!("{k} ok\n"),
        _ => format!("{k} refused {code}\n"),
    }
}

/// The listing that is due, what each field came to (0 where it was accepted), how the reading ends,
/// and the note then.
pub struct Due {
    pub listing: String,
    pub codes: Vec<u8>,
    pub end: End,
    pub note: Note,
}

pub fn due(journal: &[u8]) -> Due {
    let mut due = Due {
        listing: String::new(),
        codes: Vec::new(),
        end: End::Whole,
        note: Note::opened(),
    };
    let mut rest = journal;
    while !rest.is_empty() && due.end == End::Whole {
        let code = match split(rest) {
            Ok((field, behind)) => {
                rest = behind;
                due.note.play(&field)
            }
            Err(end) => {
                due.end = end;
                BAD
            }
        };
        due.codes.push(code);
        due.listing.push_str(&line(due.codes.len(), code));
    }
    due.listing.push_str(&due.note.ending());
    due
}
