//! The note.

use std::fmt;
use std::ops::Range;
use std::str;

use crate::sys;
use crate::{Byte, Line, Mark, Place, Refusal, Runs, Unit};

/// How many bytes a note of so many slots needs. Refused by [`Refusal::Opening`] outside 17 to 4,096.
pub fn need(slots: usize) -> Result<usize, Refusal> {
    match slots {
        17..=4096 => Ok(640 * slots + 6144),
        _ => Err(Refusal::Opening),
    }
}

/// Whether memory is well formed: a note that can be attached.
pub fn check(memory: &[u8]) -> bool {
    sys::check(memory)
}

/// A note in memory that is lent to it. Nothing else can change the memory meanwhile, so no call is
/// refused by [`Refusal::Memory`] once it is opened or attached. A refused call changes nothing.
pub struct Note<'a> {
    memory: &'a mut [u8],
}

impl<'a> Note<'a> {
    /// An empty note of so many slots, without marks and with edit number 0, whatever the memory held. It
    /// may grow to 64 × (slots − 16) bytes; what lies beyond [`need`] is never read or changed. Refused by
    /// [`Refusal::Opening`].
    pub fn open(memory: &'a mut [u8], slots: usize) -> Result<Note<'a>, Refusal> {
        sys::open(memory, slots)?;
        Ok(Note { memory })
    }

    /// The note that lies in the memory. Refused by [`Refusal::Memory`].
    pub fn attach(memory: &'a mut [u8]) -> Result<Note<'a>, Refusal> {
        if !check(memory) {
            return Err(Refusal::Memory);
        }
        Ok(Note { memory })
    }

    /// The memory as it lies, to be stored and attached later.
    pub fn memory(&self) -> &[u8] {
        self.memory
    }

    /// Puts a piece of at most 256 bytes in, and answers how many lines more the note has. Marks at or
    /// behind the place move on by the piece's chars, and the edit number rises; an empty piece changes
    /// nothing at all. Refused by [`Refusal::Place`], [`Refusal::Piece`], [`Refusal::Text`] and
    /// [`Refusal::Room`].
    pub fn insert<T>(&mut self, place: Place, piece: &T) -> Result<i64, Refusal>
    where
        T: AsRef<[u8]> + ?Sized,
    {
        sys::insert(self.memory, place.0, piece.as_ref())
    }

    /// Takes chars out, and answers how many lines more the note has, below 0 where it has fewer. Marks
    /// among them go to the start, those at or behind the end move back, and the edit number rises; an
    /// empty range changes nothing at all. Refused by [`Refusal::Place`].
    pub fn remove(&mut self, chars: Range<Place>) -> Result<i64, Refusal> {
        sys::remove(self.memory, chars.start.0, chars.end.0)
    }

    /// Sets a mark at a place: that of the lowest free number. Refused by [`Refusal::Place`] and
    /// [`Refusal::Marks`].
    pub fn set_mark(&mut self, place: Place) -> Result<Mark, Refusal> {
        // Numbers of marks are below 256.
        Ok(Mark(sys::set_mark(self.memory, place.0)? as u8))
    }

    /// Drops a mark; its number is free again. Refused by [`Refusal::Mark`].
    pub fn drop_mark(&mut self, mark: Mark) -> Result<(), Refusal> {
        sys::drop_mark(self.memory, mark.0.into())
    }

    /// The live mark of a number, as of one in a stored note. Refused by [`Refusal::Mark`].
    pub fn mark(&self, number: u8) -> Result<Mark, Refusal> {
        let mark = Mark(number);
        self.mark_place(&mark)?;
        Ok(mark)
    }

    /// All live marks by number. It asks for each of the 256, and each call checks the memory.
    pub fn marks(&self) -> impl Iterator<Item = Mark> + '_ {
        (0..=u8::MAX).filter_map(move |number| self.mark(number).ok())
    }

    /// Where a mark stands. Refused by [`Refusal::Mark`].
    pub fn mark_place(&self, mark: &Mark) -> Result<Place, Refusal> {
        sys::mark_place(self.memory, mark.0.into()).map(Place)
    }

    /// The line beside a mark. Refused by [`Refusal::Mark`].
    pub fn mark_line(&self, mark: &Mark) -> Result<Line, Refusal> {
        sys::mark_line(self.memory, mark.0.into()).map(Line)
    }

    /// Copies chars to the front of the output, and answers them there; no more of it changes. Refused by
    /// [`Refusal::Place`] and [`Refusal::Output`].
    pub fn copy_out<'o>(&self, chars: Range<Place>, out: &'o mut [u8]) -> Result<&'o str, Refusal> {
        let count = sys::copy(self.memory, chars.start.0, chars.end.0, out)?;
        Ok(text(&out[..count]))
    }

    /// A run: chars from a place on, where they lie. It is empty at the end alone. Refused by
    /// [`Refusal::Place`].
    pub fn run(&self, place: Place) -> Result<&str, Refusal> {
        sys::run(self.memory, place.0).map(text)
    }

    /// All runs from a place on. Each checks the memory anew, so that a long text is had sooner by one
    /// [`Note::copy_out`]. Refused by [`Refusal::Place`].
    pub fn runs(&self, place: Place) -> Result<Runs<'_>, Refusal> {
        Runs::new(self, place)
    }

    /// What an insertion would give, without it: chars from a place of the joined text on, where they lie
    /// in the note or in the piece. It is empty at the joined end alone. Refused as the insertion would
    /// be; else by [`Refusal::Place`] for `from` past the joined end.
    pub fn preview<'p, T>(
        &'p self,
        place: Place,
        piece: &'p T,
        from: Place,
    ) -> Result<&'p str, Refusal>
    where
        T: AsRef<[u8]> + ?Sized,
    {
        sys::preview(self.memory, piece.as_ref(), place.0, from.0).map(text)
    }

    /// How many bytes the note has.
    pub fn len_bytes(&self) -> Result<Byte, Refusal> {
        sys::len_bytes(self.memory).map(Byte)
    }

    /// How many chars it has: its last place.
    pub fn len_chars(&self) -> Result<Place, Refusal> {
        sys::len_chars(self.memory).map(Place)
    }

    /// How many UTF-16 units it has.
    pub fn len_utf16_cu(&self) -> Result<Unit, Refusal> {
        sys::len_utf16_cu(self.memory).map(Unit)
    }

    /// How many lines it has, one more than line breaks.
    pub fn len_lines(&self) -> Result<Line, Refusal> {
        sys::len_lines(self.memory).map(Line)
    }

    /// The number of slots that it was opened with.
    pub fn slots(&self) -> Result<usize, Refusal> {
        sys::slots(self.memory)
    }

    /// How many edits changed the text. It returns to 0 after 4,294,967,295.
    pub fn edit_number(&self) -> Result<u32, Refusal> {
        // It is kept in 32 bits.
        sys::edit_number(self.memory).map(|edits| edits as u32)
    }

    /// The place of the char that a byte lies in. This and the conversions below are refused by
    /// [`Refusal::Place`].
    pub fn byte_to_char(&self, byte: Byte) -> Result<Place, Refusal> {
        sys::byte_to_char(self.memory, byte.0).map(Place)
    }

    /// How many bytes are before a place.
    pub fn char_to_byte(&self, place: Place) -> Result<Byte, Refusal> {
        sys::char_to_byte(self.memory, place.0).map(Byte)
    }

    /// The line of the char that a byte lies in.
    pub fn byte_to_line(&self, byte: Byte) -> Result<Line, Refusal> {
        sys::byte_to_line(self.memory, byte.0).map(Line)
    }

    /// How many bytes are before a line; of the number of lines, all.
    pub fn line_to_byte(&self, line: Line) -> Result<Byte, Refusal> {
        sys::line_to_byte(self.memory, line.0).map(Byte)
    }

    /// The line of a place. Between CR and LF it is still the old one.
    pub fn char_to_line(&self, place: Place) -> Result<Line, Refusal> {
        sys::char_to_line(self.memory, place.0).map(Line)
    }

    /// Where a line begins; of the number of lines, the end.
    pub fn line_to_char(&self, line: Line) -> Result<Place, Refusal> {
        sys::line_to_char(self.memory, line.0).map(Place)
    }

    /// How many UTF-16 units are before a place.
    pub fn char_to_utf16_cu(&self, place: Place) -> Result<Unit, Refusal> {
        sys::char_to_utf16_cu(self.memory, place.0).map(Unit)
    }

    /// The place of the char that a UTF-16 unit lies in.
    pub fn utf16_cu_to_char(&self, unit: Unit) -> Result<Place, Refusal> {
        sys::utf16_cu_to_char(self.memory, unit.0).map(Place)
    }
}

/// Shows sizes and not the text, which is a patient's.
impl fmt::Debug for Note<'_> {
    fn fmt(&self, f: &mut fmt::Formatter) -> fmt::Result {
        f.debug_struct("Note")
            .field("slots", &self.slots())
            .field("chars", &self.len_chars())
            .finish_non_exhaustive()
    }
}

/// Chars that the library hands out; it is proved that they are whole.
fn text(bytes: &[u8]) -> &str {
    str::from_utf8(bytes).expect("parts of a note are text")
}
