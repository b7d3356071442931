//! Indices, of a type of its own for each count, and marks.

/// A gap between chars, from 0 to the number of chars.
#[derive(Clone, Copy, Debug, PartialEq, Eq, PartialOrd, Ord, Hash)]
pub struct Place(pub usize);

/// An index in bytes of UTF-8. Inside a char it means that char's start.
#[derive(Clone, Copy, Debug, PartialEq, Eq, PartialOrd, Ord, Hash)]
pub struct Byte(pub usize);

/// An index in UTF-16 units. Inside a char it means that char's start.
#[derive(Clone, Copy, Debug, PartialEq, Eq, PartialOrd, Ord, Hash)]
pub struct Unit(pub usize);

/// A line, counted from 0. LF, CR, and CR LF as one, end a line; the number of lines means the end.
#[derive(Clone, Copy, Debug, PartialEq, Eq, PartialOrd, Ord, Hash)]
pub struct Line(pub usize);

/// A mark of a note. It is no copy, so that who drops it has it no more.
#[derive(Debug, PartialEq, Eq, Hash)]
pub struct Mark(pub(crate) u8);

impl Mark {
    /// Its number, for [`Note::mark`](crate::Note::mark) to find it again in a stored note.
    pub fn number(&self) -> u8 {
        self.0
    }
}
