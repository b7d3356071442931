//! A note in memory that the caller lends: text, up to 256 marks, and an edit number. Each call of the
//! library below is proved to answer what is counted on the plain text, or to give one refusal and
//! change nothing.
//!
//! ```
//! use wolamivens::{need, Line, Note, Place, Refusal};
//!
//! # fn main() -> Result<(), Refusal> {
//! let mut memory = vec![0; need(80)?];
//! let mut note = Note::open(&mut memory, 80)?;
//! assert_eq!(note.insert(Place(0), "Caecum reached.\nPolyp, 6 mm.\n")?, 2);
//! let still = note.set_mark(Place(16))?;
//! assert_eq!(note.insert(Place(0), "Sedated.\n")?, 1);
//! assert_eq!(note.mark_line(&still)?, Line(2));
//! # Ok(())
//! # }
//! ```
//!
//! # What does not compile
//!
//! The memory is touched while it is lent:
//!
//! ```compile_fail,E0506
//! # use wolamivens::{need, Note, Refusal};
//! # fn main() -> Result<(), Refusal> {
//! let mut memory = vec![0; need(80)?];
//! let note = Note::open(&mut memory, 80)?;
//! memory = vec![];
//! note.len_chars()?;
//! # Ok(())
//! # }
//! ```
//!
//! A run is read behind an edit, which may have moved it:
//!
//! ```compile_fail,E0502
//! # use wolamivens::{Note, Place, Refusal};
//! # fn main() -> Result<(), Refusal> {
//! # let mut memory = [];
//! # let mut note = Note::attach(&mut memory)?;
//! let run = note.run(Place(0))?;
//! note.insert(Place(0), "x")?;
//! println!("{run}");
//! # Ok(())
//! # }
//! ```
//!
//! An index of one count is taken for one of another:
//!
//! ```compile_fail,E0308
//! # use wolamivens::{Byte, Note, Refusal};
//! # fn main() -> Result<(), Refusal> {
//! # let mut memory = [];
//! # let mut note = Note::attach(&mut memory)?;
//! note.insert(Byte(3), "x")?;
//! # Ok(())
//! # }
//! ```
//!
//! A mark is asked after it was dropped, when its number may be another's:
//!
//! ```compile_fail,E0382
//! # use wolamivens::{Note, Place, Refusal};
//! # fn main() -> Result<(), Refusal> {
//! # let mut memory = [];
//! # let mut note = Note::attach(&mut memory)?;
//! let mark = note.set_mark(Place(0))?;
//! note.drop_mark(mark)?;
//! note.mark_place(&mark)?;
//! # Ok(())
//! # }
//! ```

#![deny(unsafe_code)]
#![warn(missing_docs)]

mod index;
mod note;
mod refusal;
mod runs;
mod sys;

pub use index::{Byte, Line, Mark, Place, Unit};
pub use note::{check, need, Note};
pub use refusal::Refusal;
pub use runs::Runs;
