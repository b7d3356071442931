//! The comparison of the note's edits and marks: our note in a lent memory, the source's rope and a
//! plain model of marks, edited side by side.

mod chance;
mod followers;
mod groups;
mod marked;
mod meets;
mod pair;
mod pieces;
mod refused;
mod tally;

pub use groups::{run, Row};
