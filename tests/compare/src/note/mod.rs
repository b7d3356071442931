//! The comparison of the calls that read a note in a lent memory.

mod groups;
mod reader;
pub mod source;
mod tally;

pub use groups::{run, Extent};
