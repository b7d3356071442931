//! The comparison of the calls on child lists that lie in slots of a lent memory.

mod calls;
mod edits;
mod groups;
mod nodes;
mod ours;
pub mod record;
mod refused;
mod rules;
mod searches;
mod source;
mod tally;

use notes::memory;

pub use groups::{run, Extent};
