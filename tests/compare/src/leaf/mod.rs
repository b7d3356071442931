//! The comparison of the leaf's calls and of the counts that are stored for a leaf.

mod calls;
mod groups;
mod info;
mod ours;
pub mod record;
mod rules;
mod source;
mod tally;

pub use groups::{run, Extent};
