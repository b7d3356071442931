//! Texts, lent memories and notes, for the tests: memories are laid out here, and read here by
//! document 01's rules, with nothing of the library that is tested.

pub mod asks;
pub mod build;
pub mod edits;
pub mod formed;
pub mod lent;
pub mod library;
pub mod marks;
pub mod memory;
pub mod ours;
pub mod places;
pub mod table;
pub mod texts;
