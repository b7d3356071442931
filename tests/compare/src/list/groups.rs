//! The groups of child lists that are asked.

use super::tally::Tally;
use super::{edits, nodes, refused, searches};
use crate::tally::Totals;
use crate::texts::Random;

/// How much a run asks.
pub struct Extent {
    /// Lists of each length that are edited, and that are searched.
    pub edited: usize,
    pub searched: usize,
    /// Most chars that are laid around the half of two leaves and at their seam.
    pub around: usize,
    /// Random lists of leaves, and rounds of two lists of every pair of lengths.
    pub packed: usize,
    pub paired: usize,
    /// Rounds of calls on spoilt memories.
    pub spoilt: usize,
}

pub fn run(extent: &Extent, totals: &mut Totals) {
    let random = &mut Random::new();
    let tally = &mut Tally::default();

    tally.group(totals, "lists edited by value", |group| {
        for _ in 0..extent.edited {
            edits::run(group, random);
        }
    });
    tally.group(totals, "lists searched", |group| {
        for _ in 0..extent.searched {
            searches::run(group, random);
        }
    });
    let name = format!(
        "leaves put together, to {} chars at the half",
        extent.around
    );
    tally.group(totals, &name, |group| {
        nodes::around_half(group, extent.around)
    });
    tally.group(
        totals,
        "leaves put together, sizes at the limits",
        |group| nodes::limits(group, random),
    );
    tally.group(totals, "lists put together, every two lengths", |group| {
        for _ in 0..extent.paired {
            nodes::pairs(group, random);
        }
    });
    tally.group(totals, "random lists of nodes", |group| {
        for _ in 0..extent.packed {
            nodes::any(group, random);
        }
    });
    tally.group(totals, "memories that are not well formed", |group| {
        for _ in 0..extent.spoilt {
            refused::run(group, random);
        }
    });
    tally.group(
        totals,
        "numbers that name no call on lists",
        refused::unknown,
    );

    tally.close();
}
