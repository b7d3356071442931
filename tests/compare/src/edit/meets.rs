//! Counts what an edit meets in the note and its marks, and what it makes of the tree.

use notes::edits::Edit;
use notes::memory;

use super::pair::Pair;
use super::tally::{Event, Group};

/// The nodes of the tree.
pub struct Shape {
    leaves: usize,
    lists: usize,
    height: usize,
}

impl Pair {
    pub fn shape(&self) -> Shape {
        let of_kind = |kind| {
            let is_of = |&slot: &usize| self.memory[memory::slot_start(slot)] == kind;
            (0..self.n).filter(is_of).count()
        };
        Shape {
            leaves: of_kind(memory::LEAF),
            lists: of_kind(memory::LIST),
            height: usize::from(self.memory[memory::HEIGHT]),
        }
    }

    /// Counts what an edit that is accepted will meet.
    pub fn foresee(&self, edit: &Edit, group: &mut Group) {
        let at = |place: usize, c: char| self.rope.get_char(place) == Some(c);
        let behind = |place: usize, c: char| place > 0 && at(place - 1, c);
        let begins = match edit {
            Edit::Insert { place, piece } => {
                let (behind_cr, at_lf) = (behind(*place, '\r'), at(*place, '\n'));
                group.meet(Event::Insertion, true);
                group.meet(Event::BetweenCrLf, behind_cr && at_lf);
                group.meet(Event::CrBeforeLf, piece.ends_with(b"\r") && at_lf);
                group.meet(Event::LfAfterCr, piece.starts_with(b"\n") && behind_cr);
                *place
            }
            Edit::Remove { start, end } => {
                let joins = behind(*start, '\r') && at(*end, '\n');
                let parts = |place: usize| behind(place, '\r') && at(place, '\n');
                group.meet(Event::Removal, true);
                group.meet(Event::CrLfJoined, joins);
                group.meet(Event::CrLfParted, parts(*start) != parts(*end));
                *start
            }
        };
        let is_marked = |place: usize| self.marks.places.contains(&Some(place));
        match edit {
            Edit::Insert { place, .. } => group.meet(Event::AtMark, is_marked(*place)),
            Edit::Remove { start, end } => {
                let mut places = self.marks.places.iter().flatten();
                let is_inside = places.any(|place| start < place && place < end);
                group.meet(Event::MarkAtStart, is_marked(*start));
                group.meet(Event::MarkInside, is_inside);
                group.meet(Event::MarkAtEnd, is_marked(*end));
            }
        }
        group.meet(Event::Returned, self.marks.edits == u32::MAX);
        let is_inside = 0 < begins && begins < self.rope.len_chars();
        group.meet(
            Event::AtSeam,
            is_inside && self.leaf_end(begins - 1) == begins,
        );
    }

    /// Counts what an edit that changed the text has made of the tree.
    pub fn look_back(&self, before: &Shape, edit: &Edit, group: &mut Group) {
        let after = self.shape();
        let is_removal = matches!(edit, Edit::Remove { .. });
        let is_empty = self.rope.len_bytes() == 0;
        group.meet(Event::MoreLeaves, after.leaves > before.leaves);
        group.meet(Event::FewerLeaves, after.leaves < before.leaves);
        group.meet(Event::MoreLists, after.lists > before.lists);
        group.meet(Event::FewerLists, after.lists < before.lists);
        group.meet(Event::RootGrew, after.height > before.height);
        group.meet(Event::RootShrank, after.height < before.height);
        group.meet(Event::Full, !is_removal && self.room() == 0);
        group.meet(Event::Emptied, is_removal && is_empty);
        group.meet(Event::WholeRemoved, is_empty && before.leaves > 1);
        let removed = before.leaves.saturating_sub(after.leaves);
        group.meet(Event::LeavesRemoved, removed >= 3);
    }
}
