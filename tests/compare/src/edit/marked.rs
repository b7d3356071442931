//! Marks of the note and of the plain model beside it: set and dropped by chance, moved by edits, and
//! what must then hold of the memory's head.

use notes::asks::{Call, UNTOUCHED};
use notes::marks::{self, Marking, Marks, MOST};
use notes::memory::{FREE_SLOT, HEAD, HEIGHT, ROOT};
use notes::ours;
use notes::texts::Random;

use super::chance;
use super::pair::Pair;
use super::tally::{Event, Group};

/// Marks that are asked after each edit.
const ASKED: usize = 3;

/// Numbers that no mark has.
const NONE: [usize; 4] = [MOST, MOST + 1, u32::MAX as usize, usize::MAX];

/// A mark set or dropped: most of the one that is aimed at, and some that are refused.
pub fn marking(random: &mut Random, pair: &Pair, fills: bool) -> Marking {
    if fills == (random.below(8) > 0) {
        let place = chance::place(random, pair);
        let past = chance::past(random, pair);
        return Marking::Set(if random.below(12) == 0 { past } else { place });
    }
    Marking::Drop(number(random, &pair.marks))
}

/// The number of a mark: mostly of a live one.
fn number(random: &mut Random, marks: &Marks) -> usize {
    let live: Vec<usize> = (0..MOST).filter(|&k| marks.places[k].is_some()).collect();
    match random.below(8) {
        0 => random.pick(&NONE),
        1 => random.below(MOST),
        _ if live.is_empty() => random.below(MOST),
        _ => random.pick(&live),
    }
}

impl Pair {
    /// Sets or drops a mark of ours and of the model, and holds every byte of the memory.
    pub fn mark(&mut self, marking: Marking, group: &mut Group) -> Result<(), String> {
        let is_full = self.marks.live() == MOST;
        let due = self.marks.mark(marking, self.rope.len_chars());
        let mut expected = self.memory.to_vec();
        self.marks.put(&mut expected);
        let ours = marks::mark(&mut self.memory, marking);
        let told = match (marking, due) {
            (Marking::Set(_), Ok(mark)) => (0, mark as u64),
            (Marking::Drop(_), Ok(_)) => (0, UNTOUCHED),
            (_, Err(refusal)) => (refusal, UNTOUCHED),
        };
        if ours != told {
            return Err(format!("answers {ours:?}, due {told:?}"));
        }
        if self.memory[..] != expected[..] {
            return Err("it leaves other bytes than are due".to_string());
        }
        match (marking, due) {
            (Marking::Set(place), Ok(mark)) => {
                let is_reused = self.marks.places[mark..].iter().flatten().count() > 1;
                group.meet(Event::Reused, is_reused);
                group.meet(Event::Set, true);
                self.followers.set(mark, place);
                self.hold_mark(mark, group)
            }
            (Marking::Drop(_), Ok(mark)) => {
                group.meet(Event::Dropped, true);
                self.hold_mark(mark, group)
            }
            (_, Err(refusal)) => {
                group.refused(refusal);
                group.meet(Event::PastFull, is_full && refusal == 3);
                Ok(())
            }
        }
    }

    /// Holds the head after an edit that changed the text to what it was before: the edit number and
    /// the places of live marks are the model's, and all else but the tree's fields is as it was.
    pub fn hold_head(&self, mut before: Vec<u8>) -> Result<(), String> {
        self.marks.put(&mut before);
        for field in [ROOT..HEIGHT + 1, FREE_SLOT..FREE_SLOT + 4] {
            before[field.clone()].copy_from_slice(&self.memory[field]);
        }
        if before != self.memory[..HEAD] {
            let at = (0..HEAD).find(|&at| before[at] != self.memory[at]);
            return Err(format!("the head's byte at {at:?} is not what is due"));
        }
        self.followers.hold(&Marks::of(&self.memory))
    }

    /// Asks some marks after an edit, and the edit number.
    pub fn hold_marks(&self, random: &mut Random, group: &mut Group) -> Result<(), String> {
        group.ask();
        let edits = ours::read(Call::EditNumber, &self.memory, 0);
        if edits != (0, u64::from(self.marks.edits)) {
            return Err(format!("the edit number is {edits:?}"));
        }
        (0..ASKED).try_for_each(|_| self.hold_mark(number(random, &self.marks), group))
    }

    /// Asks every mark, and numbers that none has.
    pub fn hold_all_marks(&self, group: &mut Group) -> Result<(), String> {
        let mut numbers = (0..MOST).chain(NONE);
        numbers.try_for_each(|mark| self.hold_mark(mark, group))
    }

    /// Holds a mark's place to the model's, and its line to the source's at that place.
    fn hold_mark(&self, mark: usize, group: &mut Group) -> Result<(), String> {
        let place = self.marks.place(mark);
        let line = place.map(|place| self.rope.char_to_line(place));
        for (call, due) in [(Call::MarkPlace, place), (Call::MarkLine, line)] {
            let ours = ours::read(call, &self.memory, mark);
            let told = match due {
                Ok(number) => (0, number as u64),
                Err(refusal) => (refusal, UNTOUCHED),
            };
            match due {
                Ok(_) => group.ask(),
                Err(refusal) => group.refused(refusal),
            }
            if ours != told {
                return Err(format!("{call:?} of {mark} is {ours:?}, due {told:?}"));
            }
        }
        Ok(())
    }
}
