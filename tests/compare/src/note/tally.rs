//! Counts the asks and the differences, and shows the first ones.

use notes::asks::{self, Ask};
use notes::formed::Note;
use notes::ours;
use ropey::Rope;

use super::source;
use crate::tally::Totals;

/// Differences of one group that are shown.
const SHOWN: u64 = 5;

#[derive(Default)]
pub struct Group {
    asks: u64,
    refused: u64,
    sourced: u64,
    differences: u64,
}

/// A note in its memory, and the source's rope of its text.
pub struct Case<'a> {
    pub memory: &'a [u8],
    pub note: &'a Note,
    pub rope: &'a Rope,
}

pub fn group(totals: &mut Totals, name: &str, run: impl FnOnce(&mut Group)) {
    let mut group = Group::default();
    run(&mut group);
    println!("  {name}: {} asks with the source's answer", group.sourced);
    totals.add(name, group.asks, group.refused, group.differences);
}

impl Group {
    /// Holds our answer to what is due, and what is due to the source's answer.
    pub fn compare(&mut self, case: &Case, ask: &Ask) {
        let due = asks::due(Some(case.note), ask);
        let (ours, _) = ours::ask(case.memory, ask);
        let source = match *ask {
            Ask::Read(call, index) if due.refusal == 0 => source::ask(case.rope, call, index),
            _ => None,
        };
        self.asks += 1;
        self.refused += u64::from(ours.refusal != 0);
        self.sourced += u64::from(source.is_some());
        let agrees = source.map_or(true, |number| due.number == number as u64);
        if ours != due || !agrees {
            self.differ(
                case.note,
                &format!("{ask:?}: ours {ours:?}, due {due:?}, source {source:?}"),
            );
        }
    }

    /// Counts a case that is no ask.
    pub fn hold(&mut self, case: &Case, holds: bool, what: &str) {
        self.asks += 1;
        if !holds {
            self.differ(case.note, what);
        }
    }

    fn differ(&mut self, note: &Note, what: &str) {
        self.differences += 1;
        if self.differences <= SHOWN {
            println!(
                "  differs, on a note of {} slots, {} bytes and {} leaves: {what}",
                note.n,
                note.text.len(),
                note.leaves.len()
            );
        }
    }
}
