//! Counts the journals, and what was met in them.

use notes::marks;

use crate::kinds::{INPUT, OUTPUT};
use crate::model::{Due, End};
use crate::program::Feed;

/// What a run must have met, or it shows less than it says.
const NAMES: [&str; 9] = [
    "empty",
    "longer than the input's buffer",
    "with a listing longer than the output's buffer",
    "that leave 256 marks live",
    "that leave the note full",
    "that end in a bad field",
    "that end in a cut field",
    "fed as a file",
    "fed in chunks",
];

/// The refusals that a field can have.
const REFUSALS: [usize; 6] = [3, 4, 5, 6, 8, 10];

#[derive(Default)]
pub struct Tally {
    journals: u64,
    fields: usize,
    bytes: usize,
    codes: [u64; 11],
    met: [u64; NAMES.len()],
    misplaced: u64,
}

impl Tally {
    pub fn add(&mut self, journal: &[u8], due: &Due, feed: &Feed) {
        self.journals += 1;
        self.fields += due.codes.len();
        self.bytes += journal.len();
        self.misplaced += due.note.misplaced;
        for &code in &due.codes {
            self.codes[usize::from(code)] += 1;
        }
        let is_file = matches!(feed, Feed::File);
        let met = [
            journal.is_empty(),
            journal.len() > INPUT,
            due.listing.len() > OUTPUT,
            due.note.marks.live() == marks::MOST,
            due.note.room() == 0,
            due.end == End::Bad,
            due.end == End::Cut,
            is_file,
            !is_file,
        ];
        for (count, is_met) in self.met.iter_mut().zip(met) {
            *count += u64::from(is_met);
        }
    }

    pub fn print(&self) {
        println!("  journals: {}", self.journals);
        for (name, count) in NAMES.iter().zip(self.met) {
            println!("  journals {name}: {count}");
        }
        println!("  bytes: {}", self.bytes);
        println!("  fields: {}", self.fields);
        println!("  fields accepted: {}", self.codes[0]);
        for refusal in REFUSALS {
            println!("  fields refused by {refusal}: {}", self.codes[refusal]);
        }
        println!(
            "  insertions whose LF the source misplaces (docs/DIFFERENCES.md): {}",
            self.misplaced
        );
    }

    /// What was never met is an error.
    pub fn hold(&self) -> Result<(), String> {
        let refused = REFUSALS.map(|refusal| self.codes[refusal]);
        match self.met.iter().chain(&refused).all(|&count| count > 0) {
            true => Ok(()),
            false => Err("something of the above was never met".to_string()),
        }
    }
}
