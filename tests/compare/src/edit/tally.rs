//! Counts the edits, markings and queries, what happened in them and the differences, and shows the
//! first ones.

use crate::tally::Totals;

/// Differences of one group that are shown.
const SHOWN: u64 = 5;

/// No tree of a note is higher.
const HEIGHTS: usize = 6;

/// What a run must have met, or it shows less than it says.
#[derive(Clone, Copy)]
pub enum Event {
    Insertion,
    Removal,
    Idle,
    MoreLeaves,
    FewerLeaves,
    MoreLists,
    FewerLists,
    RootGrew,
    RootShrank,
    Full,
    Emptied,
    WholeRemoved,
    LeavesRemoved,
    AtSeam,
    BetweenCrLf,
    CrBeforeLf,
    LfAfterCr,
    CrLfJoined,
    CrLfParted,
    Set,
    Dropped,
    Reused,
    PastFull,
    AtMark,
    MarkAtStart,
    MarkInside,
    MarkAtEnd,
    Returned,
}

const NAMES: [&str; 28] = [
    "insertions",
    "removals",
    "edits that change nothing",
    "edits that left more leaves",
    "edits that left fewer leaves",
    "edits that left more lists",
    "edits that left fewer lists",
    "edits that made the tree higher",
    "edits that made the tree lower",
    "edits that filled the note exactly",
    "edits that emptied the note",
    "removals of a whole note of more than one leaf",
    "removals across four leaves or more",
    "edits that begin where two leaves meet",
    "insertions between CR and LF",
    "pieces that end in CR put before LF",
    "pieces that begin with LF put behind CR",
    "removals that bring CR and LF together",
    "removals of one of CR and LF",
    "marks set",
    "marks dropped",
    "marks set with a number below a live one's",
    "marks set past the end while all are live, refused by 3",
    "insertions at a mark",
    "removals that start at a mark",
    "removals with a mark inside",
    "removals that end at a mark",
    "edit numbers that returned to 0",
];

/// The refusals that a call of a note has.
const REFUSALS: [usize; 9] = [1, 2, 3, 4, 5, 6, 7, 8, 9];

/// The counts of the whole part.
#[derive(Default)]
pub struct Tally {
    asks: u64,
    events: [u64; NAMES.len()],
    heights: [u64; HEIGHTS],
    refused: [u64; 10],
    misplaced: u64,
}

impl Tally {
    pub fn group(&mut self, totals: &mut Totals, name: &str, run: impl FnOnce(&mut Group)) {
        let mut group = Group::default();
        run(&mut group);
        let of = &group.counts;
        let [edits, markings, refused] = of.sums();
        let cases = edits + markings + of.asks + refused;
        totals.add(name, cases, refused, group.differences);
        self.asks += of.asks;
        add(&mut self.events, &of.events);
        add(&mut self.heights, &of.heights);
        add(&mut self.refused, &of.refused);
        self.misplaced += of.misplaced;
    }

    /// Edits that were accepted, marks set and dropped, and calls that were refused.
    fn sums(&self) -> [u64; 3] {
        let markings = self.events[Event::Set as usize] + self.events[Event::Dropped as usize];
        [
            self.heights.iter().sum(),
            markings,
            self.refused.iter().sum(),
        ]
    }

    /// Prints the counts. What was never met counts as a difference.
    pub fn close(&self, totals: &mut Totals) {
        let [edits, markings, refused] = self.sums();
        println!("  edits accepted: {edits}");
        println!("  marks set or dropped: {markings}");
        println!("  queries answered: {}", self.asks);
        println!("  calls refused: {refused}");
        for (name, count) in NAMES.iter().zip(self.events) {
            println!("  {name}: {count}");
        }
        for (height, count) in self.heights.iter().enumerate() {
            println!("  edits that left a tree of height {height}: {count}");
        }
        for refusal in REFUSALS {
            println!("  refused by {refusal}: {}", self.refused[refusal]);
        }
        println!(
            "  insertions whose LF the source misplaces (docs/DIFFERENCES.md): {}",
            self.misplaced
        );
        let due = self.events.iter().chain(&self.heights[..=3]);
        let due = due.chain(REFUSALS.iter().map(|&refusal| &self.refused[refusal]));
        let never = due.filter(|&&count| count == 0).count() as u64;
        totals.add("what was never met", 0, 0, never);
    }
}

fn add(sums: &mut [u64], counts: &[u64]) {
    for (sum, count) in sums.iter_mut().zip(counts) {
        *sum += count;
    }
}

#[derive(Default)]
pub struct Group {
    counts: Tally,
    differences: u64,
}

impl Group {
    pub fn ask(&mut self) {
        self.counts.asks += 1;
    }

    pub fn meet(&mut self, event: Event, is_met: bool) {
        self.counts.events[event as usize] += u64::from(is_met);
    }

    /// A height that no tree has is told as the highest; the check then finds it.
    pub fn accepted(&mut self, height: usize) {
        self.counts.heights[height.min(HEIGHTS - 1)] += 1;
    }

    pub fn refused(&mut self, refusal: u8) {
        self.counts.refused[usize::from(refusal)] += 1;
    }

    pub fn misplaced(&mut self) {
        self.counts.misplaced += 1;
    }

    pub fn differ(&mut self, what: &str) {
        self.differences += 1;
        if self.differences <= SHOWN {
            println!("  differs: {what}");
        }
    }
}
