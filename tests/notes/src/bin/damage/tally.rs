//! Asks the calls of a memory and counts what comes.

use std::fmt::Debug;
use std::time::{Duration, Instant};

use notes::asks::{self, Ask, CONVERSIONS, OF_MARKS, TOTALS, UNTOUCHED};
use notes::edits::{self, Edit};
use notes::formed;
use notes::lent::Lent;
use notes::marks::{self, Marking};
use notes::ours;
use notes::texts::Random;

/// No call takes longer, whatever the memory is. One that takes longer than a note of 4,096 slots
/// does may have been kept waiting, and is asked again.
const BOUND: Duration = Duration::from_millis(50);
const SLOW: Duration = Duration::from_millis(5);

/// Calls of a memory that is not well formed, of all of them in turn.
const ASKED: usize = 4;

const SHOWN: u64 = 5;

#[derive(Default)]
pub struct Tally {
    memories: u64,
    formed: u64,
    asks: u64,
    differences: u64,
    longest: Duration,
    turn: usize,
    before: Vec<u8>,
}

impl Tally {
    pub fn group(&mut self, name: &str, run: impl FnOnce(&mut Tally)) {
        let mut group = Tally::default();
        run(&mut group);
        println!(
            "{name}: {} memories, {} of them well formed, {} calls, the longest {:.1} ms, {} differences",
            group.memories,
            group.formed,
            group.asks,
            group.longest.as_secs_f64() * 1e3,
            group.differences
        );
        self.memories += group.memories;
        self.asks += group.asks;
        self.differences += group.differences;
    }

    /// Prints the total, and tells whether there was no difference.
    pub fn close(&self) -> bool {
        println!(
            "damaged {} memories, {} calls, {} differences",
            self.memories, self.asks, self.differences
        );
        self.differences == 0
    }

    /// Asks a memory: the check always; of a note every call that reads, else some, an edit and a
    /// mark set or dropped.
    pub fn hold(&mut self, random: &mut Random, memory: &[u8], what: &dyn Fn() -> String) {
        self.before.clear();
        self.before.extend_from_slice(memory);
        let note = formed::note(memory);
        self.memories += 1;
        self.formed += u64::from(note.is_some());

        let most = note.as_ref().map_or(300, |note| note.text.len() + 2);
        let mut any = || random.below(most);
        let (start, piece) = (any(), "é\r\nx");
        let mut asks = vec![
            Ask::Run(any()),
            Ask::Copy {
                start,
                end: start + any() % 40,
                out: &[0x5A; 90],
            },
            Ask::Preview {
                piece: piece.as_bytes(),
                place: any(),
                from: any(),
            },
        ];
        asks.extend(TOTALS.map(|call| Ask::Read(call, 0)));
        asks.extend(CONVERSIONS.map(|call| Ask::Read(call, any())));
        asks.extend(OF_MARKS.map(|call| Ask::Read(call, random.below(marks::MOST + 4))));
        if note.is_none() {
            self.turn += ASKED;
            let turn = self.turn % asks.len();
            asks.rotate_left(turn);
            asks.truncate(ASKED);
        }
        asks.push(Ask::Check);
        for ask in asks {
            let due = asks::due(note.as_ref(), &ask);
            let (ours, took) = ours::ask(memory, &ask);
            self.asks += 1;
            self.in_time(&ask, took, &mut || ours::ask(memory, &ask).1, what);
            if ours != due {
                self.differ(&format!("{ask:?}: ours {ours:?}, due {due:?}"), what);
            }
        }
        if memory != &self.before[..] {
            self.differ("a call has changed the memory", what);
        }
        if note.is_none() {
            self.hold_changes(random, start, piece, what);
        }
    }

    /// An edit and a mark set or dropped, in a copy of a memory that is not well formed.
    fn hold_changes(
        &mut self,
        random: &mut Random,
        start: usize,
        piece: &str,
        what: &dyn Fn() -> String,
    ) {
        let mut copy = Lent::new(&self.before);
        let edit = if random.below(2) == 0 {
            Edit::Insert {
                place: start,
                piece: piece.into(),
            }
        } else {
            let end = start + random.below(40);
            Edit::Remove { start, end }
        };
        let refused = (2, edits::UNTOUCHED);
        self.hold_refused(&mut copy, &edit, what, |memory| {
            edits::edit(memory, &edit) == refused
        });

        let marking = match random.below(2) {
            0 => Marking::Set(start),
            _ => Marking::Drop(random.below(marks::MOST + 4)),
        };
        let refused = (2, UNTOUCHED);
        self.hold_refused(&mut copy, &marking, what, |memory| {
            marks::mark(memory, marking) == refused
        });
    }

    /// A call that changes a note, of a memory that is not well formed: it is refused by 2, and no
    /// byte is changed.
    fn hold_refused(
        &mut self,
        memory: &mut [u8],
        call: &dyn Debug,
        what: &dyn Fn() -> String,
        is_refused: impl Fn(&mut [u8]) -> bool,
    ) {
        let mut timed = || {
            let began = Instant::now();
            let holds = is_refused(memory);
            (holds, began.elapsed())
        };
        let (holds, took) = timed();
        self.asks += 1;
        self.in_time(call, took, &mut || timed().1, what);
        if !holds {
            self.differ(&format!("{call:?} is not refused by 2"), what);
        }
        if memory != &self.before[..] {
            self.differ(&format!("{call:?} has changed the memory"), what);
        }
    }

    fn in_time(
        &mut self,
        ask: &dyn Debug,
        took: Duration,
        again: &mut dyn FnMut() -> Duration,
        what: &dyn Fn() -> String,
    ) {
        let mut took = took;
        for _ in 0..10 {
            if took > SLOW {
                took = took.min(again());
            }
        }
        self.longest = self.longest.max(took);
        if took > BOUND {
            self.differ(&format!("{ask:?} took {took:?}"), what);
        }
    }

    /// A case of a group that asks by itself.
    pub fn count(&mut self, holds: bool, what: &dyn Fn() -> String) {
        self.memories += 1;
        self.asks += 1;
        if !holds {
            self.differ("opening", what);
        }
    }

    fn differ(&mut self, how: &str, what: &dyn Fn() -> String) {
        self.differences += 1;
        if self.differences <= SHOWN {
            println!("  differs, on {}: {how}", what());
        }
    }
}
