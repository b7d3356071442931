//! What an edit of a note of 240 KiB costs beyond the check of its memory, beside the same edit of
//! the source's rope.

use notes::lent::Lent;
use notes::memory;

use crate::clock::{self, Turns, Way};
use crate::edits::{Edits, TEXT_ALONE, UNCHECKED};
use crate::pair::{must_be, note_of, rope_of};
use crate::table::{self, heading, row};
use crate::{fill, LARGEST, TEXTS};

const TURNS: Turns = Turns {
    changes: 50,
    turns: 1_001,
};

pub fn measure() {
    heading(
        "### An edit beyond the check, on a note of 240 KiB",
        &[
            "text",
            "edit",
            "text alone ns",
            "whole call ns",
            "ropey ns",
            "compared ropey ns",
            "text alone / ropey",
            "whole call / ropey",
            "text alone / compared",
            "whole call / compared",
        ],
    );
    for (name, passage) in TEXTS {
        for chars in [1, 20] {
            beyond(name, &fill(passage, LARGEST), chars);
        }
    }
}

fn beyond(name: &str, text: &str, chars: usize) {
    let mut sides = Sides::new(text, chars);
    let times = sides.times();
    sides.must_agree();
    sides.must_be_unchecked();
    let unit = if chars == 1 { "char" } else { "chars" };
    for (kind, edit) in ["insert", "remove"].iter().enumerate() {
        let [alone, whole, ropey, compared] = times.map(|both| both[kind] * 1e3);
        row([
            name.to_string(),
            format!("{edit} {chars} {unit}"),
            table::number(alone),
            table::number(whole),
            table::number(ropey),
            table::number(compared),
            table::ratio(alone, ropey),
            table::ratio(whole, ropey),
            table::ratio(alone, compared),
            table::ratio(whole, compared),
        ]);
    }
}

/// The same text in two notes, one to be edited by the whole call, and in two ropes.
struct Sides<'a> {
    text: &'a str,
    edits: Edits,
    alone: Lent,
    whole: Lent,
    rope: ropey::Rope,
    compared: compared::Rope,
}

impl Sides<'_> {
    fn new(text: &str, chars: usize) -> Sides<'_> {
        Sides {
            text,
            edits: Edits::new(text, chars, 10_007),
            alone: note_of(text),
            whole: note_of(text),
            rope: rope_of(text),
            compared: rope_of(text),
        }
    }

    /// The microseconds of an insertion and of a removal, in each.
    fn times(&mut self) -> [[f64; 2]; 4] {
        let edits = &self.edits;
        clock::changes(
            [
                &mut |way, k| edits.edit(&TEXT_ALONE, &mut self.alone, way, k),
                &mut |way, k| edits.edit(&UNCHECKED, &mut self.whole, way, k),
                &mut |way, k| edits.edit_rope(&mut self.rope, way, k),
                &mut |way, k| edits.edit_rope(&mut self.compared, way, k),
            ],
            TURNS,
        )
    }

    /// Edits all once more: they have one text with the pieces in, and the first one again without.
    fn must_agree(&mut self) {
        let mut numbers: Vec<usize> = (0..TURNS.changes).collect();
        for way in [Way::There, Way::Back] {
            for &k in &numbers {
                self.edits.edit(&TEXT_ALONE, &mut self.alone, way, k);
                self.edits.edit(&UNCHECKED, &mut self.whole, way, k);
                self.edits.edit_rope(&mut self.rope, way, k);
                self.edits.edit_rope(&mut self.compared, way, k);
            }
            let text = self.rope.to_string();
            assert_eq!(text == self.text, way == Way::Back, "the text is as due");
            assert!(self.compared == *text, "the ropes are equal");
            must_be(&self.alone, &text);
            must_be(&self.whole, &text);
            numbers.reverse();
        }
    }

    /// Both notes are edited also where the memory is not well formed: no check was timed.
    fn must_be_unchecked(&mut self) {
        for (editor, memory) in [(TEXT_ALONE, &mut self.alone), (UNCHECKED, &mut self.whole)] {
            memory[memory::MARKS] = 2;
            assert!(!notes::ours::check(memory), "a mark is damaged");
            editor.insert(memory, 0, "a");
        }
    }
}
