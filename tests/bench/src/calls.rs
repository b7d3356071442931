//! Every call of a note, beside the same call of the source's rope, where it has one, and a plain
//! Rust pass that checks and counts the same text.

use std::hint::black_box;

use notes::asks::Call;
use notes::lent::Lent;
use notes::marks::Marking;
use notes::memory;
use notes::texts::Random;
use ropey::{str_utils, Rope};

use crate::clock::{self, Turns, Way};
use crate::edits::{Edits, PUBLIC};
use crate::pair::{must_be, note_of, rope_of, slots_for};
use crate::table::{self, heading, row};
use crate::{fill, ours, plain, TEXTS};

const KIB: [usize; 3] = [1, 16, 240];

/// How many indices of each kind are asked, one after another.
const INDICES: usize = 64;

/// The live marks, and the chars of a short copy.
const MARKS: usize = 16;
const COPIED: usize = 100;

pub fn measure() {
    for (name, passage) in TEXTS {
        for kib in KIB {
            let mut subject = Subject::new(fill(passage, kib * 1024));
            heading(
                &format!(
                    "### Calls on {kib} KiB of {name} text, {} slots",
                    table::grouped(subject.n)
                ),
                &[
                    "call",
                    "ours µs",
                    "ropey µs",
                    "plain pass µs",
                    "ours / plain pass",
                    "ours / ropey",
                ],
            );
            subject.changes();
            subject.text_calls();
            subject.totals();
            subject.conversions();
            subject.of_marks();
        }
    }
}

/// A note and a rope of one text, and the indices that they are asked for.
struct Subject {
    text: String,
    n: usize,
    memory: Lent,
    rope: Rope,
    bytes: Vec<usize>,
    places: Vec<usize>,
    units: Vec<usize>,
    lines: Vec<usize>,
    marks: Vec<usize>,
}

type Asked<'a> = &'a mut dyn FnMut(usize) -> usize;

impl Subject {
    fn new(text: String) -> Subject {
        let mut memory = note_of(&text);
        let rope: Rope = rope_of(&text);
        let mut random = Random::new();
        let mut below = |end: usize| (0..INDICES).map(|_| random.below(end)).collect();
        let places: Vec<usize> = below(rope.len_chars() + 1);
        let set = |&place| ours::mark(&mut memory, Marking::Set(place));
        let marks = places.iter().take(MARKS).map(set).collect();
        Subject {
            n: slots_for(text.len()),
            bytes: below(rope.len_bytes() + 1),
            units: below(rope.len_utf16_cu() + 1),
            lines: below(rope.len_lines() + 1),
            text,
            memory,
            rope,
            places,
            marks,
        }
    }

    /// A call that leaves the note as it is. It must answer as the rope does, where that is asked.
    fn call(&self, name: &str, ask: Asked, ask_rope: Option<Asked>) {
        let mut ours = |k| {
            black_box(ask(k % INDICES));
        };
        let mut pass = |_| {
            black_box(plain::counts(black_box(self.text.as_bytes())));
        };
        let (ours, ropey, pass) = match ask_rope {
            None => {
                let [ours, pass] = clock::calls([&mut ours, &mut pass]);
                (ours, None, pass)
            }
            Some(ask_rope) => {
                let mut rope = |k| {
                    black_box(ask_rope(k % INDICES));
                };
                let [ours, ropey, pass] = clock::calls([&mut ours, &mut rope, &mut pass]);
                for k in 0..INDICES {
                    assert_eq!(ask(k), ask_rope(k), "{name}, number {k}");
                }
                (ours, Some(ropey), pass)
            }
        };
        print(name, ours, ropey, pass);
    }

    /// The call of a number, by its indices.
    fn number(
        &self,
        name: &str,
        call: Call,
        of: &[usize],
        ask_rope: Option<fn(&Rope, usize) -> usize>,
    ) {
        let mut ask = |k: usize| ours::read(call, &self.memory, of[k]);
        match ask_rope {
            None => self.call(name, &mut ask, None),
            Some(asked) => {
                let mut ask_rope = |k: usize| asked(black_box(&self.rope), of[k]);
                self.call(name, &mut ask, Some(&mut ask_rope));
            }
        }
    }

    fn changes(&mut self) {
        let mut opened = Lent::new(&memory::noise(self.n));
        let mut open = |_| {
            ours::open(&mut opened, self.n);
            0
        };
        self.call("`open`", &mut open, None);
        let mut check = |_| usize::from(notes::ours::check(&self.memory));
        self.call("`check`", &mut check, None);

        let edits = Edits::new(&self.text, 20, 1_009);
        let mut pass = |_, _| {
            black_box(plain::counts(black_box(self.text.as_bytes())));
        };
        let (memory, rope) = (&mut self.memory, &mut self.rope);
        let [ours, ropey, passes] = clock::changes(
            [
                &mut |way, k| edits.edit(&PUBLIC, memory, way, k),
                &mut |way, k| edits.edit_rope(rope, way, k),
                &mut pass,
            ],
            Turns::FEW,
        );
        must_be(&self.memory, &self.text);
        assert!(self.rope == *self.text, "the rope has the text again");
        for (k, name) in ["`insert`, 20 chars", "`remove`, 20 chars"]
            .iter()
            .enumerate()
        {
            print(name, ours[k], Some(ropey[k]), passes[k]);
        }

        let memory = &mut self.memory;
        let mut set = Vec::new();
        let mut mark = |way, k| match way {
            Way::There => {
                let place = self.places[k % INDICES];
                set.push(ours::mark(memory, Marking::Set(place)));
            }
            Way::Back => {
                let last = set.pop().expect("a mark was set");
                ours::mark(memory, Marking::Drop(last));
            }
        };
        let [ours, passes] = clock::changes([&mut mark, &mut pass], Turns::FEW);
        for (k, name) in ["`set_mark`", "`drop_mark`"].iter().enumerate() {
            print(name, ours[k], None, passes[k]);
        }
    }

    fn text_calls(&self) {
        let (memory, rope) = (&self.memory, &self.rope);
        let chars = rope.len_chars();
        let mut outs = [vec![0; self.text.len()], vec![0; self.text.len()]];
        let [out, rope_out] = &mut outs;
        let start = |k: usize| self.places[k] % (chars - COPIED);
        self.call(
            "`copy`, 100 chars",
            &mut |k| ours::copy(memory, start(k), start(k) + COPIED, out),
            Some(&mut |k| copy_of(rope, start(k), start(k) + COPIED, rope_out)),
        );
        self.call(
            "`copy`, all",
            &mut |_| ours::copy(memory, 0, chars, out),
            Some(&mut |_| copy_of(rope, 0, chars, rope_out)),
        );
        assert!(
            outs.iter().all(|out| out == self.text.as_bytes()),
            "the copies are the text"
        );
        self.call(
            "`run`",
            &mut |k| ours::run(memory, self.places[k]),
            Some(&mut |k| run_of(rope, self.places[k])),
        );
        let piece: String = self.text.chars().take(20).collect();
        self.call(
            "`preview`, 20 chars",
            &mut |k| ours::preview(memory, piece.as_bytes(), self.places[k]),
            None,
        );
    }

    fn totals(&self) {
        let none = [0; INDICES];
        self.number(
            "`len_bytes`",
            Call::LenBytes,
            &none,
            Some(|rope, _| rope.len_bytes()),
        );
        self.number(
            "`len_chars`",
            Call::LenChars,
            &none,
            Some(|rope, _| rope.len_chars()),
        );
        self.number(
            "`len_utf16_cu`",
            Call::LenUtf16Cu,
            &none,
            Some(|rope, _| rope.len_utf16_cu()),
        );
        self.number(
            "`len_lines`",
            Call::LenLines,
            &none,
            Some(|rope, _| rope.len_lines()),
        );
        self.number("`slots`", Call::Slots, &none, None);
        self.number("`edit_number`", Call::EditNumber, &none, None);
    }

    fn conversions(&self) {
        let (bytes, places) = (&self.bytes, &self.places);
        let (units, lines) = (&self.units, &self.lines);
        self.number(
            "`byte_to_char`",
            Call::ByteToChar,
            bytes,
            Some(Rope::byte_to_char),
        );
        self.number(
            "`char_to_byte`",
            Call::CharToByte,
            places,
            Some(Rope::char_to_byte),
        );
        self.number(
            "`byte_to_line`",
            Call::ByteToLine,
            bytes,
            Some(Rope::byte_to_line),
        );
        self.number(
            "`line_to_byte`",
            Call::LineToByte,
            lines,
            Some(Rope::line_to_byte),
        );
        self.number(
            "`char_to_line`",
            Call::CharToLine,
            places,
            Some(Rope::char_to_line),
        );
        self.number(
            "`line_to_char`",
            Call::LineToChar,
            lines,
            Some(Rope::line_to_char),
        );
        let to_unit = Some(Rope::char_to_utf16_cu as fn(&Rope, usize) -> usize);
        self.number("`char_to_utf16_cu`", Call::CharToUtf16Cu, places, to_unit);
        let from_unit = Some(Rope::utf16_cu_to_char as fn(&Rope, usize) -> usize);
        self.number("`utf16_cu_to_char`", Call::Utf16CuToChar, units, from_unit);
    }

    fn of_marks(&self) {
        let marks: Vec<usize> = self.marks.iter().copied().cycle().take(INDICES).collect();
        self.number("`mark_place`", Call::MarkPlace, &marks, None);
        self.number("`mark_line`", Call::MarkLine, &marks, None);
    }
}

/// Chars of the rope copied to the front of the output: how many bytes they are.
fn copy_of(rope: &Rope, start: usize, end: usize, out: &mut [u8]) -> usize {
    let (first, last) = (rope.char_to_byte(start), rope.char_to_byte(end));
    let (chunks, mut at, _, _) = rope.chunks_at_byte(first);
    let mut count = 0;
    for chunk in chunks {
        if at >= last {
            break;
        }
        let part = &chunk.as_bytes()[first.saturating_sub(at)..chunk.len().min(last - at)];
        out[count..count + part.len()].copy_from_slice(part);
        count += part.len();
        at += chunk.len();
    }
    count
}

/// The first byte of the rope's run from a place on, or 0 at the end.
fn run_of(rope: &Rope, place: usize) -> usize {
    let (chunk, _, first, _) = rope.chunk_at_char(place);
    let at = str_utils::char_to_byte_idx(chunk, place - first);
    chunk.as_bytes().get(at).copied().unwrap_or(0).into()
}

fn print(name: &str, ours: f64, ropey: Option<f64>, pass: f64) {
    let beside = |cell: fn(f64, f64) -> String| match ropey {
        None => "–".to_string(),
        Some(ropey) => cell(ours, ropey),
    };
    row([
        name.to_string(),
        table::number(ours),
        beside(|_, ropey| table::number(ropey)),
        table::number(pass),
        table::ratio(ours, pass),
        beside(table::ratio),
    ]);
}
