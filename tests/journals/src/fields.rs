//! Fields by chance, one behind another, and the note that they lead to: accepted ones, refused ones
//! for each reason and for several, and bad ones.

use notes::edits::Edit;
use notes::marks;
use notes::table;
use notes::texts::{Random, DAMAGED};

use crate::model::{self, Field, Note};

/// The longest piece that a note takes.
pub const PIECE: usize = 256;

/// The longest piece that a field has.
pub const LONGEST: usize = 65_531;

/// The tag and length of fields that are bad: a length that is not the tag's, also one of which the
/// lower byte alone is, and an unknown tag, also one of which some bits alone are known.
pub const BAD: [(u8, usize); 32] = [
    (1, 0),
    (1, 1),
    (1, 2),
    (1, 3),
    (2, 0),
    (2, 4),
    (2, 7),
    (2, 9),
    (2, 16),
    (2, 8 + 256),
    (2, 65_535),
    (3, 0),
    (3, 3),
    (3, 5),
    (3, 8),
    (3, 4 + 256),
    (3, 65_535),
    (0, 0),
    (0, 4),
    (4, 0),
    (4, 4),
    (5, 5),
    (6, 8),
    (7, 4),
    (16, 4),
    (0x11, 5),
    (0x12, 8),
    (0x81, 5),
    (0x82, 8),
    (0x83, 4),
    (255, 0),
    (255, 65_535),
];

/// A journal in the making, how many fields it has and how long their lines are.
pub struct Fields {
    pub bytes: Vec<u8>,
    pub listed: usize,
    count: usize,
    note: Note,
}

impl Fields {
    pub fn none() -> Fields {
        Fields {
            bytes: Vec::new(),
            listed: 0,
            count: 0,
            note: Note::opened(),
        }
    }

    /// Any tag and body, and nothing done.
    fn put(&mut self, tag: u8, body: &[u8]) {
        let len = u16::try_from(body.len()).expect("a length has two bytes");
        self.bytes.push(tag);
        self.bytes.extend_from_slice(&len.to_be_bytes());
        self.bytes.extend_from_slice(body);
    }

    /// A field that is not bad, done on the note.
    fn play(&mut self, tag: u8, body: &[u8], field: Field) {
        self.put(tag, body);
        self.count += 1;
        self.listed += model::line(self.count, self.note.play(&field)).len();
    }

    pub fn insert(&mut self, place: usize, piece: Vec<u8>) {
        let body = [&four(place)[..], &piece].concat();
        self.play(1, &body, Field::Edit(Edit::Insert { place, piece }));
    }

    pub fn remove(&mut self, start: usize, end: usize) {
        let body = [four(start), four(end)].concat();
        self.play(2, &body, Field::Edit(Edit::Remove { start, end }));
    }

    pub fn mark(&mut self, place: usize) {
        self.play(3, &four(place), Field::Mark(place));
    }

    pub fn chars(&self) -> usize {
        self.note.rope.len_chars()
    }

    /// How long the rest of the listing is, if a bad field comes now.
    pub fn ending(&self) -> usize {
        model::line(self.count + 1, model::BAD).len() + self.note.ending().len()
    }

    pub fn room(&self) -> usize {
        self.note.room()
    }

    /// A place of the note: an end, at a mark, about a line break, or any.
    pub fn place(&self, random: &mut Random) -> usize {
        let chars = self.chars();
        let any = random.below(chars + 1);
        match random.below(6) {
            0 => random.pick(&[0, chars]),
            1 => self
                .note
                .marks
                .place(random.below(marks::MOST))
                .unwrap_or(any),
            2 | 3 => {
                let rope = &self.note.rope;
                let line = rope.line_to_char(random.below(rope.len_lines()));
                line.saturating_sub(random.below(3))
            }
            _ => any,
        }
    }

    /// A place past the end: near it, or one of which some bytes alone are a place.
    pub fn past(&self, random: &mut Random) -> usize {
        let end = self.chars();
        let near = end + random.pick(&[1, 1, 2, 300]);
        let high = self.place(random) + (1 << random.pick(&[16, 20, 24, 28, 31]));
        random.pick(&[near, near, high, u32::MAX as usize])
    }

    /// A piece put in that goes in, its length at a limit or any, and the last room often taken
    /// exactly.
    pub fn accepted(&mut self, random: &mut Random) {
        let any = random.below(PIECE + 1);
        let len = random.pick(&[1, 1, 2, 3, 127, 128, PIECE - 1, PIECE, PIECE, any]);
        let piece = random.text_of(len.min(self.room()));
        self.insert(self.place(random), piece);
    }

    /// A range taken out: of a few chars, of any number, of none, or of all.
    pub fn removal(&mut self, random: &mut Random) {
        let chars = self.chars();
        let start = self.place(random);
        let few = (start + random.pick(&[1, 1, 2, 5])).min(chars);
        let other = self.place(random).max(start);
        match random.below(32) {
            0 => self.remove(0, chars),
            1 | 2 => self.remove(start, start),
            3..=14 => self.remove(start, other),
            _ => self.remove(start, few),
        }
    }

    /// A removal that is refused: backwards, or past the end.
    fn refused_removal(&mut self, random: &mut Random) {
        let (place, past) = (self.place(random), self.past(random));
        match random.below(4) {
            0 => self.remove(place + 1, place),
            1 => self.remove(past, place),
            2 => self.remove(past, past),
            _ => self.remove(place, past),
        }
    }

    /// A piece that has no room, where the room is less than a piece.
    pub fn over(&mut self, random: &mut Random) {
        let len = self.room() + random.pick(&[1, 1, 2, 4, PIECE]);
        let piece = random.text_of(len.min(PIECE));
        self.insert(self.place(random), piece);
    }

    /// An insertion that is refused, for one reason or for several.
    fn refused_insertion(&mut self, random: &mut Random) {
        let place = match random.below(3) {
            0 => self.past(random),
            _ => self.place(random),
        };
        let beyond = PIECE + 1 + random.below(700);
        let piece = match random.below(5) {
            0 => random.text_of(PIECE + 1),
            1 => random.text_of(beyond),
            2 => random.bytes(PIECE + 40),
            _ => damaged(random),
        };
        self.insert(place, piece);
    }

    /// Any field that is not bad.
    pub fn any(&mut self, random: &mut Random) {
        match random.below(21) {
            0..=6 => self.accepted(random),
            7..=11 => self.removal(random),
            12..=14 => self.mark(self.place(random)),
            15 => self.mark(self.past(random)),
            16 => self.insert(self.place(random), Vec::new()),
            17 => self.refused_removal(random),
            18 => self.over(random),
            _ => self.refused_insertion(random),
        }
    }

    /// A bad field of any kind.
    pub fn any_bad(&mut self, random: &mut Random) {
        let any = (4 + random.below(252) as u8, random.below(300));
        let one = random.pick(&BAD);
        let bad = random.pick(&[one, one, any]);
        self.bad(random, bad);
    }

    /// A bad field that is all there, of this tag and length. Its body begins as a good one's.
    pub fn bad(&mut self, random: &mut Random, (tag, len): (u8, usize)) {
        let mut body = [four(self.place(random)), four(self.place(random))].concat();
        body.resize(len, random.pick(&[0, b'a', 0xFF]));
        self.put(tag, &body);
    }
}

/// Big-endian. No number here needs more bytes.
fn four(number: usize) -> [u8; 4] {
    u32::try_from(number).expect("four bytes").to_be_bytes()
}

/// A piece that is no text, alone or with texts about it.
fn damaged(random: &mut Random) -> Vec<u8> {
    let broken = table::broken();
    let text = random.text(120).into_bytes();
    let bytes = match random.below(3) {
        0 => return random.damaged(&text),
        1 => random.pick(&DAMAGED).to_vec(),
        _ => broken[random.below(broken.len())].clone(),
    };
    let most = random.pick(&[0, 0, 1, 100]);
    let behind = random.text(most);
    [&text[..], &bytes, behind.as_bytes()].concat()
}
