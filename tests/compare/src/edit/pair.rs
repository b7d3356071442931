//! Our note in a lent memory beside the source's rope, the plain text and plain marks, one edit of
//! all, and what must then hold.

use notes::asks::{Ask, Call, Part, CONVERSIONS};
use notes::edits::{self, Edit};
use notes::formed::Note;
use notes::lent::Lent;
use notes::marks::Marks;
use notes::memory::HEAD;
use notes::places::Measure;
use notes::texts::Random;
use notes::{build, formed, memory, ours};
use ropey::Rope;

use super::followers::Followers;
use super::tally::{Event, Group};
use crate::note::source;

/// Bytes behind the need, in every second memory.
const BEHIND: usize = 700;

/// Conversions that are asked after each edit.
const ASKED: usize = 5;

pub struct Pair {
    pub n: usize,
    pub memory: Lent,
    pub rope: Rope,
    text: String,
    pub marks: Marks,
    pub followers: Followers,
    /// What lies behind the need, and must stay.
    behind: Vec<u8>,
}

impl Pair {
    /// An empty note, opened in memory full of noise, and noise again in what is not read of its
    /// head.
    pub fn opened(random: &mut Random, n: usize) -> Pair {
        let mut memory = Lent::new(&memory::noise(n));
        assert_eq!(ours::open(&mut memory, n), 0, "opening is accepted");
        memory::spoil_head(&mut memory);
        Pair::lent(random, n, memory.to_vec(), "")
    }

    /// A note of any text of about this length, its tree in a shape that chance picks. Some marks are
    /// live or all, and some edit numbers are about to return to 0.
    pub fn laid_out(random: &mut Random, n: usize, len: usize) -> Pair {
        let text = random.note_text(len);
        let mut bytes = build::well_formed(random, text.as_bytes(), n);
        let mut marks = Marks::of(&bytes);
        let last = text.chars().count();
        if random.below(4) == 0 {
            marks.places.fill_with(|| Some(random.below(last + 1)));
        }
        if random.below(2) == 0 {
            marks.edits = u32::MAX - random.below(40) as u32;
        }
        marks.put(&mut bytes);
        Pair::lent(random, n, bytes, &text)
    }

    fn lent(random: &mut Random, n: usize, mut bytes: Vec<u8>, text: &str) -> Pair {
        let len = random.pick(&[0, BEHIND]);
        let behind: Vec<u8> = (0..len).map(|_| random.below(256) as u8).collect();
        bytes.extend_from_slice(&behind);
        let marks = Marks::of(&bytes);
        Pair {
            n,
            memory: Lent::new(&bytes),
            rope: Rope::from_str(text),
            text: text.to_string(),
            followers: Followers::of(text.chars().count(), &marks),
            marks,
            behind,
        }
    }

    /// The bytes that still go into the note.
    pub fn room(&self) -> usize {
        memory::limit(self.n) - self.rope.len_bytes()
    }

    /// The place where the leaf with the char at this place ends.
    pub fn leaf_end(&self, place: usize) -> usize {
        match ours::ask(&self.memory, &Ask::Run(place)).0.part {
            Part::OfMemory(at, len) => {
                let run = &self.memory[at..at + len];
                place + run.iter().filter(|&byte| byte & 0xC0 != 0x80).count()
            }
            _ => place,
        }
    }

    /// Edits both, or holds ours to the refusal that is due. Tells whether the edit was accepted, or
    /// what differs.
    pub fn edit(&mut self, edit: &Edit, group: &mut Group) -> Result<bool, String> {
        let due = edits::due(edit, self.n, self.rope.len_bytes(), self.rope.len_chars());
        let is_idle = edit.is_idle();
        let kept = match due.is_some() || is_idle {
            true => self.memory.to_vec(),
            false => self.memory[..HEAD].to_vec(),
        };
        let shape = self.shape();
        if due.is_none() {
            group.meet(Event::Idle, is_idle);
            if !is_idle {
                self.foresee(edit, group);
            }
        }

        let (refusal, change) = edits::edit(&mut self.memory, edit);
        if refusal != due.unwrap_or(0) {
            return Err(format!("refused by {refusal}, due {due:?}"));
        }
        if (due.is_some() || is_idle) && kept[..] != self.memory[..] {
            return Err("a call that changes nothing has changed the memory".to_string());
        }
        if let Some(refusal) = due {
            group.refused(refusal);
            return match change {
                edits::UNTOUCHED => Ok(false),
                _ => Err(format!("refused, and yet the change is {change}")),
            };
        }

        let before = self.rope.len_lines() as i64;
        self.edit_source(edit, group)?;
        let due = self.rope.len_lines() as i64 - before;
        if change != due {
            return Err(format!("the change of lines is {change}, due {due}"));
        }
        group.accepted(usize::from(self.memory[memory::HEIGHT]));
        if !is_idle {
            self.look_back(&shape, edit, group);
            self.marks.edit(edit);
            self.followers.edit(edit);
            self.hold_head(kept)?;
        }
        Ok(true)
    }

    /// Edits the rope and the plain text. Where the rope misplaces an LF, by the source's known fault,
    /// it is made anew.
    fn edit_source(&mut self, edit: &Edit, group: &mut Group) -> Result<(), String> {
        let rope = &mut self.rope;
        let may_misplace = match edit {
            Edit::Insert { place, piece } => {
                let piece = std::str::from_utf8(piece).expect("an accepted piece is a text");
                let is_chunk_start = *place > 0 && rope.chunk_at_char(*place).2 == *place;
                self.text.insert_str(rope.char_to_byte(*place), piece);
                rope.insert(*place, piece);
                is_chunk_start && piece.starts_with('\n')
            }
            Edit::Remove { start, end } => {
                let range = rope.char_to_byte(*start)..rope.char_to_byte(*end);
                self.text.replace_range(range, "");
                rope.remove(*start..*end);
                false
            }
        };
        if *rope == *self.text {
            return Ok(());
        }
        if !may_misplace {
            return Err("the source's rope has another text than is due".to_string());
        }
        group.misplaced();
        *rope = Rope::from_str(&self.text);
        Ok(())
    }

    /// What must hold after an edit.
    pub fn hold(&self, random: &mut Random, edit: &Edit, group: &mut Group) -> Result<(), String> {
        let own = memory::need(self.n);
        if self.memory[own..] != self.behind[..] {
            return Err("what lies behind the note has changed".to_string());
        }
        if !ours::check(&self.memory) {
            return Err("the memory is not well formed".to_string());
        }
        for call in [
            Call::LenBytes,
            Call::LenChars,
            Call::LenUtf16Cu,
            Call::LenLines,
        ] {
            self.compare(call, 0, group)?;
        }
        let (first, last) = match edit {
            Edit::Insert { place, .. } => (*place, place + edit.new_chars()),
            Edit::Remove { start, .. } => (*start, *start),
        };
        for _ in 0..ASKED {
            let call = random.pick(&CONVERSIONS);
            let (from, _) = call.measures().expect("a conversion");
            let place = random.pick(&[first, last]);
            let index = self.index(random, from, place);
            self.compare(call, index, group)?;
        }
        self.hold_marks(random, group)?;
        self.compare_text(group)
    }

    /// Holds the memory to the plain model, and gives the note that it finds.
    pub fn hold_model(&self) -> Result<Note, String> {
        match formed::note(&self.memory) {
            None => Err("the model finds it not well formed".to_string()),
            Some(note) if note.text != self.text => Err("the model finds another text".to_string()),
            Some(note) => Ok(note),
        }
    }

    /// An index of a count: near this place, or any.
    fn index(&self, random: &mut Random, by: Measure, place: usize) -> usize {
        let rope = &self.rope;
        let (at, most) = match by {
            Measure::Byte => (rope.char_to_byte(place), rope.len_bytes()),
            Measure::Char => (place, rope.len_chars()),
            Measure::Unit => (rope.char_to_utf16_cu(place), rope.len_utf16_cu()),
            Measure::Line => (rope.char_to_line(place), rope.len_lines()),
        };
        let near = (at + random.below(5)).saturating_sub(2).min(most);
        let any = random.below(most + 1);
        random.pick(&[near, near, any])
    }

    fn compare(&self, call: Call, index: usize, group: &mut Group) -> Result<(), String> {
        group.ask();
        let ours = ours::read(call, &self.memory, index);
        let due = source::ask(&self.rope, call, index).expect("the source has the call");
        if ours == (0, due as u64) {
            return Ok(());
        }
        Err(format!("{call:?} of {index}: ours {ours:?}, source {due}"))
    }

    /// Holds the whole note, copied out, to the text.
    fn compare_text(&self, group: &mut Group) -> Result<(), String> {
        group.ask();
        let ask = Ask::Copy {
            start: 0,
            end: self.rope.len_chars(),
            out: &vec![0; self.text.len()],
        };
        let (ours, _) = ours::ask(&self.memory, &ask);
        let len = self.text.len() as u64;
        if (ours.refusal, ours.number) == (0, len) && ours.out == self.text.as_bytes() {
            return Ok(());
        }
        Err("the texts differ".to_string())
    }
}
