//! Journals by chance, each kind with its own limit to press on.

use notes::marks;
use notes::texts::Random;

use crate::fields::{Fields, LONGEST, PIECE};

/// The sizes of the program's buffers.
pub const INPUT: usize = 131_072;
pub const OUTPUT: usize = 65_536;

/// A turn of the program lists another field only if so much of its output is free.
const FREE: usize = 20_690;

/// It puts the end of a listing only if so much is free.
const ENDING: usize = 20_590;

/// The bytes of a field before its piece.
const HEAD: usize = 7;

/// Fields of every kind.
pub fn mixed(random: &mut Random) -> Fields {
    let mut fields = Fields::none();
    for _ in 0..random.pick(&[1, 3, 10, 50, 200, 600]) {
        fields.any(random);
    }
    fields
}

/// A note at its limit of bytes, and emptied again.
pub fn full(random: &mut Random) -> Fields {
    let mut fields = Fields::none();
    for _ in 0..3 {
        fill(random, &mut fields);
        for _ in 0..20 {
            fields.over(random);
            fields.any(random);
        }
        fields.remove(0, fields.chars());
    }
    fill(random, &mut fields);
    fields.over(random);
    fields
}

fn fill(random: &mut Random, fields: &mut Fields) {
    while fields.room() > 0 {
        fields.accepted(random);
    }
}

/// All marks set, and more than there are.
pub fn marked(random: &mut Random) -> Fields {
    let mut fields = Fields::none();
    for _ in 0..random.below(40) {
        fields.accepted(random);
    }
    for _ in 0..marks::MOST {
        fields.mark(fields.place(random));
        if random.below(4) == 0 {
            fields.any(random);
        }
    }
    fields.mark(fields.place(random));
    fields.mark(fields.past(random));
    for _ in 0..random.below(60) {
        fields.any(random);
    }
    fields
}

/// Megabytes of pieces that are too long, to the longest of a field, and edits between them.
pub fn long(random: &mut Random) -> Fields {
    let mut fields = Fields::none();
    let bytes = noise(random);
    let size = random.pick(&[300_000, 2_000_000, 4_000_000]);
    while fields.bytes.len() < size {
        let any = PIECE + 1 + random.below(LONGEST - PIECE);
        let len = random.pick(&[LONGEST, LONGEST, LONGEST - 1, any, PIECE + 1]);
        let from = random.below(LONGEST - len + 1);
        fields.insert(fields.place(random), bytes[from..from + len].to_vec());
        for _ in 0..random.below(3) {
            fields.any(random);
        }
    }
    fields
}

/// Fields that end where a read may end, or some bytes about there, and small ones behind them.
pub fn sized(random: &mut Random) -> Fields {
    let mut fields = Fields::none();
    let bytes = noise(random);
    let near = random.pick(&[0, 1, 2, 3, 4, 8]);
    let size = random.pick(&[OUTPUT, INPUT, 2 * INPUT]) + 1 - near;
    fields.accepted(random);
    while fields.bytes.len() < size {
        let left = size - fields.bytes.len();
        // The half, so that enough is left for the field after this one.
        let len = match left <= LONGEST {
            true => left - HEAD,
            false => LONGEST / 2,
        };
        fields.insert(fields.place(random), bytes[..len].to_vec());
    }
    for _ in 0..random.below(4) {
        fields.any(random);
    }
    fields
}

/// Small fields whose lines go about as far as one turn does, or two.
pub fn many(random: &mut Random) -> Fields {
    let mut fields = with_marks(random.pick(&[0, 1, marks::MOST]));
    let turn = OUTPUT - FREE;
    let near = turn - 30 + random.below(60);
    let any = turn + random.below(turn);
    let aim = random.pick(&[near, near + turn, any]);
    while fields.listed < aim {
        small(random, &mut fields);
    }
    fields
}

/// A bad field where all marks are live: one where the end of the listing just does not go behind it
/// in the program's output, and one where the longest end would not.
pub fn brimful(random: &mut Random) -> [Vec<u8>; 2] {
    let ending = with_marks(marks::MOST).ending();
    [ending, ENDING + 15].map(|free| {
        let mut fields = with_marks(marks::MOST);
        while fields.listed + free <= OUTPUT {
            small(random, &mut fields);
        }
        fields.any_bad(random);
        fields.bytes
    })
}

/// A full note of many lines, with so many marks at its end.
fn with_marks(count: usize) -> Fields {
    let mut fields = Fields::none();
    while fields.room() > 0 {
        fields.insert(0, vec![b'\n'; fields.room().min(PIECE)]);
    }
    for _ in 0..count {
        fields.mark(fields.chars());
    }
    fields
}

/// A field that changes nothing.
fn small(random: &mut Random, fields: &mut Fields) {
    match random.below(12) {
        0 => fields.insert(0, Vec::new()),
        1 => fields.remove(0, 0),
        _ => fields.mark(fields.past(random)),
    }
}

/// More fields than two bytes count.
pub fn numerous(random: &mut Random) -> Fields {
    let mut fields = Fields::none();
    for _ in 0..65_536 + random.below(100) {
        fields.insert(0, Vec::new());
    }
    fields
}

/// As many bytes as the longest piece has, which often look like the head of a field.
fn noise(random: &mut Random) -> Vec<u8> {
    let mut byte = || match random.below(3) {
        0 => random.below(256) as u8,
        _ => random.pick(&[0, 0, 1, 2, 3, 4, b'a']),
    };
    (0..LONGEST).map(|_| byte()).collect()
}

/// An end for a journal: as it is, a bad field with more fields behind it, or a field cut at any byte.
pub fn ended(random: &mut Random, mut fields: Fields) -> Vec<u8> {
    match random.below(3) {
        0 => {}
        1 => {
            fields.any_bad(random);
            for _ in 0..random.below(4) {
                fields.any(random);
            }
        }
        _ => {
            let len = fields.bytes.len();
            match random.below(3) {
                0 => fields.insert(0, vec![b'a'; LONGEST]),
                _ => fields.any(random),
            }
            let cut = random.below(fields.bytes.len() - len);
            fields.bytes.truncate(len + cut);
        }
    }
    fields.bytes
}

/// A few fields, a bad one of this tag and length, and others behind it.
pub fn spoilt(random: &mut Random, bad: (u8, usize)) -> Vec<u8> {
    let mut fields = Fields::none();
    fields.accepted(random);
    fields.mark(fields.place(random));
    fields.bad(random, bad);
    fields.accepted(random);
    fields.mark(fields.place(random));
    fields.bytes
}

/// A short journal, to be cut at every byte: a field of each tag, in any order, then a bad one.
pub fn short(random: &mut Random) -> Vec<u8> {
    let mut fields = Fields::none();
    fields.insert(0, random.text_of(12));
    for _ in 0..2 {
        fields.mark(fields.place(random));
        fields.removal(random);
    }
    fields.insert(fields.place(random), random.text_of(3));
    let len = fields.bytes.len();
    fields.any_bad(random);
    fields.bytes.truncate(len + 14);
    fields.bytes
}
