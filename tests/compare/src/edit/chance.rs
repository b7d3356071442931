//! Edits by chance: at the ends of leaves, at line breaks and at any place; of pieces and ranges at
//! the limits and of any size.

use notes::edits::Edit;
use notes::marks;
use notes::texts::Random;

use super::pair::Pair;

/// Line breaks of each kind, and a char of each length.
const SYMBOLS: [&str; 10] = ["\r", "\n", "\r\n", "\r", "\n", "a", "b", "é", "あ", "😀"];

const LARGEST: usize = 256;

/// What a note is driven to.
#[derive(Clone, Copy, PartialEq)]
pub enum Aim {
    Full,
    Any,
    Empty,
}

/// An edit that is mostly accepted: one in eight goes against the aim.
pub fn edit(random: &mut Random, pair: &Pair, aim: Aim) -> Edit {
    let inserts = match aim {
        Aim::Full => random.below(8) > 0,
        Aim::Any => random.below(2) == 0,
        Aim::Empty => random.below(8) == 0,
    };
    // Where there is no room, or no text, little would come of the other kind.
    let turns = match inserts {
        true => pair.room() == 0,
        false => pair.rope.len_bytes() == 0,
    };
    if inserts != (turns && random.below(8) > 0) {
        let len = piece_len(random, pair, aim);
        Edit::Insert {
            place: place(random, pair),
            piece: piece(random, len),
        }
    } else {
        let (start, end) = range(random, pair, aim);
        Edit::Remove { start, end }
    }
}

/// The length of a piece. One in sixteen may not go into the note, and the last room is often taken
/// exactly.
fn piece_len(random: &mut Random, pair: &Pair, aim: Aim) -> usize {
    let room = pair.room();
    let any = random.below(LARGEST + 1);
    let len = match (aim, random.below(4)) {
        (Aim::Full, 1..) => random.pick(&[LARGEST, LARGEST, LARGEST - 1, any]),
        (Aim::Empty, _) => random.below(6),
        _ => random.pick(&[0, 1, 1, 1, 2, 3, 4, 127, 128, LARGEST - 1, LARGEST, any]),
    };
    if random.below(16) == 0 {
        len
    } else {
        len.min(room)
    }
}

/// A well-formed text of exactly so many bytes: of all symbols, or of two alone.
pub fn piece(random: &mut Random, len: usize) -> Vec<u8> {
    let two = [random.pick(&SYMBOLS), random.pick(&SYMBOLS)];
    let of_two = random.below(2) == 0;
    let mut piece = String::new();
    while piece.len() < len {
        let next = if of_two {
            random.pick(&two)
        } else {
            random.pick(&SYMBOLS)
        };
        if piece.len() + next.len() <= len {
            piece.push_str(next);
        } else {
            piece.push(random.pick(&['\r', '\n', 'a']));
        }
    }
    piece.into_bytes()
}

/// A place past the end.
pub fn past(random: &mut Random, pair: &Pair) -> usize {
    let past = pair.rope.len_chars() + random.pick(&[1, 1, 2, 300]);
    random.pick(&[past, past, past, u32::MAX as usize, usize::MAX])
}

/// A place: two in nine about a mark, three about the end of a leaf, two about a line break, one an
/// end of the note.
pub fn place(random: &mut Random, pair: &Pair) -> usize {
    let chars = pair.rope.len_chars();
    let any = random.below(chars + 1);
    match random.below(9) {
        0 => random.pick(&[0, chars]),
        6 | 7 => match pair.marks.place(random.below(marks::MOST)) {
            Ok(place) => (place + random.pick(&[0, 0, 0, 1])).min(chars),
            Err(_) => any,
        },
        1..=3 => {
            let end = pair.leaf_end(any) + random.pick(&[0, 0, 1, 2]);
            end.saturating_sub(random.pick(&[0, 0, 1])).min(chars)
        }
        4 | 5 => {
            // One before a line that follows CR LF is the place between the two.
            let line = random.below(pair.rope.len_lines());
            let start = pair.rope.line_to_char(line);
            start.saturating_sub(random.below(3))
        }
        _ => any,
    }
}

/// The range of a removal: of nothing, of a few chars, to the end of a leaf, across leaves or of
/// all.
fn range(random: &mut Random, pair: &Pair, aim: Aim) -> (usize, usize) {
    let chars = pair.rope.len_chars();
    let most = match aim {
        Aim::Full => 6,
        Aim::Any => 300,
        Aim::Empty => 3_000,
    };
    let len = match random.below(16) {
        0 => 0,
        1..=5 => 1,
        6..=8 => 1 + random.below(5),
        _ => 1 + random.below(most),
    };
    let start = place(random, pair).min(chars.saturating_sub(len.min(6)));
    let end = match random.below(64) {
        0 if aim != Aim::Full => return (0, chars),
        1 if aim == Aim::Empty => place(random, pair).max(start),
        2..=13 if aim != Aim::Full => pair.leaf_end((start + len).min(chars)),
        _ => start + len,
    };
    (start, end.min(chars))
}
