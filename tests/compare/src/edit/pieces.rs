//! Pieces at the ends of each row of table 3-7, which are accepted, and pieces that break a row in
//! each way, alone and with other reasons to be refused.

use notes::edits::Edit;
use notes::table;
use notes::texts::Random;

use super::chance;
use super::pair::Pair;
use super::tally::Group;

/// The slots of the notes that are asked, and their bytes.
const NOTES: [(usize, usize); 2] = [(17, 40), (80, 1_500)];

pub fn run(group: &mut Group) {
    for (n, len) in NOTES {
        let mut random = Random::row(n as u64);
        let mut pair = Pair::laid_out(&mut random, n, len);
        let pieces = table::ends().into_iter().chain(table::broken());
        for bytes in pieces {
            for piece in with_others(&bytes, pair.room()) {
                let place = random.below(pair.rope.len_chars() + 1);
                let past = chance::past(&mut random, &pair);
                for place in [place, past] {
                    let piece = piece.clone();
                    let edit = Edit::Insert { place, piece };
                    if let Err(what) = step(&mut random, &mut pair, &edit, place, group) {
                        group.differ(&format!("a note of {n} slots, {edit:?}: {what}"));
                        return;
                    }
                }
            }
        }
    }
}

/// The bytes alone, behind and before others, in a piece that is too long, and in one that has no
/// room.
fn with_others(bytes: &[u8], room: usize) -> [Vec<u8>; 5] {
    let padded = |before: usize, after: usize| {
        [&vec![b'a'; before][..], bytes, &vec![b'\n'; after][..]].concat()
    };
    [
        padded(0, 0),
        padded(3, 0),
        padded(0, 2),
        padded(257, 0),
        padded(room.min(250), 1),
    ]
}

/// Inserts a piece at a place, and takes it out again where it went in.
fn step(
    random: &mut Random,
    pair: &mut Pair,
    edit: &Edit,
    place: usize,
    group: &mut Group,
) -> Result<(), String> {
    if !pair.edit(edit, group)? {
        return Ok(());
    }
    pair.hold(random, edit, group)?;
    let back = Edit::Remove {
        start: place,
        end: place + edit.new_chars(),
    };
    pair.edit(&back, group)?;
    pair.hold(random, &back, group)
}
