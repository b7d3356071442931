//! Small notes with one byte changed, each to every value: a root leaf, a root list, and a tree of
//! two levels of lists.

use notes::build;
use notes::formed;
use notes::lent::Lent;
use notes::memory::{self, ENTRY, HEAD, HEIGHT, MARK, MARKS, REGION, SLOT};
use notes::texts::Random;

use crate::tally::Tally;
use crate::Extent;

/// Bytes behind the need: a stored n that is one, two or three too high has its need met.
const BEHIND: usize = 3 * SLOT + 100;

/// The slots, the bytes of text, and the height that the note is to have.
const NOTES: [(usize, usize, u8); 3] = [(17, 60, 0), (24, 500, 1), (40, 1_400, 2)];

pub fn run(extent: &Extent, tally: &mut Tally) {
    for (n, len, height) in NOTES {
        let name = format!("one byte, of {n} slots and {height} levels of lists");
        tally.group(&name, |group| {
            let mut random = Random::row(n as u64);
            let mut bytes = note(&mut random, n, len, height);
            bytes.extend((0..BEHIND).map(|at| at as u8));
            let mut memory = Lent::new(&bytes);
            for at in places(&bytes, n, extent.every_byte) {
                for value in 0..=255 {
                    memory[at] = value;
                    group.hold(&mut random, &memory, &|| format!("byte {at} as {value}"));
                }
                memory[at] = bytes[at];
            }
        });
    }
}

fn note(random: &mut Random, n: usize, len: usize, height: u8) -> Vec<u8> {
    loop {
        // A text of any chars: breaks of each kind, and chars of each length.
        let text = random.text_of(len);
        let memory = build::well_formed(random, &text, n);
        if memory[HEIGHT] == height {
            return memory;
        }
    }
}

/// The bytes that are changed: all of the slots of a root, a list, two leaves and a free slot, and
/// of a root leaf's memory all of the head; or of either those that are read.
fn places(bytes: &[u8], n: usize, every_byte: bool) -> Vec<usize> {
    let root = memory::kid(&bytes[memory::ROOT..]).slot as usize;
    let free = memory::four(bytes, memory::FREE_SLOT) as usize;
    let note = formed::note(bytes).expect("the layout is well formed");
    let first = note.leaves[0].slot;
    let last = note.leaves[note.leaves.len() - 1].slot;
    let list = (0..n).find(|&slot| slot != root && bytes[memory::slot_start(slot)] == memory::LIST);
    let mut slots = vec![root, free, first, last];
    slots.extend(list);
    slots.sort_unstable();
    slots.dedup();

    let mut places: Vec<usize> = Vec::new();
    if every_byte && first == root {
        places.extend(0..HEAD);
    } else {
        places.extend(0..40);
        places.extend(MARKS..MARKS + MARK);
        places.extend([HEAD - MARK, HEAD - MARK + 7]);
    }
    for slot in slots {
        let start = memory::slot_start(slot);
        if every_byte {
            places.extend(start..start + SLOT);
        } else {
            places.extend(start..start + 9);
            places.extend(start + REGION..start + REGION + 2 * ENTRY);
        }
    }
    places
}
