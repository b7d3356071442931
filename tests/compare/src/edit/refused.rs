//! Calls that are mostly refused, for one reason or for several, and calls on damaged memories.

use notes::asks::{self, Answer, Ask, CONVERSIONS, OF_MARKS, TOTALS};
use notes::edits::{self, Edit};
use notes::formed::{self, Note};
use notes::lent::Lent;
use notes::marks::{self, Marking};
use notes::memory;
use notes::ours;
use notes::texts::{Random, DAMAGED};

use super::chance;
use super::pair::Pair;
use super::tally::Group;

/// A call with a place past the end, a range that does not rise, or a piece that is too long, no
/// text, or too much for the room; the place and the piece are picked by themselves.
pub fn edit(random: &mut Random, pair: &Pair) -> Edit {
    let place = chance::place(random, pair);
    let past = chance::past(random, pair);
    match random.below(6) {
        0 => Edit::Remove {
            start: place,
            end: past,
        },
        1 => {
            let start = place + random.pick(&[1, 1, 2, 600]);
            Edit::Remove { start, end: place }
        }
        kind => Edit::Insert {
            place: if kind == 2 { past } else { place },
            piece: piece(random, pair.room()),
        },
    }
}

fn piece(random: &mut Random, room: usize) -> Vec<u8> {
    let len = random.below(240);
    match random.below(6) {
        0 => chance::piece(random, len),
        1 => {
            let len = random.pick(&[257, 257, 258, 512, 5_000]);
            chance::piece(random, len)
        }
        2 => {
            let mut bytes = chance::piece(random, 256);
            bytes.extend_from_slice(random.pick(&DAMAGED));
            bytes
        }
        3 => {
            let mut bytes = chance::piece(random, len);
            bytes.extend_from_slice(random.pick(&DAMAGED));
            bytes
        }
        4 => {
            let text = chance::piece(random, len);
            random.damaged(&text)
        }
        _ => chance::piece(random, (room + 1).min(257)),
    }
}

/// Asks the calls that read for what they mostly refuse, and opens with an n that is refused. The
/// answers are the model's, and no byte changes.
pub fn read(
    random: &mut Random,
    pair: &mut Pair,
    note: &Note,
    group: &mut Group,
) -> Result<(), String> {
    let before = pair.memory.to_vec();
    let (place, past) = (chance::place(random, pair), chance::past(random, pair));
    let bytes = note.text.len() - note.places.byte_of(place);
    let copy = |start, end, out| Ask::Copy { start, end, out };
    let out = vec![0x5A; bytes];
    let chars = note.places.chars();
    let (piece, text) = (piece(random, pair.room()), "é\n".as_bytes());
    let preview = |piece, place, from| Ask::Preview { piece, place, from };
    let mut asks = vec![
        copy(place, chars, &out),
        copy(place, chars, &out[..bytes.saturating_sub(1)]),
        copy(place, past, &[]),
        copy(place + 1, place, &[]),
        Ask::Run(place),
        Ask::Run(past),
        preview(&piece, place, random.below(chars + 2)),
        preview(&piece, past, 0),
        preview(text, place, past.saturating_add(2)),
    ];
    for call in CONVERSIONS {
        let (from, _) = call.measures().expect("a conversion");
        asks.push(Ask::Read(call, note.places.most(from) + random.below(3)));
    }
    for ask in &asks {
        let (ours, _) = ours::ask(&pair.memory, ask);
        let due = asks::due(Some(note), ask);
        match due.refusal {
            0 => group.ask(),
            refusal => group.refused(refusal),
        }
        if ours != due {
            return Err(format!("{ask:?}: ours {ours:?}, due {due:?}"));
        }
        if due.refusal != 0 && pair.memory[..] != before[..] {
            return Err(format!("{ask:?} has changed the memory"));
        }
    }

    let n = random.pick(&[0, 16, 4_097, usize::MAX, pair.n + 2]);
    group.refused(1);
    if ours::open(&mut pair.memory, n) != 1 || pair.memory[..] != before[..] {
        return Err(format!(
            "opening with {n} is not refused, or changes the memory"
        ));
    }
    Ok(())
}

/// A call of a note: one that reads, one that edits, or one of marks.
#[derive(Debug)]
enum Asked<'a> {
    Read(Ask<'a>),
    Edit(Edit),
    Mark(Marking),
}

fn any(random: &mut Random, pair: &Pair) -> Asked<'static> {
    let place = chance::place(random, pair);
    let past = chance::past(random, pair);
    let index = random.pick(&[place, past]);
    let text = "é\n".as_bytes();
    let call = match random.below(3) {
        0 => random.pick(&TOTALS),
        1 => random.pick(&CONVERSIONS),
        _ => random.pick(&OF_MARKS),
    };
    match random.below(10) {
        0 | 1 => Asked::Edit(edit(random, pair)),
        2 | 3 => Asked::Edit(chance::edit(random, pair, chance::Aim::Any)),
        4 => Asked::Mark(Marking::Set(index)),
        5 => Asked::Mark(Marking::Drop(random.below(marks::MOST + 4))),
        6 => Asked::Read(Ask::Run(index)),
        7 => Asked::Read(Ask::Preview {
            piece: text,
            place: index,
            from: 0,
        }),
        _ => Asked::Read(Ask::Read(call, index)),
    }
}

/// Asks a call of a damaged copy of the note: refused by 2, whatever else is wrong with it. Damage
/// that leaves it well formed is passed over.
pub fn damaged(random: &mut Random, pair: &Pair, group: &mut Group) -> Result<(), String> {
    let asked = any(random, pair);
    let mut bytes = pair.memory.to_vec();
    spoil(random, pair.n, &mut bytes);
    if formed::note(&bytes).is_some() {
        return Ok(());
    }
    let mut copy = Lent::new(&bytes);
    let is_refused = match &asked {
        Asked::Read(ask) => ours::ask(&copy, ask).0 == Answer::REFUSED,
        Asked::Edit(edit) => edits::edit(&mut copy, edit) == (2, edits::UNTOUCHED),
        Asked::Mark(marking) => marks::mark(&mut copy, *marking) == (2, asks::UNTOUCHED),
    };
    group.refused(2);
    if !is_refused || copy[..] != bytes[..] {
        return Err(format!(
            "on damaged memory {asked:?} is not refused by 2, or changes it"
        ));
    }
    Ok(())
}

/// The memory cut off, a byte of the head's fields changed, a mark set anywhere, or a byte changed
/// of what a slot's head or region says.
fn spoil(random: &mut Random, n: usize, bytes: &mut Vec<u8>) {
    let any = random.below(256) as u8;
    let slot = memory::slot_start(random.below(n));
    let mark = memory::MARKS + memory::MARK * random.below(256);
    match random.below(5) {
        0 => bytes.truncate(random.pick(&[memory::need(n) - 1, memory::HEAD, 3, 0])),
        1 => bytes[random.below(memory::FREE_SLOT + 4)] = any,
        2 => {
            bytes[mark] = 1;
            bytes[mark + 4] = any;
        }
        3 => bytes[slot + random.pick(&[0, 2, 3, 4, 7])] = any,
        _ => bytes[slot + memory::REGION + random.below(60)] = any,
    }
}
