//! The groups of the comparison: small notes asked at every index, and large ones at the seams and
//! at any index.

use notes::asks::{Ask, Part, CONVERSIONS, OF_MARKS, TOTALS};
use notes::build;
use notes::formed::{self, Note};
use notes::lent::Lent;
use notes::places::Measure;
use notes::texts::Random;
use notes::{memory, ours};
use ropey::Rope;

use super::reader::{self, Read};
use super::tally::{self, Case, Group};
use crate::tally::Totals;

/// How far each group goes.
pub struct Extent {
    /// Notes that are asked at every index, and the most slots of one.
    pub small: usize,
    pub slots: usize,
    /// Notes of up to 4,096 slots, and the indices that each is asked at.
    pub large: usize,
    pub asked: usize,
}

/// Bytes behind the need, in every second memory.
const BEHIND: usize = 700;

pub fn run(extent: &Extent, totals: &mut Totals) {
    tally::group(totals, "small notes, every index", |group| {
        for k in 0..extent.small {
            let mut random = Random::row(k as u64);
            let n = 17 + random.below(extent.slots - 16);
            let len = random.below(memory::limit(n) + 1);
            with_note(&mut random, n, len, |random, case| {
                every_index(case, group);
                others(random, case, 40, group);
            });
        }
    });
    tally::group(totals, "large notes", |group| {
        for k in 0..extent.large {
            let mut random = Random::row(1_000_000 + k as u64);
            let n = random.pick(&[200, 1_000, 4_096]);
            let most = memory::limit(n);
            let any = random.below(most + 1);
            let len = random.pick(&[most, any]);
            with_note(&mut random, n, len, |random, case| {
                some_indices(random, case, extent.asked, group);
                others(random, case, extent.asked, group);
            });
        }
    });
}

/// Lays a note out and lends it, with nothing behind it or with bytes that are not its own.
fn with_note(random: &mut Random, n: usize, len: usize, visit: impl FnOnce(&mut Random, &Case)) {
    let text = random.note_text(len);
    let mut bytes = build::well_formed(random, text.as_bytes(), n);
    if random.below(2) == 0 {
        bytes.extend((0..BEHIND).map(|_| random.below(256) as u8));
    }
    let memory = Lent::new(&bytes);
    let note = formed::note(&memory).expect("the layout is well formed");
    assert_eq!(note.text, text, "the layout has the text");
    let rope = Rope::from_str(&text);
    let case = Case {
        memory: &memory,
        note: &note,
        rope: &rope,
    };
    visit(random, &case);
    assert!(
        memory[..] == bytes[..],
        "a call that reads has changed the memory"
    );
}

fn every_index(case: &Case, group: &mut Group) {
    for call in CONVERSIONS {
        let most = call
            .measures()
            .map_or(0, |(from, _)| case.note.places.most(from));
        for index in (0..=most + 2).chain([u32::MAX as usize, usize::MAX]) {
            group.compare(case, &Ask::Read(call, index));
        }
    }
    for place in 0..=case.note.places.chars() + 1 {
        group.compare(case, &Ask::Run(place));
    }
}

fn some_indices(random: &mut Random, case: &Case, asked: usize, group: &mut Group) {
    let note = case.note;
    for call in CONVERSIONS {
        let (from, _) = call.measures().expect("a conversion");
        for _ in 0..asked {
            let index = any_index(random, note, from);
            group.compare(case, &Ask::Read(call, index));
        }
    }
    for _ in 0..asked {
        let place = any_index(random, note, Measure::Char);
        group.compare(case, &Ask::Run(place));
    }
}

/// An index: one in two near the end of a leaf, one in eight near the end, else any.
fn any_index(random: &mut Random, note: &Note, by: Measure) -> usize {
    let most = note.places.most(by);
    match random.below(8) {
        0 => most.saturating_sub(1) + random.below(4),
        1..=4 => {
            let leaf = note.leaves[random.below(note.leaves.len())];
            let end = note.places.converted(Measure::Byte, by, leaf.end);
            (end.expect("a leaf ends in the text") + random.below(5)).saturating_sub(2)
        }
        _ => random.below(most + 1),
    }
}

/// The totals, marks, copies and previews at any places, and what runs and a reader give from a place
/// on.
fn others(random: &mut Random, case: &Case, asked: usize, group: &mut Group) {
    let note = case.note;
    group.compare(case, &Ask::Check);
    for call in TOTALS {
        group.compare(case, &Ask::Read(call, 0));
    }
    for call in OF_MARKS {
        for _ in 0..asked.min(8) {
            let mark = random.below(260);
            group.compare(case, &Ask::Read(call, mark));
        }
        group.compare(case, &Ask::Read(call, usize::MAX));
    }
    for _ in 0..asked {
        let [start, end] = [(); 2].map(|_| any_index(random, note, Measure::Char));
        let (start, end) = if random.below(8) == 0 {
            (start, end)
        } else {
            (start.min(end), start.max(end))
        };
        let exact = match (
            note.places.converted(Measure::Char, Measure::Byte, start),
            note.places.converted(Measure::Char, Measure::Byte, end),
        ) {
            (Ok(first), Ok(last)) => last.saturating_sub(first),
            _ => 3,
        };
        let room = random.pick(&[exact, exact, exact + 7, exact.saturating_sub(1)]);
        let out = vec![0x5A; room];
        group.compare(
            case,
            &Ask::Copy {
                start,
                end,
                out: &out,
            },
        );
    }
    for _ in 0..asked {
        let piece = any_piece(random, note);
        let place = any_index(random, note, Measure::Char);
        let chars = String::from_utf8_lossy(&piece).chars().count();
        let around = (place + random.below(chars + 5)).saturating_sub(2);
        let any = random.below(note.places.chars() + chars + 2);
        let last = note.places.chars() + chars;
        let from = random.pick(&[around, around, any, last, last + 1]);
        group.compare(
            case,
            &Ask::Preview {
                piece: &piece,
                place,
                from,
            },
        );
    }
    for _ in 0..3 {
        by_reader(case, any_index(random, note, Measure::Char), group);
        let place = any_index(random, note, Measure::Char).min(note.places.chars());
        let joined = joined_runs(case, place);
        let rest = &note.text.as_bytes()[note.places.byte_of(place)..];
        group.hold(
            case,
            joined == rest,
            "the runs from a place are not the text from there",
        );
        let piece = random.text(60);
        if note.text.len() + piece.len() <= memory::limit(note.n) {
            let at = note.places.byte_of(place);
            let whole = [&note.text[..at], &piece, &note.text[at..]].concat();
            let joined = joined_previews(case, place, piece.as_bytes());
            group.hold(
                case,
                joined == whole.as_bytes(),
                "the previews are not the joined text",
            );
        }
    }
}

/// A piece: mostly one that goes into the note, else one that is too long or no text.
fn any_piece(random: &mut Random, note: &Note) -> Vec<u8> {
    let room = memory::limit(note.n) - note.text.len();
    match random.below(8) {
        0 => random.text_of(257),
        1 => {
            let text = random.text(30);
            random.damaged(text.as_bytes())
        }
        2 => random.text_of((room + 1).min(256)),
        _ => random.text(room.min(256)).into_bytes(),
    }
}

/// A reader's runs are the rest of each leaf from the place on; a refused one has none.
fn by_reader(case: &Case, place: usize, group: &mut Group) {
    let note = case.note;
    let refused = |refusal| Read {
        refusal,
        joined: Vec::new(),
        runs: 0,
    };
    let due = if place > note.places.chars() {
        refused(3)
    } else {
        let byte = note.places.byte_of(place);
        Read {
            refusal: 0,
            joined: note.text.as_bytes()[byte..].to_vec(),
            runs: note.leaves.iter().filter(|leaf| leaf.end > byte).count(),
        }
    };
    let most = note.text.len() + 1;
    let holds = reader::read(case.memory, place, most) == due;
    group.hold(
        case,
        holds,
        "a reader does not read the note from its place",
    );

    let short = &case.memory[..memory::need(note.n) - 1];
    let holds = reader::read(short, place, most) == refused(2);
    group.hold(case, holds, "a reader of memory that is too short");
}

fn joined_runs(case: &Case, from: usize) -> Vec<u8> {
    let mut joined = Vec::new();
    let mut place = from;
    while let Part::OfMemory(at, len) = ours::ask(case.memory, &Ask::Run(place)).0.part {
        let run = &case.memory[at..at + len];
        joined.extend_from_slice(run);
        place += run.iter().filter(|&byte| byte & 0xC0 != 0x80).count();
    }
    joined
}

fn joined_previews(case: &Case, place: usize, piece: &[u8]) -> Vec<u8> {
    let mut joined = Vec::new();
    let mut from = 0;
    loop {
        let part = match ours::ask(case.memory, &Ask::Preview { piece, place, from })
            .0
            .part
        {
            Part::OfMemory(at, len) => &case.memory[at..at + len],
            Part::OfPiece(at, len) => &piece[at..at + len],
            _ => return joined,
        };
        joined.extend_from_slice(part);
        from += part.iter().filter(|&byte| byte & 0xC0 != 0x80).count();
    }
}
