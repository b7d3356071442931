//! The groups of the comparison: notes of each size, driven to their limit and down to nothing
//! again, while marks are set until all are live and dropped until few are.

use notes::marks::MOST;
use notes::memory;
use notes::texts::Random;

use super::chance::{self, Aim};
use super::pair::Pair;
use super::tally::{Group, Tally};
use super::{marked, pieces, refused};
use crate::tally::Totals;

/// How far a group goes: notes of n slots, with so many edits of each.
pub struct Row {
    pub n: usize,
    pub notes: usize,
    pub edits: usize,
}

/// After every so many edits the memory is held to the model, calls that read are refused, and a copy
/// is damaged.
const MODELLED: usize = 20;

pub fn run(rows: &[Row], totals: &mut Totals) {
    println!("edits and marks from seed {:#018x}", Random::SEED);
    let mut tally = Tally::default();
    tally.group(totals, "pieces by the rows of table 3-7", pieces::run);
    for row in rows {
        let name = format!("edits and marks of notes of {} slots", row.n);
        tally.group(totals, &name, |group| {
            for k in 0..row.notes {
                let mut random = Random::row((row.n * 1_000_000 + k) as u64);
                if let Err(what) = note(&mut random, row, k, group) {
                    group.differ(&format!("note {k} of {} slots, {what}", row.n));
                }
            }
        });
    }
    tally.close(totals);
}

/// One note: every second one is opened, the others are laid out. A note that differs is left.
fn note(random: &mut Random, row: &Row, k: usize, group: &mut Group) -> Result<(), String> {
    let most = memory::limit(row.n);
    let mut pair = if k % 2 == 0 {
        Pair::opened(random, row.n)
    } else {
        let any = random.below(most + 1);
        let len = random.pick(&[most, any]);
        Pair::laid_out(random, row.n, len)
    };
    let mut aim = Aim::Full;
    let mut left = 0;
    let mut fills = true;
    for k in 0..row.edits {
        aim = match aim {
            Aim::Full if pair.room() == 0 => {
                left = random.below(200);
                Aim::Any
            }
            Aim::Any if left == 0 => Aim::Empty,
            Aim::Empty if pair.rope.len_bytes() == 0 => Aim::Full,
            same => same,
        };
        left = left.saturating_sub(1);
        edit(random, &mut pair, aim, k, group)?;
        for _ in 0..random.below(3) {
            fills = match pair.marks.live() {
                MOST if random.below(8) == 0 => false,
                0..=9 if random.below(8) == 0 => true,
                _ => fills,
            };
            mark(random, &mut pair, fills, k, group)?;
        }
        if k % MODELLED == 0 {
            let note = pair.hold_model()?;
            refused::read(random, &mut pair, &note, group)?;
            refused::damaged(random, &pair, group)?;
        }
    }
    pair.hold_all_marks(group)
}

/// Edit k of a note: one in eight is to be refused.
fn edit(
    random: &mut Random,
    pair: &mut Pair,
    aim: Aim,
    k: usize,
    group: &mut Group,
) -> Result<(), String> {
    let edit = match random.below(8) {
        0 => refused::edit(random, pair),
        _ => chance::edit(random, pair, aim),
    };
    let bytes = pair.rope.len_bytes();
    let held = match pair.edit(&edit, group) {
        Ok(true) => pair.hold(random, &edit, group),
        other => other.map(|_| ()),
    };
    held.map_err(|what| format!("edit {k}, of {bytes} bytes, {edit:?}: {what}"))
}

/// A mark set or dropped behind edit k.
fn mark(
    random: &mut Random,
    pair: &mut Pair,
    fills: bool,
    k: usize,
    group: &mut Group,
) -> Result<(), String> {
    let marking = marked::marking(random, pair, fills);
    let live = pair.marks.live();
    pair.mark(marking, group)
        .map_err(|what| format!("behind edit {k}, of {live} marks, {marking:?}: {what}"))
}
