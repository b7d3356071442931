//! How the time of a call grows with the note, beside the plain Rust pass over the same text.

use std::hint::black_box;

use notes::asks::Call;

use crate::clock::{self, Turns};
use crate::edits::{Edits, PUBLIC};
use crate::pair::{note_of, slots_for};
use crate::table::{self, heading, row};
use crate::{fill, ours, plain, TEXTS};

const KIB: [usize; 5] = [1, 4, 16, 64, 240];

pub fn measure() {
    heading(
        "### Growth with the note",
        &[
            "text",
            "KiB",
            "slots",
            "plain pass µs",
            "`len_chars` µs",
            "a KiB",
            "/ plain pass",
            "`insert` of 20 chars µs",
            "a KiB",
            "/ plain pass",
        ],
    );
    for (name, passage) in TEXTS {
        for kib in KIB {
            let text = fill(passage, kib * 1024);
            let mut memory = note_of(&text);
            let [read, pass] = clock::calls([
                &mut |_| {
                    black_box(ours::read(Call::LenChars, &memory, 0));
                },
                &mut |_| {
                    black_box(plain::counts(black_box(text.as_bytes())));
                },
            ]);
            let edits = Edits::new(&text, 20, 1_009);
            let [[insert, _]] = clock::changes(
                [&mut |way, k| edits.edit(&PUBLIC, &mut memory, way, k)],
                Turns::FEW,
            );
            row([
                name.to_string(),
                kib.to_string(),
                table::grouped(slots_for(text.len())),
                table::number(pass),
                table::number(read),
                table::number(read / kib as f64),
                format!("{:.3}", read / pass),
                table::number(insert),
                table::number(insert / kib as f64),
                format!("{:.3}", insert / pass),
            ]);
        }
    }
}
