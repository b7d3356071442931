//! Counts over bytes, beside plain Rust loops over the same bytes.

use std::fmt::Debug;
use std::hint::black_box;
use std::time::Duration;

use crate::clock::timed;
use crate::table::{self, heading, row};
use crate::{fill, ours, plain, LARGEST, TEXTS};

const WARM_UPS: usize = 20;
const REPETITIONS: usize = 400;

pub fn measure() {
    heading(
        "### Counts of 240 KiB",
        &["text", "count", "ours MB/s", "Rust MB/s", "ours / Rust"],
    );
    for (name, passage) in TEXTS {
        let text = fill(passage, LARGEST);
        let counted = |count: &str, ours: fn(&[u8]) -> usize, rust: fn(&[u8]) -> usize| {
            rates(name, count, text.as_bytes(), ours, rust);
        };
        counted("chars", ours::count_chars, plain::count_chars);
        counted(
            "surrogates",
            ours::count_surrogates,
            plain::count_surrogates,
        );
        counted("breaks", ours::count_breaks, plain::count_breaks);
        let checked =
            |count, ours: fn(&[u8]) -> Option<usize>, rust: fn(&[u8]) -> Option<usize>| {
                rates(name, count, text.as_bytes(), ours, rust);
            };
        checked("chars, checked", ours::checked_chars, plain::checked_chars);
        checked(
            "surrogates, checked",
            ours::checked_surrogates,
            plain::checked_surrogates,
        );
        checked(
            "breaks, checked",
            ours::checked_breaks,
            plain::checked_breaks,
        );
    }
}

/// Times both in turn, and keeps the best of each.
fn rates<T: PartialEq + Debug>(
    name: &str,
    count: &str,
    text: &[u8],
    ours: fn(&[u8]) -> T,
    rust: fn(&[u8]) -> T,
) {
    assert_eq!(ours(text), rust(text), "{count} of the {name} text");
    let mut best = [Duration::MAX; 2];
    for repetition in 0..WARM_UPS + REPETITIONS {
        for (best, function) in best.iter_mut().zip([ours, rust]) {
            let took = timed(|| {
                black_box(function(black_box(text)));
            });
            if repetition >= WARM_UPS {
                *best = took.min(*best);
            }
        }
    }
    let [ours, rust] = best.map(|time| text.len() as f64 / time.as_secs_f64() / 1e6);
    row([
        name.to_string(),
        count.to_string(),
        table::number(ours),
        table::number(rust),
        table::ratio(ours, rust),
    ]);
}
