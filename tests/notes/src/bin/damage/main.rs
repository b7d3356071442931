//! Every call on memories that are damaged, and on some that are not: each answers what document
//! 01's rules say or refuses by 2, changes no byte, and ends soon. Opening, on memories of any
//! size.
//!
//! damage           the full run
//! damage --short   the same groups, of smaller extent

mod large;
mod opening;
mod small;
mod tally;

use std::process::ExitCode;

/// How far each group goes.
pub struct Extent {
    /// Whether a small note is damaged at every byte, or at those of the fields alone.
    every_byte: bool,
    /// Damaged copies of notes of some hundred slots, and of 4,096.
    middle: usize,
    large: usize,
    /// Layouts that break a rule of sizes or seams.
    shapes: usize,
    opened: usize,
}

const FULL: Extent = Extent {
    every_byte: true,
    middle: 60_000,
    large: 3_000,
    shapes: 20_000,
    opened: 3_000,
};

const SHORT: Extent = Extent {
    every_byte: false,
    middle: 1_500,
    large: 60,
    shapes: 400,
    opened: 150,
};

fn main() -> ExitCode {
    let words: Vec<String> = std::env::args().skip(1).collect();
    let words: Vec<&str> = words.iter().map(String::as_str).collect();
    let extent = match words[..] {
        [] => FULL,
        ["--short"] => SHORT,
        _ => {
            eprintln!("damage [--short]");
            return ExitCode::from(2);
        }
    };
    let mut tally = tally::Tally::default();
    opening::run(&extent, &mut tally);
    small::run(&extent, &mut tally);
    large::run(&extent, &mut tally);
    if tally.close() {
        ExitCode::SUCCESS
    } else {
        ExitCode::FAILURE
    }
}
