//! Compares the proved library with the source crate.
//!
//! compare                     the full run
//! compare --short             the same groups, of smaller extent
//! compare --edits [--short]   the edits and marks of a note alone
//! compare --record FILE       writes a sample of the source's answers on texts and leaves
//! compare --record-lists FILE writes a sample of its answers on child lists

mod by_call;
mod calls;
mod edit;
mod groups;
mod leaf;
mod list;
mod note;
mod oracle;
mod ours;
mod panics;
mod record;
mod tally;

use std::io;
use std::process::ExitCode;

use groups::Extent;
use notes::texts;

const FULL: Extent = Extent {
    byte_string: 6,
    char_string: 6,
    panic_string: 4,
    any_string: 3,
    random_texts: 3_000,
    random_strings: 20_000,
};

const FULL_LEAF: leaf::Extent = leaf::Extent {
    leaf: 4,
    piece: 3,
    tight: 2,
    around: 3,
    random: 40_000,
    counted: 6,
};

const FULL_LIST: list::Extent = list::Extent {
    edited: 3_000,
    searched: 5_000,
    around: 3,
    packed: 60_000,
    paired: 1_000,
    spoilt: 200,
};

const FULL_NOTE: note::Extent = note::Extent {
    small: 300,
    slots: 60,
    large: 60,
    asked: 400,
};

const FULL_EDITS: [edit::Row; 5] = [
    edits_of(17, 200, 2_500),
    edits_of(18, 200, 2_500),
    edits_of(80, 220, 2_000),
    edits_of(512, 20, 1_000),
    edits_of(4_096, 12, 600),
];

const SHORT: Extent = Extent {
    byte_string: 4,
    char_string: 4,
    panic_string: 3,
    any_string: 2,
    random_texts: 100,
    random_strings: 500,
};

const SHORT_LEAF: leaf::Extent = leaf::Extent {
    leaf: 2,
    piece: 2,
    tight: 1,
    around: 2,
    random: 500,
    counted: 4,
};

const SHORT_LIST: list::Extent = list::Extent {
    edited: 40,
    searched: 45,
    around: 2,
    packed: 5_000,
    paired: 5,
    spoilt: 5,
};

const SHORT_NOTE: note::Extent = note::Extent {
    small: 20,
    slots: 40,
    large: 4,
    asked: 30,
};

const SHORT_EDITS: [edit::Row; 5] = [
    edits_of(17, 4, 600),
    edits_of(18, 4, 600),
    edits_of(80, 6, 700),
    edits_of(512, 2, 200),
    edits_of(4_096, 2, 50),
];

const fn edits_of(n: usize, notes: usize, edits: usize) -> edit::Row {
    edit::Row { n, notes, edits }
}

fn main() -> ExitCode {
    let words: Vec<String> = std::env::args().skip(1).collect();
    let words: Vec<&str> = words.iter().map(String::as_str).collect();
    match words[..] {
        [] => compare(&FULL, &FULL_LEAF, &FULL_LIST, &FULL_NOTE, &FULL_EDITS),
        ["--short"] => compare(&SHORT, &SHORT_LEAF, &SHORT_LIST, &SHORT_NOTE, &SHORT_EDITS),
        ["--edits"] => compare_edits(&FULL_EDITS),
        ["--edits", "--short"] => compare_edits(&SHORT_EDITS),
        ["--record", path] => recorded(path, record::write(path)),
        ["--record-lists", path] => recorded(path, record::write_lists(path)),
        _ => {
            eprintln!(
                "compare [--short | --edits [--short] | --record FILE | --record-lists FILE]"
            );
            ExitCode::from(2)
        }
    }
}

fn recorded(path: &str, wrote: io::Result<()>) -> ExitCode {
    match wrote {
        Ok(()) => ExitCode::SUCCESS,
        Err(error) => {
            eprintln!("{path}: {error}");
            ExitCode::FAILURE
        }
    }
}

fn compare(
    extent: &Extent,
    of_leaves: &leaf::Extent,
    of_lists: &list::Extent,
    of_notes: &note::Extent,
    of_edits: &[edit::Row],
) -> ExitCode {
    let mut totals = tally::Totals::default();
    groups::run(extent, &mut totals);
    leaf::run(of_leaves, &mut totals);
    list::run(of_lists, &mut totals);
    note::run(of_notes, &mut totals);
    edit::run(of_edits, &mut totals);
    closed(&totals)
}

fn compare_edits(rows: &[edit::Row]) -> ExitCode {
    let mut totals = tally::Totals::default();
    edit::run(rows, &mut totals);
    closed(&totals)
}

fn closed(totals: &tally::Totals) -> ExitCode {
    if totals.close() {
        ExitCode::SUCCESS
    } else {
        ExitCode::FAILURE
    }
}
