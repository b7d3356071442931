//! Measures the proved library, in one run, and prints the tables of docs/PERFORMANCE.md: its counts
//! beside plain Rust loops; each call of a note beside the source's rope and a plain Rust pass over
//! the same text; how calls grow with the note; and what an edit costs beyond the check.
//!
//! bench           all of them
//! bench --edits   the edits beyond the check alone

mod beyond;
mod calls;
mod clock;
mod count;
mod edits;
mod growth;
mod ours;
mod pair;
mod plain;
mod table;

use std::process::ExitCode;

const LARGEST: usize = 240 * 1024;

const ENGLISH: &str =
    "The ferry left at seven, an hour late, and nobody on the quay was surprised.\n\
    Rain had come in from the west; the gulls sat on the nets with their heads drawn in.\r\n\
    \"Write it down,\" said the harbour master, \"or by Friday we shall have forgotten it.\"\n\n";

const JAPANESE: &str = "朝の港には霧が出ていて、船はまだ来ない。\n\
    ノートに一行だけ書いて、もう一度読みなおした。\r\n\
    「忘れないうちに」と彼女は言った。\n\n";

const MIXED: &str = "Café Müller schließt um zehn; le garçon dit « à bientôt » et s'en va. 😀\n\
    Zoë a noté l'heure, señor: 21:45, naïve façade, Ångström, smörgåsbord.\r\n\
    Plain words follow here, so that most of the bytes are ASCII 👍🏽 after all.\n\n";

const TEXTS: [(&str, &str); 3] = [
    ("ASCII", ENGLISH),
    ("Japanese", JAPANESE),
    ("mixed", MIXED),
];

fn main() -> ExitCode {
    let words: Vec<String> = std::env::args().skip(1).collect();
    let words: Vec<&str> = words.iter().map(String::as_str).collect();
    match words[..] {
        [] => {
            count::measure();
            calls::measure();
            growth::measure();
            beyond::measure();
        }
        ["--edits"] => beyond::measure(),
        ["--growth"] => growth::measure(),
        _ => {
            eprintln!("bench [--edits | --growth]");
            return ExitCode::from(2);
        }
    }
    ExitCode::SUCCESS
}

/// The passage again and again, to exactly so many bytes.
fn fill(passage: &str, size: usize) -> String {
    let mut text = String::new();
    for char in passage.chars().cycle() {
        if text.len() + char.len_utf8() > size {
            break;
        }
        text.push(char);
    }
    while text.len() < size {
        text.push('.');
    }
    text
}
