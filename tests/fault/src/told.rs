//! What is said of an insertion that goes wrong.

use crate::Insertion;

/// A line feed that is not where it was put in.
pub struct Moved {
    due: usize,
    found: usize,
}

impl Moved {
    /// Where the insertion's line feed is in the text, if the text is the string's in all else.
    pub fn of(insertion: &Insertion, string: &str, text: &str) -> Option<Moved> {
        let (string, text) = (string.as_bytes(), text.as_bytes());
        let due = insertion.place;
        let found = (due..text.len()).find(|&at| text.get(at) != string.get(at + 1))?;
        let alone = string.len() == text.len()
            && text[..due] == string[..due]
            && text[found] == b'\n'
            && text[found + 1..] == string[found + 1..];
        alone.then_some(Moved { due, found })
    }
}

/// A text with its CRs and LFs made visible.
fn visible(text: &str) -> String {
    text.replace('\r', "<CR>").replace('\n', "<LF>")
}

/// Lines of a text about two lines of it, with their numbers from 1.
fn tell_lines(text: &str, first: usize, last: usize) {
    for (number, line) in text.split_inclusive('\n').enumerate() {
        if (first..first + 3).contains(&number) || (last - 1..last + 2).contains(&number) {
            println!("    {:>4}  {}", number + 1, visible(line));
        } else if number == first + 3 {
            println!("     ...");
        }
    }
}

pub fn tell(all: &[Insertion], number: usize, string: &str, text: &str, moved: Option<&Moved>) {
    println!("  put in:");
    for Insertion { place, piece } in &all[..=number] {
        match piece.len() {
            0..=9 => println!("    \"{}\" at {place}", visible(piece)),
            long => println!("    {long} bytes at {place}"),
        }
    }
    let Some(&Moved { due, found }) = moved else {
        println!("  the last of these goes wrong, by more than the place of a line feed");
        return;
    };
    let line_of = |place: usize| string[..place].matches('\n').count();
    println!("  in a string:");
    tell_lines(string, line_of(due), line_of(found));
    println!("  in the rope, with the last line feed at {found} and not at {due}:");
    tell_lines(text, line_of(due), line_of(found));
}
