//! Shows the fault of the source crate's `Rope::insert`, by its public calls alone: a note of some lines
//! is put in, and then a few new lines, each behind a line of the note. The last of these has its line
//! feed in another place. The same insertions are made into a plain string, and into a note of the
//! library. The program fails if the fault does not show, or if the note's text is not the string's.

mod kept;
mod told;

use std::process::ExitCode;

use kept::{Kept, Ours};
use told::{tell, Moved};

/// A piece, and the place where it is put in.
pub struct Insertion {
    pub place: usize,
    pub piece: String,
}

/// The insertions for leaves of so many bytes and lists of so many children.
///
/// The crate lays the first text out in full leaves, but for the last two, which share what is left. So
/// half a list of full leaves, and one byte more, become half a list and one leaf more. A piece that
/// begins with LF, put in at the seam of two full leaves, parts both. These go on until one more leaf
/// fills the list; the last piece then parts a leaf at whose start it is put in.
fn insertions(bytes: usize, children: usize) -> Vec<Insertion> {
    let pairs = children / 4 - 1;
    let mut all = vec![Insertion {
        place: 0,
        piece: lines(bytes, children / 2),
    }];
    for still in 1..=pairs + 1 {
        let piece = format!("\nS{still}");
        let leaves = if still <= pairs {
            2 * still - 1
        } else {
            2 * pairs
        };
        all.push(Insertion {
            place: leaves * bytes + (still - 1) * piece.len(),
            piece,
        });
    }
    all
}

/// A text of so many leaves and one byte, with as many lines for each leaf: where one leaf ends and the
/// next begins, a line ends, and its line feed comes next.
fn lines(bytes: usize, leaves: usize) -> String {
    let long = bytes / leaves;
    let line = |number| {
        let head = format!("Line {number} ");
        let tail = " clean, no polyp, no bleeding.\n";
        let first = usize::from(number == 1);
        head.clone() + &".".repeat(long + first - head.len() - tail.len()) + tail
    };
    (1..=leaves * leaves).map(line).collect()
}

/// The first insertion after which the text is not a string's, with the string and the text then.
fn first_wrong(kept: &mut dyn Kept, insertions: &[Insertion]) -> Option<(usize, String, String)> {
    let mut string = String::new();
    for (number, Insertion { place, piece }) in insertions.iter().enumerate() {
        // A place of the text is then a byte of the string.
        assert!(piece.is_ascii());
        string.insert_str(*place, piece);
        kept.insert(*place, piece);
        let text = kept.text();
        if text != string {
            return Some((number, string, text));
        }
    }
    None
}

/// Whether the last insertion is the first to go wrong, and by the place of its line feed alone.
fn shows(named: &str, (bytes, children): (usize, usize), rope: &mut dyn Kept) -> bool {
    let all = insertions(bytes, children);
    println!("ropey 1.6.1 {named}: leaves of {bytes} bytes, lists of {children}");
    let Some((number, string, text)) = first_wrong(rope, &all) else {
        println!("  none of {} insertions goes wrong", all.len());
        return false;
    };
    let moved = Moved::of(&all[number], &string, &text);
    tell(&all, number, &string, &text, moved.as_ref());
    moved.is_some() && number + 1 == all.len()
}

/// Whether the same insertions all come out right.
fn right(named: &str, (bytes, children): (usize, usize), kept: &mut dyn Kept) -> bool {
    let right = first_wrong(kept, &insertions(bytes, children)).is_none();
    println!(
        "  {named}: {} in the string",
        if right { "as" } else { "NOT as" }
    );
    right
}

fn main() -> ExitCode {
    let published = (published::MAX_BYTES, published::MAX_CHILDREN);
    let sized = (sized::MAX_BYTES, sized::MAX_CHILDREN);
    let shown = [
        shows("as published", published, &mut published::Rope::new()),
        right(
            "the same crate, two lines of insert_internal mended",
            published,
            &mut mended::Rope::new(),
        ),
        shows("on the rules' sizes", sized, &mut sized::Rope::new()),
        right("Wolamivens, the same edits", sized, &mut Ours::new()),
    ];
    ExitCode::from(u8::from(shown.contains(&false)))
}
