//! Records a small case: a dictation, stills that are taken meanwhile, and corrections. Prints each still with
//! the line beside it, before and after the corrections.

use wolamivens::{need, Byte, Line, Note, Place, Refusal};

fn main() -> Result<(), Refusal> {
    let mut memory = vec![0; need(80)?];
    let mut note = Note::open(&mut memory, 80)?;

    dictate(&mut note, "Caecum reached, clean.\n")?;
    dictate(&mut note, "Polyp in the sigmoid, ")?;
    take_still(&mut note)?;
    dictate(&mut note, "6 mm.\n")?;
    dictate(&mut note, "Flat lesion in the rectum.\n")?;
    dictate(&mut note, "Polyp taken by snare.")?;
    take_still(&mut note)?;
    dictate(&mut note, " No bleeding.\n")?;
    println!("As dictated");
    print_stills(&note)?;

    // Lines are counted from 0 here, and from 1 in print.
    correct(&mut note, Line(1), "6 mm", "8 mm, at 25 cm")?;
    correct(&mut note, Line(2), "Flat lesion in the rectum.\n", "")?;
    let more = note.insert(Place(0), "Midazolam 3 mg.\r\nScope no. 4.\r\n")?;
    println!("Corrected, with {more} lines put before");
    print_stills(&note)?;

    // A correction that is refused leaves the note and its stills as they were.
    let end = note.len_chars()?;
    if let Err(refusal) = note.remove(end..Place(end.0 + 1)) {
        println!("A correction behind the end: {refusal}");
    }
    Ok(())
}

/// Puts what is said at the end.
fn dictate(note: &mut Note, words: &str) -> Result<(), Refusal> {
    note.insert(note.len_chars()?, words)?;
    Ok(())
}

/// Marks a still at the start of the line that is being dictated. At the end of the note it would move on with
/// what is said next.
fn take_still(note: &mut Note) -> Result<(), Refusal> {
    let line = note.char_to_line(note.len_chars()?)?;
    note.set_mark(note.line_to_char(line)?)?;
    Ok(())
}

/// Puts other words in the place of those in a line.
fn correct(note: &mut Note, line: Line, old: &str, new: &str) -> Result<(), Refusal> {
    let within = text_of(note, line)?
        .find(old)
        .expect("the line has these words");
    let start = note.byte_to_char(Byte(note.line_to_byte(line)?.0 + within))?;
    note.remove(start..Place(start.0 + old.chars().count()))?;
    note.insert(start, new)?;
    Ok(())
}

fn print_stills(note: &Note) -> Result<(), Refusal> {
    for still in note.marks() {
        let line = note.mark_line(&still)?;
        let text = text_of(note, line)?;
        println!(
            "  still {}, line {}: {}",
            still.number() + 1,
            line.0 + 1,
            text.trim_end()
        );
    }
    Ok(())
}

/// The text of a line, with its break.
fn text_of(note: &Note, line: Line) -> Result<String, Refusal> {
    let (start, end) = (
        note.line_to_char(line)?,
        note.line_to_char(Line(line.0 + 1))?,
    );
    let mut out = vec![0; note.char_to_byte(end)?.0 - note.char_to_byte(start)?.0];
    Ok(note.copy_out(start..end, &mut out)?.to_string())
}
