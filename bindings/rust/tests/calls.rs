//! Each call's answers.

use wolamivens::{check, need, Byte, Line, Note, Place, Refusal, Unit};

type Tested = Result<(), Refusal>;

/// T of document 01: a CR LF é U+1F600 b.
const T: &str = "a\r\né😀b";

fn memory() -> Vec<u8> {
    vec![0xA5; need(17).unwrap()]
}

/// A note with T.
fn with_t(memory: &mut [u8]) -> Result<Note<'_>, Refusal> {
    let mut note = Note::open(memory, 17)?;
    assert_eq!(note.insert(Place(0), T)?, 1);
    Ok(note)
}

fn text(note: &Note) -> Result<String, Refusal> {
    Ok(note.runs(Place(0))?.collect())
}

#[test]
fn needs() {
    assert_eq!(need(17), Ok(17_024));
    assert_eq!(need(4096), Ok(2_627_584));
}

#[test]
fn opens_an_empty_note() -> Tested {
    let mut memory = memory();
    memory.push(1);
    assert!(!check(&memory));
    let note = Note::open(&mut memory, 17)?;
    assert_eq!(text(&note)?, "");
    assert_eq!(note.len_lines()?, Line(1));
    assert_eq!(note.edit_number()?, 0);
    assert_eq!(note.marks().count(), 0);
    assert!(check(&memory));
    assert_eq!(memory.last(), Some(&1));
    Ok(())
}

#[test]
fn attaches_a_stored_note() -> Tested {
    let mut memory = memory();
    let mut note = with_t(&mut memory)?;
    let number = note.set_mark(Place(3))?.number();
    let mut stored = note.memory().to_vec();
    let note = Note::attach(&mut stored)?;
    assert_eq!(text(&note)?, T);
    let mark = note.mark(number)?;
    assert_eq!(note.mark_place(&mark)?, Place(3));
    Ok(())
}

#[test]
fn counts() -> Tested {
    let mut memory = memory();
    let note = with_t(&mut memory)?;
    assert_eq!(note.len_bytes()?, Byte(10));
    assert_eq!(note.len_chars()?, Place(6));
    assert_eq!(note.len_utf16_cu()?, Unit(7));
    assert_eq!(note.len_lines()?, Line(2));
    assert_eq!(note.slots()?, 17);
    assert_eq!(note.edit_number()?, 1);
    Ok(())
}

#[test]
fn converts() -> Tested {
    let mut memory = memory();
    let note = with_t(&mut memory)?;
    assert_eq!(note.byte_to_char(Byte(10))?, Place(6));
    assert_eq!(note.char_to_byte(Place(4))?, Byte(5));
    assert_eq!(note.byte_to_line(Byte(2))?, Line(0));
    assert_eq!(note.byte_to_line(Byte(4))?, Line(1));
    assert_eq!(note.line_to_byte(Line(1))?, Byte(3));
    assert_eq!(note.char_to_line(Place(6))?, Line(1));
    assert_eq!(note.line_to_char(Line(1))?, Place(3));
    assert_eq!(note.char_to_utf16_cu(Place(6))?, Unit(7));
    assert_eq!(note.utf16_cu_to_char(Unit(7))?, Place(6));
    Ok(())
}

#[test]
fn edits() -> Tested {
    let mut memory = memory();
    let mut note = with_t(&mut memory)?;
    assert_eq!(note.insert(Place(3), b"x\ny")?, 1);
    assert_eq!(text(&note)?, "a\r\nx\nyé😀b");
    assert_eq!(note.remove(Place(2)..Place(7))?, -1);
    assert_eq!(text(&note)?, "a\r😀b");
    assert_eq!(note.edit_number()?, 3);
    Ok(())
}

#[test]
fn an_empty_edit_changes_nothing() -> Tested {
    let mut memory = memory();
    let mut note = with_t(&mut memory)?;
    let before = note.memory().to_vec();
    assert_eq!(note.insert(Place(3), "")?, 0);
    assert_eq!(note.remove(Place(3)..Place(3))?, 0);
    assert_eq!(note.memory(), before);
    Ok(())
}

#[test]
fn marks_follow_the_text() -> Tested {
    let mut memory = memory();
    let mut note = with_t(&mut memory)?;
    let (first, second) = (note.set_mark(Place(1))?, note.set_mark(Place(4))?);
    note.insert(Place(1), "xy")?;
    assert_eq!(note.mark_place(&first)?, Place(3));
    note.remove(Place(4)..Place(8))?;
    assert_eq!(note.mark_place(&second)?, Place(4));
    assert_eq!(note.mark_line(&second)?, Line(1));
    Ok(())
}

#[test]
fn a_dropped_mark_is_free_again() -> Tested {
    let mut memory = memory();
    let mut note = with_t(&mut memory)?;
    let first = note.set_mark(Place(1))?;
    note.set_mark(Place(2))?;
    note.drop_mark(first)?;
    let live: Vec<u8> = note.marks().map(|mark| mark.number()).collect();
    assert_eq!(live, [1]);
    assert_eq!(note.set_mark(Place(6))?.number(), 0);
    Ok(())
}

#[test]
fn copies_out() -> Tested {
    let mut memory = memory();
    let note = with_t(&mut memory)?;
    let mut out = [b'.'; 8];
    assert_eq!(note.copy_out(Place(3)..Place(5), &mut out)?, "é😀");
    assert_eq!(&out[6..], b"..");
    assert_eq!(note.copy_out(Place(6)..Place(6), &mut [])?, "");
    Ok(())
}

#[test]
fn hands_runs_out() -> Tested {
    let mut memory = vec![0; need(80)?];
    let mut note = Note::open(&mut memory, 80)?;
    for _ in 0..16 {
        note.insert(Place(5 * (note.len_chars()?.0 / 10)), &"é".repeat(128))?;
    }
    assert!(note.runs(Place(0))?.count() > 1);
    assert_eq!(text(&note)?, "é".repeat(2048));
    let from: String = note.runs(Place(2000))?.collect();
    assert_eq!(from, "é".repeat(48));
    let lent = note.memory().as_ptr_range();
    assert!(lent.contains(&note.run(Place(7))?.as_ptr()));
    assert_eq!(note.run(Place(2048))?, "");
    Ok(())
}

#[test]
fn previews_an_insertion() -> Tested {
    let mut memory = memory();
    let note = with_t(&mut memory)?;
    let piece = String::from("xy");
    assert_eq!(note.preview(Place(5), &piece, Place(3))?, "é😀");
    let part = note.preview(Place(5), &piece, Place(6))?;
    assert_eq!(part, "y");
    assert!(piece.as_bytes().as_ptr_range().contains(&part.as_ptr()));
    assert_eq!(note.preview(Place(5), &piece, Place(7))?, "b");
    assert_eq!(note.preview(Place(5), &piece, Place(8))?, "");
    assert_eq!(text(&note)?, T);
    Ok(())
}

#[test]
fn shows_no_text() -> Tested {
    let mut memory = memory();
    let note = with_t(&mut memory)?;
    let shown = format!("{note:?}");
    assert_eq!(shown, "Note { slots: Ok(17), chars: Ok(Place(6)), .. }");
    Ok(())
}
