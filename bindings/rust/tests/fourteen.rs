//! Those of document 01's fourteen that are about a note: items 1 to 8 and 14.

use wolamivens::{need, Byte, Line, Note, Place, Refusal, Unit};

#[test]
fn t() -> Result<(), Refusal> {
    let mut memory = vec![0; need(17)?];
    let mut note = Note::open(&mut memory, 17)?;
    note.insert(Place(0), "a\r\né😀b")?;
    assert_eq!(note.char_to_byte(Place(2))?, Byte(2));
    assert_eq!(note.char_to_line(Place(2))?, Line(0));
    assert_eq!(note.char_to_byte(Place(3))?, Byte(3));
    assert_eq!(note.char_to_utf16_cu(Place(3))?, Unit(3));
    assert_eq!(note.char_to_line(Place(3))?, Line(1));
    assert_eq!(note.char_to_byte(Place(5))?, Byte(9));
    assert_eq!(note.char_to_utf16_cu(Place(5))?, Unit(6));
    assert_eq!(note.utf16_cu_to_char(Unit(5))?, Place(4));
    assert_eq!(note.byte_to_char(Byte(7))?, Place(4));
    assert_eq!(note.line_to_char(Line(2))?, Place(6));
    assert_eq!(note.line_to_char(Line(3)), Err(Refusal::Place));

    let at_1 = note.set_mark(Place(1))?;
    let at_2 = note.set_mark(Place(2))?;
    let at_3 = note.set_mark(Place(3))?;
    assert_eq!(note.insert(Place(2), "x")?, 1);
    assert_eq!(note.len_lines()?, Line(3));
    assert_eq!(note.mark_place(&at_1)?, Place(1));
    assert_eq!(note.mark_place(&at_2)?, Place(3));
    assert_eq!(note.mark_line(&at_2)?, Line(1));
    assert_eq!(note.mark_place(&at_3)?, Place(4));
    assert_eq!(note.mark_line(&at_3)?, Line(2));
    assert_eq!(note.remove(Place(2)..Place(3))?, -1);
    Ok(())
}

#[test]
fn full() -> Result<(), Refusal> {
    let mut memory = vec![0; need(17)?];
    let mut note = Note::open(&mut memory, 17)?;
    assert_eq!(note.insert(Place(0), &[b'a'; 65]), Err(Refusal::Room));
    assert_eq!(note.insert(Place(0), &[b'a'; 64])?, 0);
    Ok(())
}
