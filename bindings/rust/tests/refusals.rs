//! Each refusal, from each call that gives it; a refused call changes no byte.

use wolamivens::{need, Byte, Line, Note, Place, Refusal, Unit};

/// A note of 17 slots with six chars, seven units and two lines, and mark 0 at place 3.
fn with_note(ask: impl FnOnce(&mut Note)) {
    let mut memory = vec![0; need(17).unwrap()];
    let mut note = Note::open(&mut memory, 17).unwrap();
    note.insert(Place(0), "a\r\né😀b").unwrap();
    note.set_mark(Place(3)).unwrap();
    let before = note.memory().to_vec();
    ask(&mut note);
    assert_eq!(note.memory(), before);
}

#[test]
fn opening() {
    let mut memory = vec![0xA5; need(17).unwrap()];
    for slots in [0, 16, 18, 4097, usize::MAX] {
        assert_eq!(Note::open(&mut memory, slots).err(), Some(Refusal::Opening));
    }
    assert_eq!(need(16), Err(Refusal::Opening));
    assert_eq!(need(4097), Err(Refusal::Opening));
    assert!(memory.iter().all(|&byte| byte == 0xA5));
}

#[test]
fn memory() {
    let mut memory = vec![0; need(17).unwrap()];
    assert_eq!(Note::attach(&mut memory).err(), Some(Refusal::Memory));
    assert_eq!(Note::attach(&mut []).err(), Some(Refusal::Memory));
    Note::open(&mut memory, 17).unwrap();
    let cut = memory.len() - 1;
    assert_eq!(
        Note::attach(&mut memory[..cut]).err(),
        Some(Refusal::Memory)
    );
}

#[test]
fn places() {
    with_note(|note| {
        let refused = Err(Refusal::Place);
        assert_eq!(note.insert(Place(7), "x"), refused);
        assert_eq!(note.remove(Place(6)..Place(7)), refused);
        assert_eq!(note.remove(Place(3)..Place(2)), refused);
        assert_eq!(note.set_mark(Place(7)).err(), Some(Refusal::Place));
        assert_eq!(
            note.copy_out(Place(0)..Place(7), &mut [0; 16]).err(),
            Some(Refusal::Place)
        );
        assert_eq!(note.run(Place(7)).err(), Some(Refusal::Place));
        assert_eq!(note.runs(Place(7)).err(), Some(Refusal::Place));
        assert_eq!(
            note.preview(Place(7), "x", Place(0)).err(),
            Some(Refusal::Place)
        );
        assert_eq!(
            note.preview(Place(6), "x", Place(8)).err(),
            Some(Refusal::Place)
        );
    });
}

#[test]
fn indices() {
    with_note(|note| {
        assert_eq!(note.byte_to_char(Byte(11)), Err(Refusal::Place));
        assert_eq!(note.char_to_byte(Place(7)), Err(Refusal::Place));
        assert_eq!(note.byte_to_line(Byte(11)), Err(Refusal::Place));
        assert_eq!(note.line_to_byte(Line(3)), Err(Refusal::Place));
        assert_eq!(note.char_to_line(Place(7)), Err(Refusal::Place));
        assert_eq!(note.line_to_char(Line(3)), Err(Refusal::Place));
        assert_eq!(note.char_to_utf16_cu(Place(7)), Err(Refusal::Place));
        assert_eq!(note.utf16_cu_to_char(Unit(8)), Err(Refusal::Place));
    });
}

#[test]
fn pieces() {
    with_note(|note| {
        for (piece, refusal) in [
            (vec![b'x'; 257], Refusal::Piece),
            (vec![0xC3], Refusal::Text),
            (vec![b'x'; 55], Refusal::Room),
        ] {
            assert_eq!(note.insert(Place(6), &piece), Err(refusal));
            assert_eq!(note.preview(Place(6), &piece, Place(0)), Err(refusal));
        }
    });
}

#[test]
fn mark() {
    with_note(|note| {
        assert_eq!(note.mark(1).err(), Some(Refusal::Mark));
        assert_eq!(note.mark(255).err(), Some(Refusal::Mark));
    });
    with_note(|note| {
        let (one, same) = (note.mark(0).unwrap(), note.mark(0).unwrap());
        note.drop_mark(one).unwrap();
        assert_eq!(note.mark_place(&same), Err(Refusal::Mark));
        assert_eq!(note.mark_line(&same), Err(Refusal::Mark));
        assert_eq!(note.drop_mark(same), Err(Refusal::Mark));
        assert_eq!(note.set_mark(Place(3)).unwrap().number(), 0);
    });
}

#[test]
fn marks() {
    let mut memory = vec![0; need(17).unwrap()];
    let mut note = Note::open(&mut memory, 17).unwrap();
    for number in 0..=255 {
        assert_eq!(note.set_mark(Place(0)).unwrap().number(), number);
    }
    let before = note.memory().to_vec();
    assert_eq!(note.set_mark(Place(0)), Err(Refusal::Marks));
    assert_eq!(note.memory(), before);
}

#[test]
fn output() {
    with_note(|note| {
        let mut out = [b'.'; 5];
        assert_eq!(
            note.copy_out(Place(3)..Place(5), &mut out),
            Err(Refusal::Output)
        );
        assert_eq!(&out, b".....");
    });
}

#[test]
fn words() {
    assert_eq!(Refusal::Mark.to_string(), "refusal 7: the mark is not live");
}
