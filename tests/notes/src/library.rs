//! The C functions of the library that is tested, as Rust declares them. A slice passes as its pointer,
//! then its length. Nothing checks these against the library.

/// A part that is handed out, as it lies in memory.
#[repr(C)]
pub struct Slice {
    pub at: *const u8,
    pub len: usize,
}

extern "C" {
    pub fn wol_note_open(memory: *mut u8, len: usize, n: usize) -> u8;
    pub fn wol_note_check(memory: *const u8, len: usize) -> bool;
    pub fn wol_note_copy(
        memory: *const u8,
        len: usize,
        start: usize,
        end: usize,
        out: *mut u8,
        out_len: usize,
        count: &mut u64,
    ) -> u8;
    pub fn wol_note_run(memory: *const u8, len: usize, place: usize, part: &mut Slice) -> u8;
    pub fn wol_note_preview(
        memory: *const u8,
        len: usize,
        piece: *const u8,
        piece_len: usize,
        place: usize,
        from: usize,
        part: &mut Slice,
    ) -> u8;
    pub fn wol_note_insert(
        memory: *mut u8,
        len: usize,
        place: usize,
        piece: *const u8,
        piece_len: usize,
        change: &mut i64,
    ) -> u8;
    pub fn wol_note_remove(
        memory: *mut u8,
        len: usize,
        start: usize,
        end: usize,
        change: &mut i64,
    ) -> u8;
    pub fn wol_note_set_mark(memory: *mut u8, len: usize, place: usize, mark: &mut u64) -> u8;
    pub fn wol_note_drop_mark(memory: *mut u8, len: usize, mark: usize) -> u8;
}

/// The calls that answer a number, some of an index or a mark.
macro_rules! numbers {
    ($($name:ident($($index:ident)?),)*) => {
        extern "C" {
            $(pub fn $name(memory: *const u8, len: usize, $($index: usize,)? value: &mut u64) -> u8;)*
        }
    };
}

numbers! {
    wol_note_len_bytes(),
    wol_note_len_chars(),
    wol_note_len_utf16_cu(),
    wol_note_len_lines(),
    wol_note_slots(),
    wol_note_edit_number(),
    wol_note_byte_to_char(index),
    wol_note_char_to_byte(index),
    wol_note_byte_to_line(index),
    wol_note_line_to_byte(index),
    wol_note_char_to_line(index),
    wol_note_line_to_char(index),
    wol_note_char_to_utf16_cu(index),
    wol_note_utf16_cu_to_char(index),
    wol_note_mark_place(mark),
    wol_note_mark_line(mark),
}
