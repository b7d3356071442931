/*
 * A note in memory that the caller lends: text, up to 256 marks, and an edit number. Link it with libwolamivens.a (bindings/library.sh).
 *
 * Each call but the check returns 0, or the number of its refusal. Where several refusals apply, the lowest is given. A refused call changes
 * no byte of the memory or the output and writes no value; only a part is then set to an empty one. Each call ends, whatever the bytes and
 * numbers are. Opening aside, each takes the memory as it lies: a stored note needs no opening.
 *
 * Bytes pass as a pointer and a length. The pointer must be valid, and not NULL, also where the length is 0. The memory needs no alignment.
 * It is the call's alone: during a call no other thread may write it, or read it where the call changes it, and no output, value or
 * inserted piece may lie in it. (A run that is to be inserted is copied first.)
 *
 * A place is a gap between chars, from 0 to the number of chars. A line break is LF, CR, or CR LF as one; the place between CR and LF is on the
 * old line. A byte or UTF-16 index inside a char means that char's start. Each call checks the whole memory first, allocates nothing, and
 * takes less than 12 KiB of stack.
 */
#ifndef WOLAMIVENS_H
#define WOLAMIVENS_H

#include <stdbool.h>
#include <stddef.h>
#include <stdint.h>

#ifdef __cplusplus
extern "C" {
#endif

enum wol_refusal {
    WOL_ACCEPTED = 0, /* no refusal */
    WOL_OPENING = 1,  /* opening: n outside 17 to 4,096, or lent memory shorter than the need for n */
    WOL_MEMORY = 2,   /* any other call: the lent memory is too short or not well formed */
    WOL_PLACE = 3,    /* a place or index past its end (for lines, above the number of lines), or start above end */
    WOL_PIECE = 4,    /* piece of a note edit longer than 256 bytes */
    WOL_TEXT = 5,     /* text not well-formed UTF-8 */
    WOL_ROOM = 6,     /* the note would exceed 64 x (n - 16) bytes */
    WOL_MARK = 7,     /* mark number not live */
    WOL_MARKS = 8,    /* 256 marks live already */
    WOL_OUTPUT = 9    /* output memory shorter than the bytes to copy */
};

/* Bytes that are handed out where they lie, and not copied. They are valid until the memory or the piece they lie in changes. */
struct wol_part {
    const uint8_t *at;
    size_t len;
};

/* ---- opening, and whether memory is well formed ---- */

/* How many bytes a note of n slots needs, for n from 17 to 4,096. What lies beyond them is never read or changed. */
static inline size_t wol_note_need(size_t n) {
    return 640 * n + 6144;
}

/* Makes an empty note of n slots without marks and with edit number 0, whatever the memory held. It may grow to 64 x (n - 16) bytes.
   Refused: WOL_OPENING. */
uint8_t wol_note_open(uint8_t *memory, size_t len, size_t n);

/* Whether the memory is well formed: a note that the other calls do not refuse by WOL_MEMORY. Never refused. Changes nothing. */
bool wol_note_check(const uint8_t *memory, size_t len);

/* ---- edits ---- */

/* Puts a piece of at most 256 bytes in at a place. Marks at or behind it move on by the piece's chars, and the edit number rises; an empty piece
   changes nothing at all. *change: how many lines more the note has. Refused: WOL_MEMORY, WOL_PLACE, WOL_PIECE, WOL_TEXT, WOL_ROOM. */
uint8_t wol_note_insert(uint8_t *memory, size_t len, size_t place, const uint8_t *piece, size_t piece_len, int64_t *change);

/* Takes the chars from start up to end out. Marks among them go to start, those at or behind end move back, and the edit number rises; an empty
   range changes nothing at all. *change: how many lines more the note has, below 0 where it has fewer. Refused: WOL_MEMORY, WOL_PLACE. */
uint8_t wol_note_remove(uint8_t *memory, size_t len, size_t start, size_t end, int64_t *change);

/* ---- marks ---- */

/* Sets a mark at a place. *mark: its number, the lowest free one from 0. Text and other marks stay. Refused: WOL_MEMORY, WOL_PLACE,
   WOL_MARKS. */
uint8_t wol_note_set_mark(uint8_t *memory, size_t len, size_t place, uint64_t *mark);

/* Drops a mark; its number is free again. Text and other marks stay. Refused: WOL_MEMORY, WOL_MARK. */
uint8_t wol_note_drop_mark(uint8_t *memory, size_t len, size_t mark);

/* ---- text; these change nothing of the memory ---- */

/* Copies the chars from start up to end to the front of the output, and changes no more of it. *count: how many bytes they are.
   Refused: WOL_MEMORY, WOL_PLACE, WOL_OUTPUT. */
uint8_t wol_note_copy(const uint8_t *memory, size_t len, size_t start, size_t end, uint8_t *out, size_t out_len, uint64_t *count);

/* Hands a run out: *part is a part of the memory with whole chars, the first of them the char at the place; it is empty at the end alone. The
   next run is that of the place behind its chars, and runs joined are the note from the place on. Each checks the memory anew, so that a long
   text is had sooner by one wol_note_copy. Refused, with an empty part: WOL_MEMORY, WOL_PLACE. */
uint8_t wol_note_run(const uint8_t *memory, size_t len, size_t place, struct wol_part *part);

/* Hands out what an insertion would give, without it: *part is a part of the memory or of the piece, which begins with the char at place `from`
   of the joined text; it is empty at the joined end alone. Refused, with an empty part: as the insertion would be; else WOL_PLACE for `from`
   past the joined end. */
uint8_t wol_note_preview(const uint8_t *memory, size_t len, const uint8_t *piece, size_t piece_len, size_t place, size_t from,
                         struct wol_part *part);

/* ---- numbers; these change nothing of the memory ---- */

/* *bytes: how many bytes the note has. Refused: WOL_MEMORY. */
uint8_t wol_note_len_bytes(const uint8_t *memory, size_t len, uint64_t *bytes);

/* *chars: how many chars it has, which is its last place. Refused: WOL_MEMORY. */
uint8_t wol_note_len_chars(const uint8_t *memory, size_t len, uint64_t *chars);

/* *units: how many UTF-16 units it has. Refused: WOL_MEMORY. */
uint8_t wol_note_len_utf16_cu(const uint8_t *memory, size_t len, uint64_t *units);

/* *lines: how many lines it has, one more than line breaks. Refused: WOL_MEMORY. */
uint8_t wol_note_len_lines(const uint8_t *memory, size_t len, uint64_t *lines);

/* *n: the number of slots that it was opened with. Refused: WOL_MEMORY. */
uint8_t wol_note_slots(const uint8_t *memory, size_t len, uint64_t *n);

/* *edits: the edit number, how many edits changed the text; it returns to 0 after 4,294,967,295. Refused: WOL_MEMORY. */
uint8_t wol_note_edit_number(const uint8_t *memory, size_t len, uint64_t *edits);

/* *place: that of the char that a byte lies in. Refused: WOL_MEMORY, WOL_PLACE. */
uint8_t wol_note_byte_to_char(const uint8_t *memory, size_t len, size_t byte, uint64_t *place);

/* *byte: how many bytes are before a place. Refused: WOL_MEMORY, WOL_PLACE. */
uint8_t wol_note_char_to_byte(const uint8_t *memory, size_t len, size_t place, uint64_t *byte);

/* *line: that of the char that a byte lies in. Refused: WOL_MEMORY, WOL_PLACE. */
uint8_t wol_note_byte_to_line(const uint8_t *memory, size_t len, size_t byte, uint64_t *line);

/* *byte: how many bytes are before a line; of the number of lines, all. Refused: WOL_MEMORY, WOL_PLACE above that. */
uint8_t wol_note_line_to_byte(const uint8_t *memory, size_t len, size_t line, uint64_t *byte);

/* *line: that of a place, counted from 0. Refused: WOL_MEMORY, WOL_PLACE. */
uint8_t wol_note_char_to_line(const uint8_t *memory, size_t len, size_t place, uint64_t *line);

/* *place: where a line begins; of the number of lines, the end. Refused: WOL_MEMORY, WOL_PLACE above that. */
uint8_t wol_note_line_to_char(const uint8_t *memory, size_t len, size_t line, uint64_t *place);

/* *unit: how many UTF-16 units are before a place. Refused: WOL_MEMORY, WOL_PLACE. */
uint8_t wol_note_char_to_utf16_cu(const uint8_t *memory, size_t len, size_t place, uint64_t *unit);

/* *place: that of the char that a UTF-16 unit lies in. Refused: WOL_MEMORY, WOL_PLACE. */
uint8_t wol_note_utf16_cu_to_char(const uint8_t *memory, size_t len, size_t unit, uint64_t *place);

/* *place: where a mark stands. Refused: WOL_MEMORY, WOL_MARK. */
uint8_t wol_note_mark_place(const uint8_t *memory, size_t len, size_t mark, uint64_t *place);

/* *line: the line beside a mark, counted from 0. Refused: WOL_MEMORY, WOL_MARK. */
uint8_t wol_note_mark_line(const uint8_t *memory, size_t len, size_t mark, uint64_t *line);

#ifdef __cplusplus
}
#endif

#endif
