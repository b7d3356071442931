/* Calls every function of wolamivens.h: each answer, each refusal and what it leaves, and those of document 01's fourteen that are about a
   note. Ends at the first that differs. */
#include <stdio.h>
#include <stdlib.h>
#include <string.h>

#include "wolamivens.h"

#define SLOTS 17
#define LEN (640 * SLOTS + 6144)
#define UNTOUCHED 77

/* The note, what lies behind it, and both as they were before a call that is to be refused. */
static uint8_t memory[LEN + 16];
static uint8_t before[LEN + 16];

static unsigned checks;

#define CHECK(holds) \
    do { \
        checks++; \
        if (!(holds)) { \
            fprintf(stderr, "%s:%d: differs: %s\n", __FILE__, __LINE__, #holds); \
            exit(1); \
        } \
    } while (0)

/* The call is accepted and its value, in `value` or `change`, is this. */
#define IS(call, due) \
    do { \
        CHECK((call) == WOL_ACCEPTED); \
        CHECK(value == (due)); \
    } while (0)

#define CHANGES(call, due) \
    do { \
        CHECK((call) == WOL_ACCEPTED); \
        CHECK(change == (due)); \
    } while (0)

/* The call is refused by this number, and leaves memory and values. */
#define REFUSED(call, due) \
    do { \
        memcpy(before, memory, sizeof memory); \
        value = UNTOUCHED; \
        change = UNTOUCHED; \
        CHECK((call) == (due)); \
        CHECK(memcmp(before, memory, sizeof memory) == 0); \
        CHECK(value == UNTOUCHED && change == UNTOUCHED); \
    } while (0)

static uint64_t value;
static int64_t change;

static uint8_t insert(size_t place, const char *piece) {
    return wol_note_insert(memory, LEN, place, (const uint8_t *)piece, strlen(piece), &change);
}

static uint8_t take_out(size_t start, size_t end) {
    return wol_note_remove(memory, LEN, start, end, &change);
}

static uint8_t set_mark(size_t place) {
    return wol_note_set_mark(memory, LEN, place, &value);
}

static bool part_is(struct wol_part part, const char *text) {
    return part.len == strlen(text) && memcmp(part.at, text, part.len) == 0;
}

static bool lies_in(struct wol_part part, const uint8_t *bytes, size_t len) {
    return part.at >= bytes && part.at + part.len <= bytes + len;
}

/* T of document 01, with marks 0, 1 and 2 at its places 1, 2 and 3. */
static void open_t(void) {
    CHECK(wol_note_open(memory, LEN, SLOTS) == WOL_ACCEPTED);
    CHANGES(insert(0, "a\r\n\xC3\xA9\xF0\x9F\x98\x80"
                      "b"),
            1);
    IS(set_mark(1), 0);
    IS(set_mark(2), 1);
    IS(set_mark(3), 2);
}

static void opening(void) {
    memset(memory, 0xA5, sizeof memory);
    CHECK(wol_note_need(SLOTS) == LEN);
    CHECK(wol_note_need(4096) == 2627584);
    REFUSED(wol_note_open(memory, LEN, 16), WOL_OPENING);
    REFUSED(wol_note_open(memory, LEN, 4097), WOL_OPENING);
    REFUSED(wol_note_open(memory, LEN - 1, SLOTS), WOL_OPENING);
    REFUSED(wol_note_open(memory, 0, SLOTS), WOL_OPENING);
    CHECK(!wol_note_check(memory, LEN));
    CHECK(wol_note_open(memory, sizeof memory, SLOTS) == WOL_ACCEPTED);
    CHECK(wol_note_check(memory, LEN));
    CHECK(!wol_note_check(memory, LEN - 1));
    for (size_t k = LEN; k < sizeof memory; k++) CHECK(memory[k] == 0xA5);
    IS(wol_note_len_bytes(memory, LEN, &value), 0);
    IS(wol_note_len_lines(memory, LEN, &value), 1);
    IS(wol_note_edit_number(memory, LEN, &value), 0);
    REFUSED(wol_note_mark_place(memory, LEN, 0, &value), WOL_MARK);
}

static void lengths(void) {
    open_t();
    IS(wol_note_len_bytes(memory, LEN, &value), 10);
    IS(wol_note_len_chars(memory, LEN, &value), 6);
    IS(wol_note_len_utf16_cu(memory, LEN, &value), 7);
    IS(wol_note_len_lines(memory, LEN, &value), 2);
    IS(wol_note_slots(memory, LEN, &value), SLOTS);
    IS(wol_note_edit_number(memory, LEN, &value), 1);
}

static void conversions(void) {
    open_t();
    IS(wol_note_byte_to_char(memory, LEN, 10, &value), 6);
    IS(wol_note_char_to_byte(memory, LEN, 4, &value), 5);
    IS(wol_note_byte_to_line(memory, LEN, 2, &value), 0);
    IS(wol_note_byte_to_line(memory, LEN, 4, &value), 1);
    IS(wol_note_line_to_byte(memory, LEN, 1, &value), 3);
    IS(wol_note_line_to_byte(memory, LEN, 2, &value), 10);
    IS(wol_note_char_to_line(memory, LEN, 6, &value), 1);
    IS(wol_note_line_to_char(memory, LEN, 1, &value), 3);
    IS(wol_note_char_to_utf16_cu(memory, LEN, 6, &value), 7);
    IS(wol_note_utf16_cu_to_char(memory, LEN, 7, &value), 6);
    REFUSED(wol_note_byte_to_char(memory, LEN, 11, &value), WOL_PLACE);
    REFUSED(wol_note_char_to_byte(memory, LEN, 7, &value), WOL_PLACE);
    REFUSED(wol_note_byte_to_line(memory, LEN, 11, &value), WOL_PLACE);
    REFUSED(wol_note_line_to_byte(memory, LEN, 3, &value), WOL_PLACE);
    REFUSED(wol_note_char_to_line(memory, LEN, 7, &value), WOL_PLACE);
    REFUSED(wol_note_line_to_char(memory, LEN, 3, &value), WOL_PLACE);
    REFUSED(wol_note_char_to_utf16_cu(memory, LEN, 7, &value), WOL_PLACE);
    REFUSED(wol_note_utf16_cu_to_char(memory, LEN, 8, &value), WOL_PLACE);
    REFUSED(wol_note_utf16_cu_to_char(memory, LEN, SIZE_MAX, &value), WOL_PLACE);
}

/* Items 1 to 8 and 14; the marks that 7 names by their places are 0, 1 and 2. */
static void fourteen(void) {
    char letters[66] = {0};

    open_t();
    IS(wol_note_char_to_byte(memory, LEN, 2, &value), 2);
    IS(wol_note_char_to_line(memory, LEN, 2, &value), 0);
    IS(wol_note_char_to_byte(memory, LEN, 3, &value), 3);
    IS(wol_note_char_to_utf16_cu(memory, LEN, 3, &value), 3);
    IS(wol_note_char_to_line(memory, LEN, 3, &value), 1);
    IS(wol_note_char_to_byte(memory, LEN, 5, &value), 9);
    IS(wol_note_char_to_utf16_cu(memory, LEN, 5, &value), 6);
    IS(wol_note_utf16_cu_to_char(memory, LEN, 5, &value), 4);
    IS(wol_note_byte_to_char(memory, LEN, 7, &value), 4);
    IS(wol_note_line_to_char(memory, LEN, 2, &value), 6);
    REFUSED(wol_note_line_to_char(memory, LEN, 3, &value), WOL_PLACE);
    CHANGES(insert(2, "x"), 1);
    IS(wol_note_len_lines(memory, LEN, &value), 3);
    IS(wol_note_mark_place(memory, LEN, 0, &value), 1);
    IS(wol_note_mark_place(memory, LEN, 1, &value), 3);
    IS(wol_note_mark_line(memory, LEN, 1, &value), 1);
    IS(wol_note_mark_place(memory, LEN, 2, &value), 4);
    IS(wol_note_mark_line(memory, LEN, 2, &value), 2);
    CHANGES(take_out(2, 3), -1);

    CHECK(wol_note_open(memory, LEN, 17) == WOL_ACCEPTED);
    memset(letters, 'a', 65);
    REFUSED(insert(0, letters), WOL_ROOM);
    letters[64] = 0;
    CHANGES(insert(0, letters), 0);
}

static void edits(void) {
    char letters[258] = {0};

    open_t();
    memset(letters, 'a', 257);
    REFUSED(insert(7, letters), WOL_PLACE);
    REFUSED(insert(6, letters), WOL_PIECE);
    REFUSED(insert(6, "\xC3"), WOL_TEXT);
    letters[256] = 0;
    REFUSED(insert(6, letters), WOL_ROOM);
    REFUSED(take_out(3, 2), WOL_PLACE);
    REFUSED(take_out(6, 7), WOL_PLACE);

    /* An empty piece or range changes nothing at all. */
    memcpy(before, memory, sizeof memory);
    CHANGES(insert(3, ""), 0);
    CHANGES(take_out(3, 3), 0);
    CHECK(memcmp(before, memory, sizeof memory) == 0);

    CHANGES(take_out(0, 6), -1);
    IS(wol_note_edit_number(memory, LEN, &value), 2);
    IS(wol_note_len_bytes(memory, LEN, &value), 0);
    IS(wol_note_mark_place(memory, LEN, 2, &value), 0);
}

static void marks(void) {
    open_t();
    REFUSED(set_mark(7), WOL_PLACE);
    IS(wol_note_mark_line(memory, LEN, 2, &value), 1);
    CHECK(wol_note_drop_mark(memory, LEN, 1) == WOL_ACCEPTED);
    REFUSED(wol_note_drop_mark(memory, LEN, 1), WOL_MARK);
    REFUSED(wol_note_drop_mark(memory, LEN, 256), WOL_MARK);
    REFUSED(wol_note_mark_place(memory, LEN, 1, &value), WOL_MARK);
    REFUSED(wol_note_mark_line(memory, LEN, 1, &value), WOL_MARK);
    IS(set_mark(6), 1);
    IS(wol_note_mark_place(memory, LEN, 1, &value), 6);
    for (uint64_t mark = 3; mark < 256; mark++) IS(set_mark(0), mark);
    REFUSED(set_mark(0), WOL_MARKS);
}

static void texts(void) {
    uint8_t out[12];
    struct wol_part part;
    const uint8_t piece[] = {'x', 'y'};

    open_t();
    memset(out, '.', sizeof out);
    IS(wol_note_copy(memory, LEN, 3, 5, out, 6, &value), 6);
    CHECK(memcmp(out, "\xC3\xA9\xF0\x9F\x98\x80......", sizeof out) == 0);
    REFUSED(wol_note_copy(memory, LEN, 3, 5, out, 5, &value), WOL_OUTPUT);
    REFUSED(wol_note_copy(memory, LEN, 5, 3, out, sizeof out, &value), WOL_PLACE);
    REFUSED(wol_note_copy(memory, LEN, 0, 7, out, sizeof out, &value), WOL_PLACE);
    CHECK(memcmp(out, "\xC3\xA9\xF0\x9F\x98\x80......", sizeof out) == 0);
    IS(wol_note_copy(memory, LEN, 6, 6, out, 0, &value), 0);

    CHECK(wol_note_run(memory, LEN, 4, &part) == WOL_ACCEPTED);
    CHECK(part_is(part, "\xF0\x9F\x98\x80"
                        "b"));
    CHECK(lies_in(part, memory, LEN));
    CHECK(wol_note_run(memory, LEN, 6, &part) == WOL_ACCEPTED && part.len == 0);
    REFUSED(wol_note_run(memory, LEN, 7, &part), WOL_PLACE);
    CHECK(part.len == 0);

    /* xy before b: what is before it, it, and what is behind. */
    CHECK(wol_note_preview(memory, LEN, piece, 2, 5, 3, &part) == WOL_ACCEPTED);
    CHECK(part_is(part, "\xC3\xA9\xF0\x9F\x98\x80") && lies_in(part, memory, LEN));
    CHECK(wol_note_preview(memory, LEN, piece, 2, 5, 6, &part) == WOL_ACCEPTED);
    CHECK(part_is(part, "y") && lies_in(part, piece, sizeof piece));
    CHECK(wol_note_preview(memory, LEN, piece, 2, 5, 7, &part) == WOL_ACCEPTED);
    CHECK(part_is(part, "b") && lies_in(part, memory, LEN));
    CHECK(wol_note_preview(memory, LEN, piece, 2, 5, 8, &part) == WOL_ACCEPTED && part.len == 0);
    REFUSED(wol_note_preview(memory, LEN, piece, 2, 5, 9, &part), WOL_PLACE);
    REFUSED(wol_note_preview(memory, LEN, piece, 2, 7, 0, &part), WOL_PLACE);
    REFUSED(wol_note_preview(memory, LEN, (const uint8_t *)"\xFF", 1, 5, 0, &part), WOL_TEXT);
    CHECK(part.len == 0);
}

/* Memory that is not well formed, or is cut short: every call but opening refuses. */
static void damaged(size_t len) {
    uint8_t out[12];
    struct wol_part part;

    CHECK(!wol_note_check(memory, len));
    REFUSED(wol_note_len_bytes(memory, len, &value), WOL_MEMORY);
    REFUSED(wol_note_len_chars(memory, len, &value), WOL_MEMORY);
    REFUSED(wol_note_len_utf16_cu(memory, len, &value), WOL_MEMORY);
    REFUSED(wol_note_len_lines(memory, len, &value), WOL_MEMORY);
    REFUSED(wol_note_slots(memory, len, &value), WOL_MEMORY);
    REFUSED(wol_note_edit_number(memory, len, &value), WOL_MEMORY);
    REFUSED(wol_note_byte_to_char(memory, len, 0, &value), WOL_MEMORY);
    REFUSED(wol_note_char_to_byte(memory, len, 0, &value), WOL_MEMORY);
    REFUSED(wol_note_byte_to_line(memory, len, 0, &value), WOL_MEMORY);
    REFUSED(wol_note_line_to_byte(memory, len, 0, &value), WOL_MEMORY);
    REFUSED(wol_note_char_to_line(memory, len, 0, &value), WOL_MEMORY);
    REFUSED(wol_note_line_to_char(memory, len, 0, &value), WOL_MEMORY);
    REFUSED(wol_note_char_to_utf16_cu(memory, len, 0, &value), WOL_MEMORY);
    REFUSED(wol_note_utf16_cu_to_char(memory, len, 0, &value), WOL_MEMORY);
    REFUSED(wol_note_mark_place(memory, len, 0, &value), WOL_MEMORY);
    REFUSED(wol_note_mark_line(memory, len, 0, &value), WOL_MEMORY);
    REFUSED(wol_note_insert(memory, len, 0, out, 0, &change), WOL_MEMORY);
    REFUSED(wol_note_remove(memory, len, 0, 0, &change), WOL_MEMORY);
    REFUSED(wol_note_set_mark(memory, len, 0, &value), WOL_MEMORY);
    REFUSED(wol_note_drop_mark(memory, len, 0), WOL_MEMORY);
    REFUSED(wol_note_copy(memory, len, 0, 0, out, sizeof out, &value), WOL_MEMORY);
    REFUSED(wol_note_run(memory, len, 0, &part), WOL_MEMORY);
    CHECK(part.len == 0);
    REFUSED(wol_note_preview(memory, len, out, 0, 0, 0, &part), WOL_MEMORY);
    CHECK(part.len == 0);
}

int main(void) {
    opening();
    lengths();
    conversions();
    fourteen();
    edits();
    marks();
    texts();
    open_t();
    damaged(LEN - 1);
    damaged(0);
    memset(memory, 0xFF, LEN);
    damaged(LEN);
    printf("c: %u checks hold\n", checks);
    return 0;
}
