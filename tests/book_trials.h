/* The calls of the proved book beside those of the book in C: the same answer, the same bytes written, nothing else altered. And a count
   of what held. */
#ifndef BOOK_TRIALS_H
#define BOOK_TRIALS_H

#include "books_made.h"

enum property {
    EMPTY_BOOK,
    RESET_BOOK,
    MOST_MANY,
    MOST_LONG,
    BEYOND,
    FRAMES,
    GROWN,
    OPENED,
    ENTRIES,
    LINES,
    LISTED,
    ROOMS,
    ORDER,
    FEW_BYTES,
    OFFSETS,
    COUNTS,
    BACKS,
    HIGH_BYTES,
    EXCHANGED,
    GAPS,
    LOST,
    OVERLAPS,
    KINDS,
    BITS,
    LENGTHS,
    NO_FRAMES,
    CUT_OFF,
    ADDED,
    FEWER,
    MORE,
    CHANGED,
    PROPERTIES
};

static const char *const properties[PROPERTIES] = {
    [EMPTY_BOOK] = "the empty book",
    [RESET_BOOK] = "the book of the reset frame alone",
    [MOST_MANY] = "1,000 entries, one added after the other, and none more",
    [MOST_LONG] = "65,536 bytes, and none more",
    [BEYOND] = "1,001 entries or 65,537 bytes",
    [FRAMES] = "the longest and the shortest frames, and one too long",
    [GROWN] = "adding",
    [OPENED] = "opening",
    [ENTRIES] = "every entry",
    [LINES] = "every line",
    [LISTED] = "the listing",
    [ROOMS] = "rooms too short, just long enough and longer",
    [ORDER] = "the order of the refusals",
    [FEW_BYTES] = "a few bytes",
    [OFFSETS] = "an offset off by one",
    [COUNTS] = "the count off by one",
    [BACKS] = "the distance back wrong",
    [HIGH_BYTES] = "a high byte of the trailer set",
    [EXCHANGED] = "offsets exchanged",
    [GAPS] = "a gap",
    [LOST] = "a byte lost",
    [OVERLAPS] = "entries that share bytes",
    [KINDS] = "a wrong kind",
    [BITS] = "a bit of a frame flipped",
    [LENGTHS] = "a frame length that is wrong",
    [NO_FRAMES] = "an entry without a frame",
    [CUT_OFF] = "a book cut off",
    [ADDED] = "bytes added",
    [FEWER] = "a trailer for an entry fewer",
    [MORE] = "a trailer for an entry more",
    [CHANGED] = "bytes changed at random",
};

static unsigned long tried[PROPERTIES], wrong[PROPERTIES];

/* Counts, and shows the first case of a property that does not hold: s is the book. */
static void expect(enum property p, int right, const u8 *s, usize n) {
    tried[p]++;
    if (right || wrong[p]++)
        return;
    printf("%s: wrong, at try %lu, with a book of %zu bytes:", properties[p], tried[p], n);
    for (usize i = 0; i < n && i < 96; i++)
        printf(" %02X", s[i]);
    printf("\n");
}

static int finish(void) {
    unsigned passed = 0, failed = 0;
    unsigned long comparisons = 0;
    for (int p = 0; p < PROPERTIES; p++) {
        *(tried[p] && !wrong[p] ? &passed : &failed) += 1;
        comparisons += tried[p];
    }
    printf("%lu comparisons\n", comparisons);
    printf("%u passed, %u failed\n", passed, failed);
    return failed ? 1 : 0;
}

/* What is lent is known beforehand: the room is filled, and has guards before and behind it; book and frame have a copy. */

enum { BOOK_BYTES = DRAFT_BYTES + 4 * DRAFT_ENTRIES + 6, ROOM_BYTES = 8 * BOOK_BYTES + 96 * DRAFT_ENTRIES, FILL = 0xEE, GUARD = 16 };

static u8 guarded[GUARD + ROOM_BYTES + GUARD], *const room = guarded + GUARD, in_c[ROOM_BYTES], book_copy[2 * BOOK_BYTES], frame_copy[FRAME_BYTES];

static void lend(const u8 *s, usize n, usize m) {
    memcpy(book_copy, s, n);
    memset(guarded, FILL, GUARD + m + GUARD);
}

/* Whether the book is as it was, and the room too from a place on. */
static int unaltered(const u8 *s, usize n, usize from, usize m) {
    for (usize i = 0; i < GUARD; i++)
        if (guarded[i] != FILL)
            return 0;
    for (usize i = from; i < m + GUARD; i++)
        if (room[i] != FILL)
            return 0;
    return memcmp(s, book_copy, n) == 0;
}

/* Whether the room has what C wrote, and nothing else was altered. */
static int same_written(struct bolsterweft_count r, struct bolsterweft_count c, const u8 *s, usize n, usize m) {
    return r.refusal == c.refusal && r.length == c.length && memcmp(room, in_c, c.length) == 0 && unaltered(s, n, c.length, m);
}

static struct bolsterweft_entries try_open(enum property p, const u8 *s, usize n) {
    struct bolsterweft_entries r = bolsterweft_book_open(s, n), c = book_open_in_c(s, n);
    expect(p, r.refusal == c.refusal && r.count == c.count, s, n);
    return r;
}

static struct bolsterweft_entry try_entry(enum property p, const u8 *s, usize n, u32 number) {
    struct bolsterweft_entry r = bolsterweft_book_entry(s, n, number), c = book_entry_in_c(s, n, number);
    expect(p, r.refusal == c.refusal && r.kind == c.kind && r.offset == c.offset && r.frame_start == c.frame_start && r.frame_length == c.frame_length, s, n);
    return r;
}

static struct bolsterweft_count try_line(enum property p, const u8 *s, usize n, u32 number, usize m) {
    lend(s, n, m);
    struct bolsterweft_count r = bolsterweft_book_line(s, n, number, room, m), c = book_line_in_c(s, n, number, in_c, m);
    expect(p, same_written(r, c, s, n, m), s, n);
    return r;
}

static struct bolsterweft_count try_list(enum property p, const u8 *s, usize n, usize m) {
    lend(s, n, m);
    struct bolsterweft_count r = bolsterweft_book_list(s, n, room, m), c = book_list_in_c(s, n, in_c, m);
    expect(p, same_written(r, c, s, n, m), s, n);
    return r;
}

static struct bolsterweft_count try_add(enum property p, const u8 *s, usize n, u32 kind, const u8 *f, usize k, usize m) {
    lend(s, n, m);
    memcpy(frame_copy, f, k);
    struct bolsterweft_count r = bolsterweft_book_add(s, n, kind, f, k, room, m), c = book_add_in_c(s, n, kind, f, k, in_c, m);
    expect(p, same_written(r, c, s, n, m) && memcmp(f, frame_copy, k) == 0, s, n);
    return r;
}

/* What is no book is refused with 8 by every function, whatever else is wrong, and nothing is written. */
static void refused_by_all(enum property p, const u8 *s, usize n) {
    static const u8 frame[] = {0xD5, 0xAA, 0x96, 0xFF, 0, 0, 0, 0xA3, 0x4B};
    usize k = sizeof frame - any() % 2, m = any() % 2 ? 0 : n + 64;
    u32 number = (u32)(any() % 2 ? 0 : any() % 3000), kind = any() % 2 ? 2 : unknown_kind();
    lend(s, n, m);
    struct bolsterweft_entries o = bolsterweft_book_open(s, n);
    struct bolsterweft_entry e = bolsterweft_book_entry(s, n, number);
    struct bolsterweft_count line = bolsterweft_book_line(s, n, number, room, m);
    struct bolsterweft_count list = bolsterweft_book_list(s, n, room, m);
    struct bolsterweft_count add = bolsterweft_book_add(s, n, kind, frame, k, room, m);
    expect(p, o.refusal == 8 && !o.count, s, n);
    expect(p, e.refusal == 8 && !e.kind && !e.offset && !e.frame_start && !e.frame_length, s, n);
    expect(p, line.refusal == 8 && !line.length && list.refusal == 8 && !list.length && add.refusal == 8 && !add.length, s, n);
    expect(p, unaltered(s, n, 0, m), s, n);
}

#endif
