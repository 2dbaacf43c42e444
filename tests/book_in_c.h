/* Document 01's capture book in plain C, written from the document: what the proved book is compared with, and timed against. A book is
   n bytes at s, a frame k bytes at f, a lent room m bytes. The calls are those of bolsterweft.h. */
#ifndef BOOK_IN_C_H
#define BOOK_IN_C_H

#include "lines_in_c.h"

/* What always is room enough for a line of a book, and for all its lines. */
enum { MOST_ENTRIES = 1000, MOST_BYTES = 65536, LINE_ROOM = BOLSTERWEFT_LINE_ROOM, LINES_ROOM = 8 * MOST_BYTES + 96 * MOST_ENTRIES };

static u32 u32_at(const u8 *s) { return u16_at(s) + 65536u * u16_at(s + 2); }

static u8 *put_low_first(u8 *p, usize bytes, u64 v) {
    for (usize i = 0; i < bytes; i++)
        *p++ = (u8)(v >> 8 * i);
    return p;
}

static u8 *put_copy(u8 *p, const u8 *s, usize n) {
    memcpy(p, s, n);
    return p + n;
}

/* The length of the entry at a place before the trailer, which begins at `end`; 0 for none. */
static usize entry_length(const u8 *s, usize at, usize end) {
    if (end - at < 3)
        return 0;
    usize k = u16_at(s + at + 1);
    return k <= end - at - 3 && known(s[at]) && is_frame(s[at], s + at + 3, k) ? k + 3 : 0;
}

static struct bolsterweft_entries book_open_in_c(const u8 *s, usize n) {
    static const struct bolsterweft_entries refused = {8, 0};
    if (n < 6 || n > MOST_BYTES)
        return refused;
    usize count = u16_at(s + n - 6), back = u32_at(s + n - 4);
    if (count > MOST_ENTRIES || back != 4 * count + 6 || back > n)
        return refused;
    usize at = 0, end = n - back;
    for (usize i = 0; i < count; i++) {
        usize k = entry_length(s, at, end);
        if (!k || u32_at(s + end + 4 * i) != at)
            return refused;
        at += k;
    }
    return at == end ? (struct bolsterweft_entries){0, count} : refused;
}

static inline struct bolsterweft_entry book_entry_in_c(const u8 *s, usize n, u32 number) {
    struct bolsterweft_entries o = book_open_in_c(s, n);
    if (o.refusal || number >= o.count)
        return (struct bolsterweft_entry){o.refusal ? o.refusal : 3, 0, 0, 0, 0};
    usize at = 0;
    for (u32 i = 0; i < number; i++)
        at += 3 + u16_at(s + at + 1);
    return (struct bolsterweft_entry){0, s[at], at, at + 3, u16_at(s + at + 1)};
}

static inline struct bolsterweft_count book_line_by_map_in_c(const u8 *s, usize n, u32 number, struct map map, u8 *room, usize m) {
    static u8 line[LINE_ROOM];
    struct bolsterweft_entry e = book_entry_in_c(s, n, number);
    if (e.refusal)
        return (struct bolsterweft_count){e.refusal, 0};
    return all_or_none(line, (usize)(put_line(line, (u8)e.kind, s + e.frame_start, e.frame_length, e.offset, map) - line), room, m);
}

static inline struct bolsterweft_count book_line_in_c(const u8 *s, usize n, u32 number, u8 *room, usize m) {
    return book_line_by_map_in_c(s, n, number, no_map, room, m);
}

/* The lines of a valid book with this number of entries, into a room that is long enough. */
static u8 *put_book_lines(u8 *p, const u8 *s, usize count, struct map map) {
    usize at = 0;
    for (usize i = 0; i < count; i++) {
        usize k = u16_at(s + at + 1);
        p = put_line(p, s[at], s + at + 3, k, at, map);
        at += 3 + k;
    }
    return p;
}

/* A map makes lines longer, but not as long as a listing can be. */
static inline struct bolsterweft_count book_list_by_map_in_c(const u8 *s, usize n, struct map map, u8 *room, usize m) {
    static u8 lines[BOLSTERWEFT_LIST_ROOM];
    struct bolsterweft_entries o = book_open_in_c(s, n);
    if (o.refusal)
        return (struct bolsterweft_count){o.refusal, 0};
    return all_or_none(lines, (usize)(put_book_lines(lines, s, o.count, map) - lines), room, m);
}

static inline struct bolsterweft_count book_list_in_c(const u8 *s, usize n, u8 *room, usize m) {
    return book_list_by_map_in_c(s, n, no_map, room, m);
}

static inline struct bolsterweft_count book_add_in_c(const u8 *s, usize n, u32 kind, const u8 *f, usize k, u8 *room, usize m) {
    struct bolsterweft_entries o = book_open_in_c(s, n);
    if (o.refusal)
        return (struct bolsterweft_count){o.refusal, 0};
    if (!known(kind))
        return (struct bolsterweft_count){2, 0};
    usize size = n + 3 + k + 4, end = n - (4 * o.count + 6);
    if (!is_frame(kind, f, k) || o.count == MOST_ENTRIES || size > MOST_BYTES)
        return (struct bolsterweft_count){5, 0};
    if (m < size)
        return (struct bolsterweft_count){4, 0};
    u8 *p = put_copy(room, s, end);
    p = put_low_first(p, 1, kind);
    p = put_low_first(p, 2, k);
    p = put_copy(p, f, k);
    p = put_copy(p, s + end, 4 * o.count);
    p = put_low_first(p, 4, end);
    p = put_low_first(p, 2, o.count + 1);
    put_low_first(p, 4, 4 * (o.count + 1) + 6);
    return (struct bolsterweft_count){0, size};
}

#endif
