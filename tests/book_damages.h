/* A good book, damaged in each way that is named, and in others at random. What is named is no book by its making, whatever the entries
   are, and has to be refused with 8. */
#ifndef BOOK_DAMAGES_H
#define BOOK_DAMAGES_H

#include "book_trials.h"

/* The good book: as a draft, and as its bytes. */
static struct draft good;
static u8 book[BOOK_BYTES];
static usize size;

/* One that is damaged. */
static struct draft bad;
static u8 bad_book[2 * BOOK_BYTES];

static unsigned long damaged_books;

static void damaged(enum property p, const u8 *s, usize n) {
    damaged_books++;
    expect(p, book_open_in_c(s, n).refusal == 8, s, n);
    refused_by_all(p, s, n);
}

/* Where only C says whether it still is a book. */
static void perhaps_damaged(enum property p, const u8 *s, usize n) {
    damaged_books++;
    try_open(p, s, n);
    if (book_open_in_c(s, n).refusal)
        refused_by_all(p, s, n);
    else
        try_list(p, s, n, 8 * n + 96);
}

/* A draft is damaged in a copy. */

static void copy_good(void) {
    bad.end = good.end;
    bad.count = good.count;
    memcpy(bad.entries, good.entries, good.end);
    memcpy(bad.offsets, good.offsets, good.count * sizeof *good.offsets);
}

static void bad_bound(enum property p) { damaged(p, bad_book, bind_draft(&bad, bad_book)); }

static void piece_of(struct piece *e, usize number) {
    const u8 *s = good.entries + good.offsets[number];
    e->kind = s[0];
    e->length = u16_at(s + 1);
    memcpy(e->frame, s + 3, e->length);
}

/* Where an entry ends. */
static usize entry_end(usize number) { return number + 1 < good.count ? good.offsets[number + 1] : good.end; }

/* A byte put in at a place, or taken out of it, and the offsets of the entries from a number on moved with it. */

static void put_in(usize at, u8 byte, usize number) {
    for (usize i = bad.end++; i > at; i--)
        bad.entries[i] = bad.entries[i - 1];
    bad.entries[at] = byte;
    for (usize i = number; i < bad.count; i++)
        bad.offsets[i]++;
}

static void take_out(usize at, usize number) {
    bad.end--;
    for (usize i = at; i < bad.end; i++)
        bad.entries[i] = bad.entries[i + 1];
    for (usize i = number; i < bad.count; i++)
        bad.offsets[i]--;
}

/* A number of the book, low byte first, that is another than it should be. */
static void with_number(enum property p, usize at, usize bytes, u64 v) {
    u8 right[4];
    memcpy(right, book + at, bytes);
    put_low_first(book + at, bytes, v);
    if (memcmp(right, book + at, bytes) != 0)
        damaged(p, book, size);
    memcpy(book + at, right, bytes);
}

static void with_offset(enum property p, usize number, u64 v) { with_number(p, good.end + 4 * number, 4, v); }

/* The trailer */

static void offsets_off_by_one(void) {
    for (usize i = 0; i < good.count; i++) {
        with_offset(OFFSETS, i, good.offsets[i] + 1);
        with_offset(OFFSETS, i, good.offsets[i] - 1);
    }
}

static void count_off_by_one(void) {
    with_number(COUNTS, size - 6, 2, good.count + 1);
    with_number(COUNTS, size - 6, 2, good.count - 1);
}

static void distance_wrong(void) {
    usize back = size - good.end;
    with_number(BACKS, size - 4, 4, back + 1);
    with_number(BACKS, size - 4, 4, back - 1);
    with_number(BACKS, size - 4, 4, back + 4);
    with_number(BACKS, size - 4, 4, back - 4);
    with_number(BACKS, size - 4, 4, good.end);
    with_number(BACKS, size - 4, 4, size);
    with_number(BACKS, size - 4, 4, 0);
}

static void high_bytes_set(void) {
    for (usize i = 0; i < good.count; i++) {
        with_offset(HIGH_BYTES, i, good.offsets[i] + (any() % 255 + 1) * 65536);
        with_offset(HIGH_BYTES, i, good.offsets[i] + (any() % 255 + 1) * 16777216);
    }
    with_number(HIGH_BYTES, size - 6, 2, good.count + (any() % 250 + 1) * 256);
    with_number(HIGH_BYTES, size - 4, 4, size - good.end + (any() % 255 + 1) * 65536);
    with_number(HIGH_BYTES, size - 4, 4, size - good.end + (any() % 255 + 1) * 16777216);
}

static void exchange(usize i, usize j) {
    if (i == j)
        return;
    copy_good();
    bad.offsets[i] = good.offsets[j];
    bad.offsets[j] = good.offsets[i];
    bad_bound(EXCHANGED);
}

static void offsets_exchanged(void) {
    for (usize i = 1; i < good.count; i++) {
        exchange(i - 1, i);
        exchange(i, any() % good.count);
    }
}

/* The trailer ends as one for this number of entries does, but has the offsets that it had. */
static void claim(enum property p, usize count) {
    memcpy(bad_book, book, size);
    put_low_first(bad_book + size - 6, 2, count);
    put_low_first(bad_book + size - 4, 4, 4 * count + 6);
    damaged(p, bad_book, size);
}

static void one_entry_fewer(void) {
    if (!good.count)
        return;
    claim(FEWER, good.count - 1);
    copy_good();
    bad.count--;
    bad_bound(FEWER);
    copy_good();
    bad.count--;
    memcpy(bad.offsets, good.offsets + 1, bad.count * sizeof *bad.offsets);
    bad_bound(FEWER);
}

static void one_entry_more(void) {
    claim(MORE, good.count + 1);
    copy_good();
    bad.offsets[bad.count++] = good.end;
    bad_bound(MORE);
    copy_good();
    bad.offsets[bad.count++] = good.count ? good.offsets[any() % good.count] : 0;
    bad_bound(MORE);
}

/* Where entries stand */

static void gaps(void) {
    for (usize i = 0; i <= good.count; i++) {
        copy_good();
        put_in(i < good.count ? good.offsets[i] : good.end, any() % 2 ? 0 : (u8)any(), i);
        bad_bound(GAPS);
    }
}

static void bytes_lost(void) {
    for (usize i = 0; i < good.count; i++) {
        usize end = entry_end(i);
        copy_good();
        take_out(end - 1, i + 1);
        bad_bound(LOST);
        copy_good();
        take_out(good.offsets[i] + any() % (end - good.offsets[i]), i + 1);
        bad_bound(LOST);
    }
}

/* Two good entries, the one inside the other's payload. */
static void entry_in_entry(void) {
    struct piece inner, outer = {.kind = 2};
    u8 payload[32];
    usize before = any() % 8, behind = any() % 8;
    inner.kind = 4;
    inner.length = made_nibe(inner.frame, 0x69, 2, (u8)any(), 0);
    memset(payload, (u8)any(), sizeof payload);
    u8 *p = put_low_first(payload + before, 1, inner.kind);
    p = put_copy(put_low_first(p, 2, inner.length), inner.frame, inner.length);
    outer.length = nest_of(outer.frame, outer.kind, (u32)any() & 0xFFFF, payload, (usize)(p - payload) + behind, 0);
    begin_draft(&bad);
    put_piece(&bad, &outer);
    bad.offsets[bad.count++] = 3 + 7 + before;
    bad_bound(OVERLAPS);
}

/* Two good entries, the end of the one being the beginning of the other: the last bytes of a Nibe frame are an entry up to the first byte
   of its Nest command's payload. */
static void entries_overlapping(void) {
    struct piece first = {.kind = 4}, second = {.kind = 2};
    u8 data[32], payload[8];
    usize before = any() % 8, n = any() % 8 + 1;
    memset(data, (u8)any(), sizeof data);
    memset(payload, (u8)any(), sizeof payload);
    second.length = nest_of(second.frame, 2, 0xFF, payload, n, 0);
    u8 *p = put_low_first(data + before, 1, second.kind);
    p = put_copy(put_low_first(p, 2, second.length), second.frame, 7);
    first.length = nibe_of(first.frame, 0x68, data, (usize)(p - data), 0);
    payload[0] = first.frame[first.length - 1];
    nest_of(second.frame, 2, 0xFF, payload, n, 0);
    begin_draft(&bad);
    put_piece(&bad, &first);
    put_copy(bad.entries + bad.end, second.frame + 8, second.length - 8);
    bad.end += second.length - 8;
    bad.offsets[bad.count++] = 3 + 3 + before;
    expect(OVERLAPS, entry_length(bad.entries, bad.offsets[1], bad.end) == bad.end - bad.offsets[1], bad.entries, bad.end);
    bad_bound(OVERLAPS);
}

/* What an entry holds */

static void kinds_wrong(void) {
    static const u8 kinds[] = {0, 1, 2, 3, 4, 5, 6, 255};
    for (usize i = 0; i < good.count; i++)
        for (usize k = 0; k < sizeof kinds; k++)
            with_number(KINDS, good.offsets[i], 1, kinds[k]);
}

/* Whether a frame's other bytes determine one of it: not a press's digits, nor Nibe's command. */
static int determined(const struct piece *e, usize at) {
    if (e->kind == 1 && e->frame[1] == 'N')
        return at < 2 || at > 7;
    return e->kind != 4 || at != 1;
}

static void bits_flipped(void) {
    struct piece e;
    if (!good.count)
        return;
    usize number = any() % good.count;
    piece_of(&e, number);
    for (usize bit = 0; bit < 8 * e.length; bit++) {
        u8 *at = book + good.offsets[number] + 3 + bit / 8;
        *at ^= (u8)(1u << bit % 8);
        (determined(&e, bit / 8) ? damaged : perhaps_damaged)(BITS, book, size);
        *at ^= (u8)(1u << bit % 8);
    }
}

static void frame_length_wrong(usize number) {
    usize at = good.offsets[number] + 1, right = u16_at(book + at);
    with_number(LENGTHS, at, 2, right + 1);
    with_number(LENGTHS, at, 2, right - 1);
    with_number(LENGTHS, at, 2, right + 256);
    with_number(LENGTHS, at, 2, good.end - at - 2);
    with_number(LENGTHS, at, 2, size - at - 2);
    with_number(LENGTHS, at, 2, 0);
    with_number(LENGTHS, at, 2, 0xFFFF);
}

/* The frame has a byte more, or one less, and all numbers say so. */
static void frame_with_another_end(usize number) {
    usize end = entry_end(number), at = good.offsets[number] + 1, right = u16_at(book + at);
    copy_good();
    put_low_first(bad.entries + at, 2, right + 1);
    put_in(end, (u8)any(), number + 1);
    bad_bound(LENGTHS);
    copy_good();
    put_low_first(bad.entries + at, 2, right - 1);
    take_out(end - 1, number + 1);
    bad_bound(LENGTHS);
}

static void frame_lengths_wrong(void) {
    for (usize i = 0; i < good.count; i++) {
        frame_length_wrong(i);
        frame_with_another_end(i);
    }
}

static void entries_without_frame(void) {
    struct piece e;
    usize number = any() % (good.count + 1);
    begin_draft(&bad);
    for (usize i = 0; i <= good.count; i++) {
        if (i == number) {
            e.kind = (u8)(any() % 5 + 1);
            e.length = 0;
            put_piece(&bad, &e);
        }
        if (i < good.count) {
            piece_of(&e, i);
            put_piece(&bad, &e);
        }
    }
    bad_bound(NO_FRAMES);
}

/* Where the book ends */

static void cut_off(void) {
    for (usize k = 1; k <= size && k <= 40; k++) {
        damaged(CUT_OFF, book, size - k);
        damaged(CUT_OFF, book + k, size - k);
    }
    usize k = any() % size + 1;
    damaged(CUT_OFF, book, size - k);
    damaged(CUT_OFF, book + k, size - k);
}

static void bytes_added(void) {
    for (usize k = 1; k <= 8; k++) {
        u8 byte = any() % 2 ? 0 : (u8)any();
        memcpy(bad_book, book, size);
        memset(bad_book + size, byte, k);
        damaged(ADDED, bad_book, size + k);
        memset(bad_book, byte, k);
        memcpy(bad_book + k, book, size);
        damaged(ADDED, bad_book, size + k);
    }
}

static void book_behind_book(void) {
    static const u8 empty[] = {0, 0, 6, 0, 0, 0};
    memcpy(bad_book, book, size);
    memcpy(bad_book + size, book, size);
    damaged(ADDED, bad_book, 2 * size);
    memcpy(bad_book + size, empty, sizeof empty);
    damaged(ADDED, bad_book, size + sizeof empty);
    memcpy(bad_book, empty, sizeof empty);
    memcpy(bad_book + sizeof empty, book, size);
    damaged(ADDED, bad_book, size + sizeof empty);
}

static void changed_at_random(void) {
    for (int k = 0; k < 20; k++) {
        memcpy(bad_book, book, size);
        for (usize i = any() % 3 + 1; i; i--)
            bad_book[any() % size] = (u8)any();
        perhaps_damaged(CHANGED, bad_book, size);
    }
}

static void damage_in_every_way(void) {
    offsets_off_by_one();
    count_off_by_one();
    distance_wrong();
    high_bytes_set();
    offsets_exchanged();
    one_entry_fewer();
    one_entry_more();
    gaps();
    bytes_lost();
    entry_in_entry();
    entries_overlapping();
    kinds_wrong();
    bits_flipped();
    frame_lengths_wrong();
    entries_without_frame();
    cut_off();
    bytes_added();
    book_behind_book();
    changed_at_random();
}

#endif
