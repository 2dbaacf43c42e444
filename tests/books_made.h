/* Books made in plain C, for the tests and the benchmarks: entries put down one behind the other, and a trailer. Nothing is tested and
   no limit heeded, so that a book can be made that is none. */
#ifndef BOOKS_MADE_H
#define BOOKS_MADE_H

#include "book_in_c.h"
#include "longest.h"
#include "captures_made.h"

/* A few bytes and entries more than a book may have. */
enum { DRAFT_BYTES = 70000, DRAFT_ENTRIES = 1010, FRAME_BYTES = 1100 };

/* A frame with its kind. */
struct piece {
    u8 kind;
    usize length;
    u8 frame[FRAME_BYTES];
};

/* Frames for entries, of a kind or, for 0, of any. */

static inline u8 any_kind(void) { return (u8)(any() % 5 + 1); }

static inline void make_message(struct piece *e, u8 kind) {
    e->kind = kind ? kind : any_kind();
    e->length = message(e->frame, e->kind);
}

static inline void make_longest(struct piece *e, u8 kind) {
    e->kind = kind ? kind : any_kind();
    e->length = longest(e->frame, e->kind, 0);
}

/* A book that is being made: its entries, and the offsets that its trailer is to have. */
struct draft {
    usize end;
    usize count;
    u8 entries[DRAFT_BYTES];
    usize offsets[DRAFT_ENTRIES];
};

static void begin_draft(struct draft *d) {
    d->end = 0;
    d->count = 0;
}

static void put_piece(struct draft *d, const struct piece *e) {
    d->offsets[d->count++] = d->end;
    u8 *p = put_low_first(d->entries + d->end, 1, e->kind);
    p = put_copy(put_low_first(p, 2, e->length), e->frame, e->length);
    d->end = (usize)(p - d->entries);
}

/* How long the book will be. */
static usize draft_size(const struct draft *d) { return d->end + 4 * d->count + 6; }

/* Writes the book and answers its length. */
static usize bind_draft(const struct draft *d, u8 *book) {
    u8 *p = put_copy(book, d->entries, d->end);
    for (usize i = 0; i < d->count; i++)
        p = put_low_first(p, 4, d->offsets[i]);
    p = put_low_first(p, 2, d->count);
    p = put_low_first(p, 4, 4 * d->count + 6);
    return (usize)(p - book);
}

/* A Nest command that takes this number of bytes of a book, its offset among them: from 16 to 1,040. */
enum { LEAST_TAKEN = 16, MOST_TAKEN = LEAST_TAKEN + 1024 };

static inline void make_filler(struct piece *e, usize taken) {
    e->kind = 2;
    e->length = made_nest(e->frame, 2, taken - LEAST_TAKEN, (u8)taken, 0);
}

/* Fills the draft with pieces as they are made, and with fillers at its end, so far that the book has the most entries or exactly so
   many bytes with one piece more, which is left in e. A filler that is left there could be a byte longer. */
static inline void nearly_fill(struct draft *d, usize bytes, void make(struct piece *e, u8 kind), u8 kind, struct piece *e) {
    for (make(e, kind); d->count + 1 < MOST_ENTRIES && draft_size(d) + e->length + 7 + LEAST_TAKEN <= bytes; make(e, kind))
        put_piece(d, e);
    if (d->count + 1 == MOST_ENTRIES)
        return;
    if (draft_size(d) + MOST_TAKEN <= bytes) {
        make_filler(e, 2 * LEAST_TAKEN);
        put_piece(d, e);
    }
    make_filler(e, bytes - draft_size(d));
}

#endif
