/* The proved capture book against a second one in plain C: books grown entry by entry, read in every way, filled to their limits, and
   damaged in every way; what is written is compared byte for byte, what is not to be written is looked at too.

   book SEED: prints the seed, each difference, and `N passed, M failed`: a test is a property, over all books. */
#include "book_damages.h"

enum { BOOKS = 2000, LARGE_BOOKS = 20, DAMAGED_BOOKS = 400, FULL_BOOKS = 4, SCRAPS = 4000 };

static unsigned long books, entries_read;

/* The books that document 01 names */

static const u8 empty[] = {0, 0, 6, 0, 0, 0};
static const u8 reset[] = {0xD5, 0xAA, 0x96, 0xFF, 0, 0, 0, 0xA3, 0x4B};
static const u8 reset_book[] = {2, 9, 0, 0xD5, 0xAA, 0x96, 0xFF, 0, 0, 0, 0xA3, 0x4B, 0, 0, 0, 0, 1, 0, 10, 0, 0, 0};
static const char reset_line[] = "{\"at\":0,\"len\":9,\"msg\":\"command\",\"id\":255,\"data\":\"\"}\n";

static void try_empty_book(void) {
    struct bolsterweft_entries o = try_open(EMPTY_BOOK, empty, sizeof empty);
    expect(EMPTY_BOOK, !o.refusal && o.count == 0, empty, sizeof empty);
    expect(EMPTY_BOOK, try_entry(EMPTY_BOOK, empty, sizeof empty, 0).refusal == 3, empty, sizeof empty);
    expect(EMPTY_BOOK, try_line(EMPTY_BOOK, empty, sizeof empty, 0, 99).refusal == 3, empty, sizeof empty);
    for (usize m = 0; m < 3; m++) {
        struct bolsterweft_count w = try_list(EMPTY_BOOK, empty, sizeof empty, m);
        expect(EMPTY_BOOK, !w.refusal && w.length == 0, empty, sizeof empty);
    }
    begin_draft(&good);
    expect(EMPTY_BOOK, bind_draft(&good, book) == sizeof empty && memcmp(book, empty, sizeof empty) == 0, book, sizeof empty);
}

static void try_reset_book(void) {
    const usize n = sizeof reset_book, line = sizeof reset_line - 1;
    struct bolsterweft_count w = try_add(RESET_BOOK, empty, sizeof empty, 2, reset, sizeof reset, n);
    expect(RESET_BOOK, n == 22 && w.length == n && memcmp(room, reset_book, n) == 0, room, n);
    struct bolsterweft_entries o = try_open(RESET_BOOK, reset_book, n);
    expect(RESET_BOOK, !o.refusal && o.count == 1, reset_book, n);
    struct bolsterweft_entry e = try_entry(RESET_BOOK, reset_book, n, 0);
    expect(RESET_BOOK, !e.refusal && e.kind == 2 && e.offset == 0 && e.frame_start == 3 && e.frame_length == 9, reset_book, n);
    w = try_line(RESET_BOOK, reset_book, n, 0, 99);
    expect(RESET_BOOK, !w.refusal && w.length == line && memcmp(room, reset_line, line) == 0, reset_book, n);
    w = try_list(RESET_BOOK, reset_book, n, 99);
    expect(RESET_BOOK, !w.refusal && w.length == line && memcmp(room, reset_line, line) == 0, reset_book, n);
}

/* Frames of any length, besides those of books_made.h */

static void make_nest(struct piece *e, u8 kind, usize n) {
    e->kind = kind;
    e->length = made_nest(e->frame, kind, n, (u8)any(), 0);
}

/* With fields of any length and all the characters that are allowed. */
static usize any_homiq(u8 *f) {
    static const usize most[] = {8, 16, 4, 4};
    char fields[64];
    usize at = 0;
    for (int k = 0; k < 4; k++) {
        for (usize i = any() % most[k] + 1; i; i--) {
            do
                fields[at] = (char)(0x21 + any() % 94);
            while (fields[at] == ';' || fields[at] == '<' || fields[at] == '>');
            at++;
        }
        fields[at++] = ';';
    }
    snprintf(fields + at, 20, "%u;%c", (unsigned)(any() % 512), any() % 2 ? 's' : 'a');
    return made_homiq(f, fields, 0);
}

static usize any_length(u8 *f, u8 kind) {
    static const u8 commands[] = {0x60, 0x62, 0x68, 0x69, 0x6A, 0x6B, 0x6C};
    switch (kind) {
    case 1:
        return made_link(f, any() % 122 + 1, (u8)any(), 0);
    case 2:
    case 3:
        return made_nest(f, kind, any() % 4 ? any() % 100 : any() % 1025, (u8)any(), 0);
    case 4:
        return made_nibe(f, commands[any() % 7], any() % 256, (u8)any(), 0);
    default:
        return any_homiq(f);
    }
}

static void make_of_any_length(struct piece *e, u8 kind) {
    e->kind = kind ? kind : any_kind();
    e->length = any_length(e->frame, e->kind);
}

static void make_any(struct piece *e, u8 kind) { (any() % 4 ? make_message : make_of_any_length)(e, kind); }

/* The good book, grown */

static void begin_book(void) {
    begin_draft(&good);
    size = bind_draft(&good, book);
}

/* Adds an entry. What is written is also what the draft, with one piece more, is bound to. */
static void grow(enum property p, const struct piece *e) {
    struct bolsterweft_count w = try_add(p, book, size, e->kind, e->frame, e->length, size + e->length + 7 + any() % 40);
    put_piece(&good, e);
    size = bind_draft(&good, book);
    expect(p, !w.refusal && w.length == size && memcmp(room, book, size) == 0, book, size);
    books++;
}

static void grow_by(usize entries, void make(struct piece *e, u8 kind)) {
    struct piece e;
    while (entries--) {
        make(&e, 0);
        grow(GROWN, &e);
    }
}

/* The good book, read */

static void opens(enum property p) {
    struct bolsterweft_entries o = try_open(p, book, size);
    expect(p, !o.refusal && o.count == good.count, book, size);
}

static void reads_entry(enum property p, u32 number) {
    usize at = good.offsets[number];
    struct bolsterweft_entry e = try_entry(p, book, size, number);
    expect(p, !e.refusal && e.kind == good.entries[at] && e.offset == at && e.frame_start == at + 3 && e.frame_start + e.frame_length == entry_end(number), book, size);
    entries_read++;
}

static void reads_every_entry(void) {
    for (u32 i = 0; i < good.count; i++)
        reads_entry(ENTRIES, i);
}

/* Every line, and the listing, which is the lines put together. */
static void reads_every_line(void) {
    static u8 together[LINES_ROOM];
    usize n = 0;
    for (u32 i = 0; i < good.count; i++) {
        struct bolsterweft_count w = try_line(LINES, book, size, i, LINE_ROOM);
        expect(LINES, !w.refusal && w.length, book, size);
        put_copy(together + n, room, w.length);
        n += w.length;
    }
    struct bolsterweft_count w = try_list(LISTED, book, size, n + any() % 40);
    expect(LISTED, !w.refusal && w.length == n && memcmp(room, together, n) == 0, book, size);
}

/* Whether n bytes are written in a room just long enough, and none in one that is a byte too short. */
static int exactly(struct bolsterweft_count w, struct bolsterweft_count short_of_it, usize n) {
    return !w.refusal && w.length == n && short_of_it.refusal == 4 && !short_of_it.length;
}

static void try_rooms_for_line(enum property p, u32 number) {
    usize n = book_line_in_c(book, size, number, in_c, LINE_ROOM).length;
    expect(p, exactly(try_line(p, book, size, number, n), try_line(p, book, size, number, n - 1), n), book, size);
    expect(p, try_line(p, book, size, number, any() % n).refusal == 4, book, size);
}

static void try_rooms_for_list(enum property p) {
    usize n = book_list_in_c(book, size, in_c, ROOM_BYTES).length, ample = 8 * size + 40 * good.count;
    expect(p, exactly(try_list(p, book, size, n), try_list(p, book, size, n - 1), n), book, size);
    expect(p, try_list(p, book, size, any() % n).refusal == 4, book, size);
    for (usize m = ample - 1; m <= ample + 1; m++)
        expect(p, !try_list(p, book, size, m).refusal, book, size);
}

static void try_rooms_for_add(enum property p, const struct piece *e) {
    usize n = size + e->length + 7;
    struct bolsterweft_count w = try_add(p, book, size, e->kind, e->frame, e->length, n),
                   s = try_add(p, book, size, e->kind, e->frame, e->length, n - 1);
    expect(p, exactly(w, s, n), book, size);
    expect(p, try_add(p, book, size, e->kind, e->frame, e->length, any() % n).refusal == 4, book, size);
}

static void try_rooms(void) {
    struct piece e;
    make_any(&e, 0);
    try_rooms_for_add(ROOMS, &e);
    if (good.count) {
        try_rooms_for_line(ROOMS, (u32)(any() % good.count));
        try_rooms_for_list(ROOMS);
    }
}

/* Of several causes the one that is reported. Each case has the later causes too: a bad frame and no room for an unknown kind, and so on. */

static void refuses_add(u32 refusal, u32 kind, const u8 *f, usize k, usize m) {
    expect(ORDER, try_add(ORDER, book, size, kind, f, k, m).refusal == refusal, book, size);
}

static void try_unknown_kinds(const struct piece *e) {
    const u32 unknown[] = {0, 6, 255, 256 + e->kind, 65536 + e->kind, wide(e->kind), unknown_kind()};
    for (usize i = 0; i < sizeof unknown / sizeof *unknown; i++) {
        refuses_add(2, unknown[i], e->frame, e->length, size + e->length + 7);
        refuses_add(2, unknown[i], e->frame, e->length - 1, any() % 20);
    }
}

static void try_wrong_frames(const struct piece *e) {
    u8 f[FRAME_BYTES];
    usize ample = size + e->length + 99;
    memcpy(f, e->frame, e->length);
    f[e->length] = (u8)any();
    for (u8 kind = 1; kind <= 5; kind++)
        if (kind != e->kind)
            refuses_add(5, kind, f, e->length, any() % 2 ? ample : 0);
    refuses_add(5, e->kind, f, e->length + 1, any() % 2 ? ample : 0);
    refuses_add(5, e->kind, f, e->length - 1, any() % 2 ? ample : 0);
    refuses_add(5, e->kind, f, 0, any() % 2 ? ample : 0);
    f[0] ^= 1;
    refuses_add(5, e->kind, f, e->length, any() % 2 ? ample : 0);
}

static void try_numbers_beyond(void) {
    const u32 count = (u32)good.count,
              numbers[] = {count, count + 1, count + (u32)(any() % 2000), 65536 + (u32)(any() % 3), wide(0), wide(count / 2), 0xFFFFFFFF};
    for (usize i = 0; i < sizeof numbers / sizeof *numbers; i++) {
        expect(ORDER, try_entry(ORDER, book, size, numbers[i]).refusal == 3, book, size);
        expect(ORDER, try_line(ORDER, book, size, numbers[i], any() % 2 ? 99 : 0).refusal == 3, book, size);
    }
}

static void try_order(void) {
    struct piece e;
    make_any(&e, 0);
    try_unknown_kinds(&e);
    try_wrong_frames(&e);
    try_numbers_beyond();
    refuses_add(4, e.kind, e.frame, e.length, 0);
}

static void try_books(void) {
    for (int k = 0; k < BOOKS; k++) {
        begin_book();
        opens(OPENED);
        for (usize entries = any() % 13; entries; entries--) {
            grow_by(1, make_any);
            opens(OPENED);
        }
        reads_every_entry();
        reads_every_line();
        try_rooms();
        try_order();
    }
}

static void try_large_books(void) {
    for (int k = 0; k < LARGE_BOOKS; k++) {
        begin_book();
        grow_by(30 + any() % 60, k % 2 ? make_message : make_any);
        opens(OPENED);
        reads_every_entry();
        reads_every_line();
        try_rooms();
        offsets_off_by_one();
        gaps();
        changed_at_random();
    }
}

static void try_damaged_books(void) {
    for (int k = 0; k < DAMAGED_BOOKS; k++) {
        begin_book();
        grow_by(any() % 7, k % 4 ? make_message : make_any);
        damage_in_every_way();
    }
}

/* A few bytes, many of them with the end of a book. */
static void try_scraps(void) {
    static const u8 often[] = {0, 0, 0, 1, 2, 4, 5, 6, 10, 0xC0, 0x69, '#'};
    for (int k = 0; k < SCRAPS; k++) {
        usize n = any() % 24;
        for (usize i = 0; i < n; i++)
            bad_book[i] = any() % 8 ? often[any() % sizeof often] : (u8)any();
        if (any() % 2 && n >= 6) {
            usize count = any() % 4;
            put_low_first(put_low_first(bad_book + n - 6, 2, count), 4, 4 * count + 6);
        }
        perhaps_damaged(FEW_BYTES, bad_book, n);
    }
    for (usize n = 0; n < sizeof empty; n++)
        damaged(FEW_BYTES, empty, n);
}

/* The limits. In a full book a few entries stand for all. */

static void reads_some(enum property p) {
    u32 some[] = {0, 1, (u32)(any() % good.count), (u32)good.count - 1};
    opens(p);
    for (usize i = 0; i < sizeof some / sizeof *some; i++) {
        reads_entry(p, some[i]);
        try_rooms_for_line(p, some[i]);
    }
    try_rooms_for_list(p);
    expect(p, try_entry(p, book, size, (u32)good.count).refusal == 3, book, size);
}

/* Whatever is added to a full book is refused: a kind that is not known first, then with 5, whatever the room. */
static void is_full(enum property p) {
    struct piece e;
    for (u8 kind = 1; kind <= 5; kind++) {
        make_message(&e, kind);
        expect(p, try_add(p, book, size, kind, e.frame, e.length, size + e.length + 7).refusal == 5, book, size);
        expect(p, try_add(p, book, size, kind, e.frame, e.length, 0).refusal == 5, book, size);
    }
    expect(p, try_add(p, book, size, 6, e.frame, e.length, 0).refusal == 2, book, size);
}

static void try_most_entries(void) {
    struct piece e;
    begin_book();
    while (good.count < MOST_ENTRIES) {
        make_message(&e, 0);
        grow(MOST_MANY, &e);
    }
    reads_some(MOST_MANY);
    is_full(MOST_MANY);
    changed_at_random();
    make_message(&e, 0);
    put_piece(&good, &e);
    damaged(BEYOND, bad_book, bind_draft(&good, bad_book));
}

/* With a last entry up to 65,536 bytes; one that is a byte longer is refused. */
static void try_most_bytes(void make(struct piece *e, u8 kind), u8 kind) {
    struct piece e, longer;
    begin_draft(&good);
    nearly_fill(&good, MOST_BYTES, make, kind, &e);
    size = bind_draft(&good, book);
    make_nest(&longer, 2, MOST_BYTES - size - LEAST_TAKEN + 1);
    expect(MOST_LONG, try_add(MOST_LONG, book, size, longer.kind, longer.frame, longer.length, MOST_BYTES + 9).refusal == 5, book, size);
    try_rooms_for_add(MOST_LONG, &e);
    grow(MOST_LONG, &e);
    expect(MOST_LONG, size == MOST_BYTES, book, size);
    reads_some(MOST_LONG);
    is_full(MOST_LONG);
    changed_at_random();
    good.count--;
    good.end = good.offsets[good.count];
    put_piece(&good, &longer);
    damaged(BEYOND, bad_book, bind_draft(&good, bad_book));
}

/* The most entries and the most bytes in one book. */
static void try_most_of_both(void) {
    struct piece e;
    begin_draft(&good);
    while (good.count + 1 < MOST_ENTRIES) {
        usize left = MOST_ENTRIES - good.count, fair = (MOST_BYTES - draft_size(&good)) / left;
        make_filler(&e, left > 2 ? fair + any() % 9 - 4 : fair);
        put_piece(&good, &e);
    }
    size = bind_draft(&good, book);
    make_filler(&e, MOST_BYTES - size);
    grow(MOST_LONG, &e);
    expect(MOST_LONG, good.count == MOST_ENTRIES && size == MOST_BYTES, book, size);
    reads_some(MOST_MANY);
    is_full(MOST_MANY);
}

static usize shortest(u8 *f, u8 kind) {
    switch (kind) {
    case 1:
        return (usize)snprintf((char *)f, 20, "#E1\r");
    case 2:
    case 3:
        return made_nest(f, kind, 0, (u8)any(), 0);
    case 4:
        return made_nibe(f, 0x60, 0, 0, 0);
    default:
        return made_homiq(f, "A;0;1;2;1;a", 0);
    }
}

static void try_longest_and_shortest(void) {
    struct piece e;
    begin_book();
    for (u8 kind = 1; kind <= 5; kind++) {
        e.kind = kind;
        e.length = longest(e.frame, kind, 0);
        grow(FRAMES, &e);
        e.length = shortest(e.frame, kind);
        grow(FRAMES, &e);
    }
    for (u32 i = 0; i < good.count; i++) {
        reads_entry(FRAMES, i);
        try_rooms_for_line(FRAMES, i);
    }
    try_rooms_for_list(FRAMES);
}

/* Nest's payload may have 1,024 bytes; a frame that has one more, laid out as the others are, is none. */
static void try_frame_too_long(u8 kind) {
    static u8 payload[1025];
    struct piece e;
    begin_book();
    make_nest(&e, kind, 1024);
    grow(FRAMES, &e);
    e.length = nest_of(e.frame, kind, 1, payload, sizeof payload, 0);
    expect(FRAMES, try_add(FRAMES, book, size, kind, e.frame, e.length, size + e.length + 7).refusal == 5, book, size);
    put_piece(&good, &e);
    damaged(FRAMES, bad_book, bind_draft(&good, bad_book));
}

static void try_limits(void) {
    try_most_entries();
    /* not for Homiq alone: 1,000 of its longest frames are fewer bytes */
    for (u8 kind = 0; kind <= 4; kind++)
        try_most_bytes(make_longest, kind);
    for (int k = 0; k < FULL_BOOKS; k++)
        try_most_bytes(make_of_any_length, 0);
    try_most_of_both();
    try_longest_and_shortest();
    try_frame_too_long(2);
    try_frame_too_long(3);
}

int main(int count, char **words) {
    begin(count, words);
    try_empty_book();
    try_reset_book();
    try_limits();
    try_books();
    try_large_books();
    try_scraps();
    try_damaged_books();
    printf("%lu books, %lu entries read, %lu damaged books\n", books, entries_read, damaged_books);
    return finish();
}
