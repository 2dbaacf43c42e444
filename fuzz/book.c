/* The book against that in plain C. The input is a kind, a frame's length in two bytes, the frame, and then the book. */
#include "../tests/book_in_c.h"
#include "fenced.h"
#include "mend.h"

static void try_line(const u8 *book, usize n, u32 number, usize m) {
    static u8 in_c[LINES_ROOM];
    u8 *room = fenced(1, m, SOME);
    struct bolsterweft_count c = book_line_in_c(book, n, number, in_c, m);
    agree_written(bolsterweft_book_line(book, n, number, room, m), room, c, in_c, m, "an entry's line");
}

static void try_list(const u8 *book, usize n, usize m) {
    static u8 in_c[LINES_ROOM];
    u8 *room = fenced(1, m, SOME);
    struct bolsterweft_count c = book_list_in_c(book, n, in_c, m);
    agree_written(bolsterweft_book_list(book, n, room, m), room, c, in_c, m, "the book's lines");
}

static void try_add(const u8 *book, usize n, u32 kind, const u8 *frame, usize k, usize m) {
    static u8 in_c[MOST_BYTES + 2048];
    u8 *room = fenced(1, m, SOME);
    struct bolsterweft_count c = book_add_in_c(book, n, kind, frame, k, in_c, m);
    agree_written(bolsterweft_book_add(book, n, kind, frame, k, room, m), room, c, in_c, m, "an entry added");
}

static void try_entry(const u8 *book, usize n, u32 number) {
    struct bolsterweft_entry e = bolsterweft_book_entry(book, n, number), c = book_entry_in_c(book, n, number);
    agree(e.refusal == c.refusal && e.kind == c.kind && e.offset == c.offset && e.frame_start == c.frame_start && e.frame_length == c.frame_length, "an entry");
    try_line(book, n, number, 8 * n + 40);
}

static void try_book(const u8 *book, usize n, u32 kind, const u8 *frame, usize k) {
    struct bolsterweft_entries o = bolsterweft_book_open(book, n), c = book_open_in_c(book, n);
    agree(o.refusal == c.refusal && o.count == c.count, "opening");
    for (u32 i = 0; i <= c.count && i < 5; i++)
        try_entry(book, n, i);
    try_entry(book, n, (u32)c.count);
    try_entry(book, n, 65536);
    try_list(book, n, 8 * n + 40 * c.count);
    static u8 lines[LINES_ROOM];
    usize length = book_list_in_c(book, n, lines, LINES_ROOM).length;
    try_list(book, n, length);
    if (length)
        try_list(book, n, length - 1);
    try_add(book, n, kind, frame, k, n + k + 7);
    try_add(book, n, kind, frame, k, n + k + 6);
    try_add(book, n, kind + 256, frame, k, n + k + 7);
}

int LLVMFuzzerTestOneInput(const u8 *data, usize size) {
    if (size < 3)
        return 0;
    usize k = u16_at(data + 1) % 1100;
    if (k > size - 3)
        k = size - 3;
    for (fence = 0; fence < SIDES; fence++) {
        const u8 *frame = fenced_copy(2, data + 3, k), *book = fenced_copy(0, data + 3 + k, size - 3 - k);
        try_book(book, size - 3 - k, data[0] % 8, frame, k);
    }
    return 0;
}

usize LLVMFuzzerMutate(u8 *data, usize size, usize most);

/* Makes of bytes a book: entries as long as their frames claim to be, and their trailer. Its length. */
static usize mend_book(u8 *s, usize n, usize most, u32 seed) {
    static u32 offsets[MOST_ENTRIES];
    usize at = 0, count = 0;
    while (count < MOST_ENTRIES && n - at > 3) {
        if (!known(s[at]))
            s[at] = s[at] % 5 + 1;
        usize k = mend(s[at], s + at + 3, n - at - 3);
        if (!k)
            break;
        put_low_first(s + at + 1, 2, k);
        offsets[count++] = (u32)at;
        at += 3 + k;
    }
    while (count && at + 4 * count + 6 > most)
        at = offsets[--count];
    if (most < 6)
        return n;
    u8 *p = s + at;
    for (usize i = 0; i < count; i++)
        p = put_low_first(p, 4, offsets[i] + (seed % 64 == i + 1));
    p = put_low_first(p, 2, count);
    p = put_low_first(p, 4, 4 * count + 6 + (seed % 61 == 0));
    return (usize)(p - s);
}

/* Half of the changed inputs have their frames and their book mended; now and then an offset or the distance is one too large. */
usize LLVMFuzzerCustomMutator(u8 *data, usize size, usize most, unsigned seed) {
    size = LLVMFuzzerMutate(data, size, most);
    if (size < 4 || seed % 2)
        return size;
    usize room = size - 3, k = mend(data[0] % 8, data + 3, room);
    if (k)
        put_low_first(data + 1, 2, k);
    else
        k = u16_at(data + 1) % 1100 < room ? u16_at(data + 1) % 1100 : room;
    return 3 + k + mend_book(data + 3 + k, room - k, most - 3 - k, seed / 2);
}
