/* The proved lines, the next line, listings and books by a register map against those in plain C: captures of the pump's messages, with
   data that split and data that do not; maps of any length and with any bytes; rooms too short, just long enough and longer. What is
   written is compared byte for byte; the bytes before and behind the room, and what was lent to be read, are looked at too.

   by_map SEED: prints the seed, each difference, and `N passed, M failed`: a test is a property, over all captures. */
#include "book_in_c.h"
#include "lent.h"
#include "longest.h"
#include "pairs_made.h"

enum { CAPTURES = 3000, LONG_CAPTURES = 12, LISTED = 40, SHOWN = 96, NIBE = 4 };

enum property { LINE, NEXT, LISTING, BOOK_LINE, BOOK_LIST, SHORT_ROOM, EXACT_ROOM, SPLIT, NO_MAP, NOTHING_ELSE, PROPERTIES };

static const char *const properties[PROPERTIES] = {
    "the line of a frame", "the next line", "the listing", "the line of an entry", "the lines of a book", "a room that is too short",
    "a room that is just long enough", "a split line goes on behind 01's", "the empty map is no sheet", "nothing else is written",
};

static unsigned long tried[PROPERTIES], wrong[PROPERTIES];
static u8 input[BOLSTERWEFT_INPUT_MOST], copy[sizeof input], map_copy[REGISTERS], in_c[BOLSTERWEFT_LIST_ROOM + 64], plain[sizeof in_c];
static struct map map;
static u32 registers[LISTED];

static void expect(enum property p, int right, const u8 *s, usize n) {
    tried[p]++;
    if (right || wrong[p]++)
        return;
    printf("%s: wrong, by a map of %zu bytes, in %zu bytes:", properties[p], map.length, n);
    for (usize i = 0; i < n && i < SHOWN; i++)
        printf(" %02X", s[i]);
    printf("\n");
}

/* Up to 40 registers, near the map's front or anywhere, mostly with a type; a map that ends behind them, among them, or at once. */
static void draw_map(void) {
    u32 among = any() % 8 ? 300 : REGISTERS;
    memset(map_bytes, 0, sizeof map_bytes);
    for (usize i = 0; i < LISTED; i++) {
        registers[i] = (u32)(any() % among);
        map_bytes[registers[i]] = (u8)(any() % 12 ? any() % 24 + 1 : any());
    }
    map = (struct map){map_bytes, any() % 12 == 0 ? 0 : any() % 6 == 0 ? any() % among : among};
    memcpy(map_copy, map_bytes, sizeof map_bytes);
}

/* Pairs of the map's registers, under a command that is split or not, or one of them as a value; cut, or with bytes more, now and then. */
static usize pumped(u8 *f) {
    static const u8 commands[] = {0x60, 0x62, 0x68, 0x68, 0x6A, 0x6B};
    u8 data[255], command = commands[any() % 6];
    usize n = 0, pairs = command > 0x68 ? 1 : any() % 4 ? any() % 6 : 85;
    for (usize i = 0; i < pairs && n + 6 <= sizeof data; i++)
        n += put_pair(data + n, map, registers[any() % LISTED]);
    if (any() % 8 == 0)
        n = any() % (n + 1);
    else if (any() % 8 == 0 && n < sizeof data)
        data[n++] = (u8)any();
    return nibe_of(f, command, data, n, 0);
}

static usize fill(u8 *s, usize most) {
    static u8 f[300];
    usize n = 0;
    for (;;) {
        usize k = any() % 6 ? pumped(f) : any() % 40 ? message(f, NIBE) : longest(f, NIBE, any() % 2);
        if (n + k > most)
            return n;
        memcpy(s + n, f, k);
        n += k;
    }
}

static int same_count(struct bolsterweft_count a, struct bolsterweft_count b) { return a.refusal == b.refusal && a.length == b.length; }

/* A room of m bytes in which C wrote n: whether the other side wrote the same, and nothing else. */
static void compare_room(enum property p, int same_answer, const u8 *room, usize n, usize m, const u8 *s, usize read) {
    expect(p, same_answer && !memcmp(room, in_c, n), s, read);
    expect(NOTHING_ELSE, only_written(n, m) && !memcmp(s, copy, read) && !memcmp(map_bytes, map_copy, sizeof map_bytes), s, read);
}

static struct bolsterweft_count try_line(const u8 *f, usize n, usize at, usize m) {
    u8 *room = lend_room(m);
    memcpy(copy, f, n);
    struct bolsterweft_count r = bolsterweft_line_with(NIBE, f, n, at, map.bytes, map.length, room, m),
                             c = line_by_map_in_c(NIBE, f, n, at, map, in_c, m);
    compare_room(LINE, same_count(r, c), room, c.length, m, f, n);
    return r;
}

static struct bolsterweft_listed try_next(const u8 *s, usize n, usize place, usize m) {
    u8 *room = lend_room(m);
    memcpy(copy, s, n);
    struct bolsterweft_listed r = bolsterweft_line_next_with(NIBE, s, n, place, map.bytes, map.length, room, m),
                              c = next_by_map_in_c(NIBE, s, n, place, map, in_c, m);
    int same = r.refusal == c.refusal && r.start == c.start && r.length == c.length && r.line_length == c.line_length;
    compare_room(NEXT, same, room, c.line_length, m, s, n);
    return r;
}

static struct bolsterweft_count try_list(usize n, usize m) {
    u8 *room = lend_room(m);
    memcpy(copy, input, n);
    struct bolsterweft_count r = bolsterweft_list_with(input, n, map.bytes, map.length, room, m), c = list_call_by_map_in_c(input, n, map, in_c, m);
    compare_room(LISTING, same_count(r, c), room, c.length, m, input, n);
    return r;
}

static struct bolsterweft_count try_book_line(const u8 *s, usize n, u32 number, usize m) {
    u8 *room = lend_room(m);
    memcpy(copy, s, n);
    struct bolsterweft_count r = bolsterweft_book_line_with(s, n, number, map.bytes, map.length, room, m),
                             c = book_line_by_map_in_c(s, n, number, map, in_c, m);
    compare_room(BOOK_LINE, same_count(r, c), room, c.length, m, s, n);
    return r;
}

static struct bolsterweft_count try_book_list(const u8 *s, usize n, usize m) {
    u8 *room = lend_room(m);
    memcpy(copy, s, n);
    struct bolsterweft_count r = bolsterweft_book_list_with(s, n, map.bytes, map.length, room, m), c = book_list_by_map_in_c(s, n, map, in_c, m);
    compare_room(BOOK_LIST, same_count(r, c), room, c.length, m, s, n);
    return r;
}

/* The line that was written last, of a frame at f: without a map it is document 01's, and a split one goes on with `values` where that ends. */
static void try_against_01(const u8 *f, usize n, usize at, usize length) {
    static const char values[] = ",\"values\":[";
    const u8 *line = lent + LENT_GUARD;
    usize by_01 = line_in_c(NIBE, f, n, at, plain, sizeof plain).length;
    if (map.length == 0)
        expect(NO_MAP, length == by_01 && !memcmp(line, plain, by_01), f, n);
    else if ((f[1] == 0x62 || f[1] == 0x68) && length != by_01)
        expect(SPLIT, length > by_01 && !memcmp(line, plain, by_01 - 2) && !memcmp(line + by_01 - 2, values, sizeof values - 1), f, n);
}

/* The frames of a capture: each line in all rooms. */
static void try_lines(const u8 *s, usize n) {
    for (usize place = 0;;) {
        struct bolsterweft_listed r = try_next(s, n, place, BOLSTERWEFT_LINE_ROOM),
                                  c = next_by_map_in_c(NIBE, s, n, place, map, in_c, sizeof in_c);
        if (r.refusal || c.refusal)
            return;
        expect(EXACT_ROOM, !try_next(s, n, place, c.line_length).refusal, s, n);
        expect(SHORT_ROOM, try_next(s, n, place, c.line_length - 1).refusal == 4, s, n);
        usize at = any() % 70000, length = try_line(s + c.start, c.length, at, BOLSTERWEFT_LINE_ROOM).length;
        try_against_01(s + c.start, c.length, at, length);
        expect(EXACT_ROOM, try_line(s + c.start, c.length, at, length).length == length, s, n);
        expect(SHORT_ROOM, try_line(s + c.start, c.length, at, length - 1).refusal == 4, s, n);
        place = c.start + c.length;
    }
}

static void try_listings(usize n) {
    input[0] = '0' + NIBE;
    input[1] = '\n';
    usize length = list_by_map_in_c(input, n + 2, map, in_c);
    expect(EXACT_ROOM, try_list(n + 2, length).length == length, input, n + 2);
    expect(SHORT_ROOM, try_list(n + 2, length - 1).refusal == 4, input, n + 2);
    try_list(n + 2, BOLSTERWEFT_LIST_ROOM);
}

/* A book of some of these messages. */
static void try_books(void) {
    static u8 books[2][4096], f[300];
    static const u8 empty[] = {0, 0, 6, 0, 0, 0};
    usize n = sizeof empty, count = any() % 7;
    memcpy(books[0], empty, sizeof empty);
    for (usize i = 0; i < count; i++) {
        usize k = pumped(f);
        n = book_add_in_c(books[i % 2], n, NIBE, f, k, books[(i + 1) % 2], sizeof books[0]).length;
    }
    const u8 *book = books[count % 2];
    usize length = book_list_by_map_in_c(book, n, map, in_c, sizeof in_c).length;
    expect(EXACT_ROOM, try_book_list(book, n, length).length == length, book, n);
    if (length)
        expect(SHORT_ROOM, try_book_list(book, n, length - 1).refusal == 4, book, n);
    try_book_list(book, n - any() % 3, BOLSTERWEFT_LIST_ROOM);
    for (u32 i = 0; i <= count; i++) {
        length = try_book_line(book, n, i, BOLSTERWEFT_LINE_ROOM).length;
        try_book_line(book, n, i, length);
        try_book_line(book, n, i, length ? length - 1 : 0);
    }
}

int main(int count, char **words) {
    unsigned passed = 0, failed = 0;
    unsigned long comparisons = 0;
    begin(count, words);
    for (int k = 0; k < CAPTURES + LONG_CAPTURES; k++) {
        draw_map();
        usize n = fill(input + 2, k < CAPTURES ? any() % 600 : sizeof input - 2);
        if (k < CAPTURES)
            try_lines(input + 2, n);
        try_listings(n);
        try_books();
    }
    for (int p = 0; p < PROPERTIES; p++) {
        comparisons += tried[p];
        *(tried[p] && !wrong[p] ? &passed : &failed) += 1;
    }
    printf("%lu comparisons\n%u passed, %u failed\n", comparisons, passed, failed);
    return failed ? 1 : 0;
}
