/* The proved lines, the next line, the listing and the acknowledgement against those in plain C, on the captures of captures_made.h: in
   rooms too short, just long enough and longer. A line in plain C, with the kind in place of `at` and `len`, is a command, whose frame
   must be the one that the line is of. What is written is compared byte for byte; the bytes before and behind the room, and
   what was lent to be read, are looked at too.

   lines SEED: prints the seed, each difference, and `N passed, M failed`: a test is a property of a kind, over all captures. */
#include "captures_made.h"
#include "lent.h"
#include "lines_in_c.h"
#include "longest.h"

enum { CAPTURES = 1500, LONG_CAPTURES = 12, SHOWN = 96 };

enum property { LINE, NEXT, LISTING, ACKNOWLEDGEMENT, COMMAND, SHORT_ROOM, EXACT_ROOM, KINDS, PLACES, ORDER, NOTHING_ELSE, PROPERTIES };

static const char *const properties[PROPERTIES] = {
    "the line of a frame", "the next line", "the listing", "the acknowledgement", "a line as a command", "a room that is too short",
    "a room that is just long enough",
    "kinds that are not", "places that are too large", "the order of the refusals", "nothing else is written",
};
static const char *const kinds[] = {"", "Nikobus", "Nest command", "Nest response", "Nibe", "Homiq"};

static unsigned long tried[6][PROPERTIES], wrong[6][PROPERTIES], lines_written;
static u8 capture[BOLSTERWEFT_INPUT_MOST + 2048], copy[sizeof capture], in_c[BOLSTERWEFT_LIST_ROOM + 64];

static void expect(u8 kind, enum property p, int right, const u8 *s, usize n) {
    tried[kind][p]++;
    if (right || wrong[kind][p]++)
        return;
    printf("%s, %s: wrong, in %zu bytes:", kinds[kind], properties[p], n);
    for (usize i = 0; i < n && i < SHOWN; i++)
        printf(" %02X", s[i]);
    printf("\n");
}

static int same_count(struct bolsterweft_count a, struct bolsterweft_count b) { return a.refusal == b.refusal && a.length == b.length; }

static int same_listed(struct bolsterweft_listed a, struct bolsterweft_listed b) {
    return a.refusal == b.refusal && a.start == b.start && a.length == b.length && a.line_length == b.line_length;
}

/* The bytes that are read are the caller's, and stay so. */
static void keep_copy(const u8 *s, usize n) { memcpy(copy, s, n); }

/* A room of m bytes in which C wrote n: whether the other side wrote the same, and nothing else. */
static void compare_room(u8 kind, enum property p, int same_answer, const u8 *room, usize n, usize m, const u8 *s, usize read) {
    expect(kind, p, same_answer && !memcmp(room, in_c, n), s, read);
    expect(kind, NOTHING_ELSE, only_written(n, m) && !memcmp(s, copy, read), s, read);
}

static struct bolsterweft_count try_line(enum property p, u8 of, u32 kind, const u8 *f, usize n, usize at, usize m) {
    u8 *room = lend_room(m);
    keep_copy(f, n);
    struct bolsterweft_count r = bolsterweft_line(kind, f, n, at, room, m), c = line_in_c(kind, f, n, at, in_c, m);
    compare_room(of, p, same_count(r, c), room, c.length, m, f, n);
    return r;
}

static struct bolsterweft_listed try_next(enum property p, u8 of, u32 kind, const u8 *s, usize n, usize place, usize m) {
    u8 *room = lend_room(m);
    keep_copy(s, n);
    struct bolsterweft_listed r = bolsterweft_line_next(kind, s, n, place, room, m), c = line_next_in_c(kind, s, n, place, in_c, m);
    compare_room(of, p, same_listed(r, c), room, c.line_length, m, s, n);
    return r;
}

static struct bolsterweft_count try_list(enum property p, u8 of, const u8 *input, usize n, usize m) {
    u8 *room = lend_room(m);
    keep_copy(input, n);
    struct bolsterweft_count r = bolsterweft_list(input, n, room, m), c = list_call_in_c(input, n, in_c, m);
    compare_room(of, p, same_count(r, c), room, c.length, m, input, n);
    return r;
}

static struct bolsterweft_count try_acknowledge(enum property p, u8 of, const u8 *f, usize n, usize m) {
    u8 *room = lend_room(m);
    keep_copy(f, n);
    struct bolsterweft_count r = bolsterweft_acknowledge(f, n, room, m), c = acknowledge_in_c(f, n, in_c, m);
    compare_room(of, p, same_count(r, c), room, c.length, m, f, n);
    return r;
}

/* The frame f of this command, or a refusal. */
static void try_encode(u8 of, u32 refusal, const u8 *command, usize n, const u8 *f, usize length, usize m) {
    u8 *room = lend_room(m);
    keep_copy(command, n);
    struct bolsterweft_count r = bolsterweft_encode(command, n, room, m), c = {refusal, refusal ? 0 : length};
    memcpy(in_c, f, c.length);
    compare_room(of, COMMAND, same_count(r, c), room, c.length, m, command, n);
}

/* A place of any size: small, at the edges of 8, 16 and 32 bits, and of all bits. */
static usize any_place(void) {
    static const usize edges[] = {255, 256, 65535, 65536, 4294967295u, 4294967296u, 0x100000001u, ~(usize)0 - 1, ~(usize)0};
    return any() % 2 ? any() % 70000 : any() % 2 ? edges[any() % 9] + any() % 2 : (usize)((any() << 40 ^ any()) >> any() % 64);
}

/* A frame at s, of n bytes, with `rest` behind it: its line and its acknowledgement in all rooms; a byte less, a byte more. */
static void try_frame(u8 kind, const u8 *s, usize n, usize rest) {
    usize at = any_place(), length = line_in_c(kind, s, n, at, in_c, sizeof in_c).length;
    expect(kind, EXACT_ROOM, try_line(LINE, kind, kind, s, n, at, length).length == length && length <= BOLSTERWEFT_LINE_ROOM, s, n);
    expect(kind, SHORT_ROOM, try_line(LINE, kind, kind, s, n, at, length - 1).refusal == 4, s, n);
    try_line(LINE, kind, kind, s, n, at, any() % length);
    try_line(LINE, kind, kind, s, n, at, length + any() % 40);
    try_line(LINE, kind, kind, s, n - 1, at, BOLSTERWEFT_LINE_ROOM);
    if (rest)
        try_line(LINE, kind, kind, s, n + 1, at, BOLSTERWEFT_LINE_ROOM);
    expect(kind, KINDS, try_line(KINDS, kind, wide(kind), s, n, at, BOLSTERWEFT_LINE_ROOM).refusal == 2, s, n);
    expect(kind, ORDER, try_line(ORDER, kind, unknown_kind(), s, n - 1, at, 0).refusal == 2, s, n);
    expect(kind, ORDER, try_line(ORDER, kind, kind, s, n - 1, at, 0).refusal == 5, s, n);
    lines_written++;
}

static void try_answer(u8 kind, const u8 *s, usize n, usize rest) {
    usize length = acknowledge_in_c(s, n, in_c, sizeof in_c).length;
    try_acknowledge(ACKNOWLEDGEMENT, kind, s, n, BOLSTERWEFT_ACKNOWLEDGE_ROOM);
    try_acknowledge(ACKNOWLEDGEMENT, kind, s, n - 1, BOLSTERWEFT_ACKNOWLEDGE_ROOM);
    if (rest)
        try_acknowledge(ACKNOWLEDGEMENT, kind, s, n + 1, BOLSTERWEFT_ACKNOWLEDGE_ROOM);
    if (!length)
        return;
    expect(kind, EXACT_ROOM, try_acknowledge(ACKNOWLEDGEMENT, kind, s, n, length).length == length && length <= BOLSTERWEFT_ACKNOWLEDGE_ROOM, s, n);
    expect(kind, SHORT_ROOM, try_acknowledge(ACKNOWLEDGEMENT, kind, s, n, length - 1).refusal == 4, s, n);
    expect(kind, SHORT_ROOM, try_acknowledge(ACKNOWLEDGEMENT, kind, s, n, any() % length).refusal == 4, s, n);
    expect(kind, ORDER, try_acknowledge(ORDER, kind, s, n - 1, 0).refusal == 5, s, n);
}

/* The command of a frame in all rooms; without its end, with another kind, and the line itself, which is no command. */
static void try_command(u8 kind, const u8 *s, usize n) {
    static u8 line[BOLSTERWEFT_LINE_ROOM], command[BOLSTERWEFT_LINE_ROOM];
    usize length = line_in_c(kind, s, n, 0, line, sizeof line).length;
    usize head = (usize)snprintf((char *)command, 40, "{\"at\":0,\"len\":%zu", n);
    usize front = (usize)snprintf((char *)command, 40, "{\"kind\":%u", (unsigned)kind);
    memcpy(command + front, line + head, length - head);
    try_encode(kind, 12, line, length, s, n, n);
    length += front - head;
    try_encode(kind, 0, command, length, s, n, n);
    try_encode(kind, 0, command, length - 1, s, n, n + any() % 40);
    try_encode(kind, 4, command, length, s, n, n - 1);
    try_encode(kind, 4, command, length, s, n, any() % n);
    try_encode(kind, 11, command, length - 2, s, n, 0);
    command[front - 1] = (u8)('1' + kind % 5);
    try_encode(kind, 12, command, length, s, n, 0);
}

/* All lines of a capture, one call after the other, each also in rooms that just suffice and that do not. */
static void try_lines(u8 kind, usize n) {
    usize place = 0;
    for (;;) {
        struct bolsterweft_listed r = try_next(NEXT, kind, kind, capture, n, place, BOLSTERWEFT_LINE_ROOM),
                                  c = line_next_in_c(kind, capture, n, place, in_c, sizeof in_c);
        if (r.refusal || c.refusal)
            break;
        expect(kind, EXACT_ROOM, !try_next(NEXT, kind, kind, capture, n, place, c.line_length).refusal, capture, n);
        expect(kind, SHORT_ROOM, try_next(NEXT, kind, kind, capture, n, place, c.line_length - 1).refusal == 4, capture, n);
        expect(kind, SHORT_ROOM, try_next(NEXT, kind, kind, capture, n, place, any() % c.line_length).refusal == 4, capture, n);
        try_frame(kind, capture + c.start, c.length, n - c.start - c.length);
        try_answer(kind, capture + c.start, c.length, n - c.start - c.length);
        try_command(kind, capture + c.start, c.length);
        place = c.start + c.length;
    }
    for (int k = 0; k < 4; k++)
        try_next(NEXT, kind, kind, capture, n, any() % (n + 1), any() % 2 ? BOLSTERWEFT_LINE_ROOM : any() % 200);
}

/* What is refused before the capture is searched, whatever else is wrong. */
static void try_refusals(u8 kind, usize n) {
    usize beyond = n + 1 + any() % 3;
    expect(kind, KINDS, try_next(KINDS, kind, wide(kind), capture, n, 0, BOLSTERWEFT_LINE_ROOM).refusal == 2, capture, n);
    expect(kind, KINDS, try_next(KINDS, kind, 260, capture, n, 0, 300).refusal == 2, capture, n);
    expect(kind, KINDS, try_next(KINDS, kind, 65540, capture, n, 0, 300).refusal == 2, capture, n);
    expect(kind, PLACES, try_next(PLACES, kind, kind, capture, n, 0x100000001u, 300).refusal == 3, capture, n);
    expect(kind, PLACES, try_next(PLACES, kind, kind, capture, n, ~(usize)0 - any() % 3, 300).refusal == 3, capture, n);
    expect(kind, ORDER, try_next(ORDER, kind, unknown_kind(), capture, n, beyond, 0).refusal == 2, capture, n);
    expect(kind, ORDER, try_next(ORDER, kind, kind, capture, n, beyond, 0).refusal == 3, capture, n);
    expect(kind, ORDER, try_next(ORDER, kind, kind, capture, n, n, 0).refusal == 1, capture, n);
}

/* The input of the listing: the capture with its kind and LF before it, now and then another. */
static usize input_of(u8 kind, u8 *input, usize n) {
    static const u8 bad[][2] = {{'0', '\n'}, {'6', '\n'}, {'4', '\r'}, {4, '\n'}, {' ', '4'}};
    input[0] = (u8)('0' + kind);
    input[1] = '\n';
    if (any() % 40 == 0)
        memcpy(input, bad[any() % 5], 2);
    return any() % 60 ? n + 2 : any() % 3;
}

static void try_listings(u8 kind, usize n) {
    static u8 input[sizeof capture + 2];
    memcpy(input + 2, capture, n);
    n = input_of(kind, input, n);
    usize length = list_in_c(input, n, in_c);
    expect(kind, EXACT_ROOM, try_list(LISTING, kind, input, n, length).length == length, input, n);
    expect(kind, SHORT_ROOM, try_list(LISTING, kind, input, n, length - 1).refusal == 4, input, n);
    try_list(LISTING, kind, input, n, any() % length);
    try_list(LISTING, kind, input, n, 32 * n + 50);
    try_list(LISTING, kind, input, n, 32 * n + 49);
}

/* About as long as an input may be, and a byte longer. */
static usize fill_long(u8 kind) {
    static const usize lengths[] = {65533, 65534, 65535, 65536};
    static u8 piece[CAPTURE_ROOM];
    usize wanted = lengths[any() % 4], at = 0;
    while (at < wanted) {
        usize n = any() % 8 ? fill_capture(piece, kind) : longest(piece, kind, 0);
        n = n < wanted - at ? n : wanted - at;
        memcpy(capture + at, piece, n);
        at += n;
    }
    return wanted;
}

int main(int count, char **words) {
    unsigned passed = 0, failed = 0;
    unsigned long comparisons = 0;
    begin(count, words);
    for (u8 kind = 1; kind <= 5; kind++) {
        for (int k = 0; k < CAPTURES; k++) {
            usize n = fill_capture(capture, kind);
            try_lines(kind, n);
            try_refusals(kind, n);
            try_listings(kind, n);
        }
        for (int k = 0; k < LONG_CAPTURES; k++)
            try_listings(kind, fill_long(kind));
    }
    for (u8 kind = 1; kind <= 5; kind++)
        for (int p = 0; p < PROPERTIES; p++) {
            comparisons += tried[kind][p];
            *(tried[kind][p] && !wrong[kind][p] ? &passed : &failed) += 1;
        }
    printf("%lu lines of frames, %lu comparisons\n%u passed, %u failed\n", lines_written, comparisons, passed, failed);
    return failed ? 1 : 0;
}
