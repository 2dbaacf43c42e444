/* What the header promises at its edges. A length of 0 may come with any pointer, NULL and pointers to nothing too. Its sizes are enough for
   the longest texts, frames, lines, inputs and books.

   edges SEED: prints the seed, what is wrong, and `N passed, M failed`. */
#include "books_made.h"
#include "lent.h"

enum { MOST_TESTS = 64 };

/* A test is a property, over all its inputs. */
static const char *names[MOST_TESTS];
static unsigned tests, wrong[MOST_TESTS];

static void expect(const char *what, int right) {
    unsigned i = 0;
    while (i < tests && names[i] != what)
        i++;
    if (i == MOST_TESTS)
        return;
    names[i] = what;
    tests += i == tests;
    if (!right && !wrong[i]++)
        printf("wrong: %s\n", what);
}

/* ---- a length of 0 */

static const u8 empty_book[] = {0, 0, 6, 0, 0, 0}, ask[] = {0xC0, 0x69, 0x02, 0x64, 0x00, 0x66};

static void try_empty_bytes(const u8 *p) {
    u8 *room = lend_room(100);
    for (u32 kind = 1; kind <= 5; kind++) {
        expect("a search in nothing", bolsterweft_search(kind, p, 0, 0).refusal == 1);
        expect("a search in nothing, from behind it", bolsterweft_search(kind, p, 0, 1).refusal == 3);
        struct bolsterweft_verdict v = bolsterweft_why(kind, p, 0, 0);
        expect("nothing has no start", !v.refusal && v.test == AT_START && !v.found && !v.expected);
        expect("no verdict behind nothing", bolsterweft_why(kind, p, 0, 1).refusal == 3);
        expect("nothing is no frame", bolsterweft_one_frame(kind, p, 0).refusal == 5);
        expect("nothing has no line", bolsterweft_line(kind, p, 0, 0, room, 100).refusal == 5);
        expect("no line in nothing", bolsterweft_line_next(kind, p, 0, 0, room, 100).refusal == 1);
        expect("nothing added", bolsterweft_book_add(empty_book, 6, kind, p, 0, room, 100).refusal == 5);
    }
    expect("nothing is not acknowledged", bolsterweft_acknowledge(p, 0, room, 100).refusal == 5);
    expect("nothing is no command", bolsterweft_encode(p, 0, room, 100).refusal == 11);
    expect("nothing is no number", bolsterweft_number(p, 0).refusal == 7);
    expect("nothing is no value", bolsterweft_value_read(p, 0, 2, 1).refusal == 5);
    expect("nothing is no book", bolsterweft_book_open(p, 0).refusal == 8 && bolsterweft_book_entry(p, 0, 0).refusal == 8);
    expect("nothing has no lines", bolsterweft_book_line(p, 0, 0, room, 100).refusal == 8 && bolsterweft_book_list(p, 0, room, 100).refusal == 8);
    expect("nothing is not added to", bolsterweft_book_add(p, 0, 4, ask, 6, room, 100).refusal == 8);
    expect("nothing is a sheet, whose map needs more room", bolsterweft_sheet_map(p, 0, room, 100).refusal == 4);
    expect("nothing has no fault", !bolsterweft_sheet_fault(p, 0).test && !bolsterweft_sheet_fault(p, 0).line);
    expect("none of it is written", only_written(0, 100));
    struct bolsterweft_count c = bolsterweft_list(p, 0, room, 100);
    expect("the listing of nothing", !c.refusal && c.length == 14 && !memcmp(room, "{\"refused\":2}\n", 14) && only_written(14, 100));
}

static void try_empty_room(u8 *p) {
    u8 homiq[200];
    usize n = made_homiq(homiq, "I.3;1;0H;0;42;s", 0);
    expect("a text without a room", bolsterweft_text(1, 0, p, 0).refusal == 4);
    expect("bytes without a room", bolsterweft_value(1, 1, 0, p, 0).refusal == 4);
    expect("a line without a room", bolsterweft_line(4, ask, 6, 0, p, 0).refusal == 4);
    expect("a next line without a room", bolsterweft_line_next(4, ask, 6, 0, p, 0).refusal == 4);
    expect("no next line, without a room", bolsterweft_line_next(5, ask, 6, 0, p, 0).refusal == 1);
    expect("a listing without a room", bolsterweft_list(ask, 6, p, 0).refusal == 4);
    expect("an acknowledgement without a room", bolsterweft_acknowledge(homiq, n, p, 0).refusal == 4);
    expect("a command without a room", bolsterweft_encode((const u8 *)"{\"kind\":1,\"msg\":\"tail\"}", 23, p, 0).refusal == 4);
    expect("no command, without a room", bolsterweft_encode((const u8 *)"{\"kind\":1,\"msg\":\"tale\"}", 23, p, 0).refusal == 12);
    expect("a book without a room", bolsterweft_book_add(empty_book, 6, 4, ask, 6, p, 0).refusal == 4);
    expect("a sheet without a room", bolsterweft_sheet_map((const u8 *)"1,u8,0\n", 7, p, 0).refusal == 4);
    expect("no sheet, without a room", bolsterweft_sheet_map((const u8 *)"1,u8,0", 6, p, 0).refusal == 10);
    struct bolsterweft_count c = bolsterweft_book_list(empty_book, 6, p, 0);
    expect("no lines need no room", !c.refusal && c.length == 0);
}

/* ---- the sizes */

/* The longest sheet: lines of the longest type, with five digits each. */
static void try_sheet(void) {
    static char sheet[BOLSTERWEFT_SHEET_MOST + 1];
    u8 *map = lend_room(BOLSTERWEFT_MAP_ROOM);
    usize n = 0;
    for (u32 i = 0; i < BOLSTERWEFT_SHEET_LINES_MOST; i++)
        n += (usize)snprintf(sheet + n, sizeof sheet - n, "%u,s32,3\n", (unsigned)(65536 - BOLSTERWEFT_SHEET_LINES_MOST + i));
    struct bolsterweft_count c = bolsterweft_sheet_map((const u8 *)sheet, n, map, BOLSTERWEFT_MAP_ROOM);
    expect("the longest sheet", n == BOLSTERWEFT_SHEET_MOST && !c.refusal && c.length == BOLSTERWEFT_MAP_ROOM && map[65535] == 24 && !map[0]);
}

static void try_texts(void) {
    u8 *room = lend_room(BOLSTERWEFT_TEXT_ROOM);
    struct bolsterweft_count c = bolsterweft_text(-2147483648LL, 3, room, BOLSTERWEFT_TEXT_ROOM);
    expect("the longest text", !c.refusal && c.length == BOLSTERWEFT_TEXT_ROOM && !memcmp(room, "-2147483.648", 12));
}

static void try_frames(void) {
    static const usize lengths[] = {0, BOLSTERWEFT_NIKOBUS_MOST, BOLSTERWEFT_NEST_COMMAND_MOST, BOLSTERWEFT_NEST_RESPONSE_MOST, BOLSTERWEFT_NIBE_MOST,
                                    BOLSTERWEFT_HOMIQ_MOST};
    static u8 f[2048];
    for (u8 kind = 1; kind <= 5; kind++) {
        usize most = 0;
        for (u8 which = 0; which < 26; which++) {
            usize n = one_of_the_longest(f, kind, which);
            most = n > most ? n : most;
            expect("a longest frame", bolsterweft_search(kind, f, n, 0).length == n);
            expect("its verdict", bolsterweft_why(kind, f, n, 0).test == NO_TEST);
            expect("its verdict without the last byte", bolsterweft_why(kind, f, n - 1, 0).test == (kind == 5 ? AT_FIELDS : AT_LENGTH));
        }
        expect("the longest frame", most == lengths[kind] && most <= BOLSTERWEFT_FRAME_MOST);
    }
    for (u8 kind = 2; kind <= 3; kind++)
        expect("a longer frame", bolsterweft_one_frame(kind, f, made_nest(f, kind, 1024, 1, 0)).refusal == 0 &&
                                     bolsterweft_one_frame(kind, f, nest_of(f, kind, 1, f + 1100, 1025, 0)).refusal == 5);
}

/* Homiq's IDs, each that there is and many that there are not, wherever a frame is read. */
static void try_id(const char *id) {
    u8 f[200], kept[256], *room = lend_room(200);
    char fields[64];
    snprintf(fields, sizeof fields, "HB;1;0H;0;%s;s", id);
    usize n = made_homiq(f, fields, 0);
    int right = homiq_length(f, n) == n;
    struct bolsterweft_found s = bolsterweft_search(5, f, n, 0);
    expect("a search for each ID", right ? !s.refusal && s.length == n : s.refusal == 1);
    expect("a verdict on each ID", bolsterweft_why(5, f, n, 0).test == (right ? NO_TEST : AT_FIELDS));
    expect("one frame of each ID", bolsterweft_one_frame(5, f, n).refusal == (right ? 0 : 5));
    expect("an acknowledgement of each ID", bolsterweft_acknowledge(f, n, room, 200).refusal == (right ? 0 : 5));
    expect("a line of each ID", bolsterweft_line(5, f, n, 0, room, 200).refusal == (right ? 0 : 5));
    struct bolsterweft_count c = bolsterweft_book_add(empty_book, 6, 5, f, n, kept, sizeof kept);
    expect("a book with each ID", c.refusal == (right ? 0 : 5) && (!right || bolsterweft_book_open(kept, c.length).count == 1));
}

static void try_ids(void) {
    static const char *const others[] = {"", "00", "000", "0000", "01", "007", "0511", "-0", "+0", " 0", "0 "};
    char id[8];
    for (unsigned i = 0; i <= 600; i++) {
        snprintf(id, sizeof id, "%u", i);
        try_id(id);
    }
    for (usize i = 0; i < sizeof others / sizeof *others; i++)
        try_id(others[i]);
}

/* The line that is longest by what it shows: texts of bytes that are escaped, the frame as long as it may be, the largest place. */
static void try_lines(void) {
    static u8 f[2048], payload[1024];
    u8 *room = lend_room(BOLSTERWEFT_LINE_ROOM);
    memset(payload, 0xFF, sizeof payload);
    usize n = nest_of(f, 3, 0x18, payload, sizeof payload, 0);
    struct bolsterweft_count c = bolsterweft_line(3, f, n, ~(usize)0, room, BOLSTERWEFT_LINE_ROOM);
    expect("the longest line", !c.refusal && c.length > 6 * 1024 && c.length <= BOLSTERWEFT_LINE_ROOM && only_written(c.length, BOLSTERWEFT_LINE_ROOM));
    expect("its room", BOLSTERWEFT_LINE_ROOM == 8 * BOLSTERWEFT_FRAME_MOST + 96 && BOLSTERWEFT_LIST_ROOM == 32 * BOLSTERWEFT_INPUT_MOST + 50);
}

/* The listing that is longest: an input full of the shortest frames. */
static void try_listings(void) {
    static u8 input[BOLSTERWEFT_INPUT_MOST + 1];
    input[0] = '1';
    for (usize at = 2; at < sizeof input; at++)
        input[at] = (u8) "#E1\r"[(at - 2) % 4];
    input[1] = '\n';
    u8 *room = lend_room(BOLSTERWEFT_LIST_ROOM);
    struct bolsterweft_count c = bolsterweft_list(input, BOLSTERWEFT_INPUT_MOST, room, BOLSTERWEFT_LIST_ROOM);
    expect("the longest listing", !c.refusal && c.length > 8 * BOLSTERWEFT_INPUT_MOST && only_written(c.length, BOLSTERWEFT_LIST_ROOM));
    c = bolsterweft_list(input, sizeof input, room, BOLSTERWEFT_LIST_ROOM);
    expect("an input that is too long", !c.refusal && c.length == 14 && !memcmp(room, "{\"refused\":5}\n", 14));
}

static void try_books(void) {
    static struct draft d;
    static u8 book[2 * BOLSTERWEFT_BOOK_MOST];
    struct piece e;
    begin_draft(&d);
    e.kind = 1;
    e.length = (usize)snprintf((char *)e.frame, 20, "#E1\r");
    while (d.count < BOLSTERWEFT_ENTRIES_MOST)
        put_piece(&d, &e);
    usize n = bind_draft(&d, book);
    expect("the most entries", bolsterweft_book_open(book, n).count == BOLSTERWEFT_ENTRIES_MOST);
    expect("one more", bolsterweft_book_add(book, n, 1, e.frame, e.length, lend_room(n + 99), n + 99).refusal == 5);
    begin_draft(&d);
    nearly_fill(&d, BOLSTERWEFT_BOOK_MOST, make_longest, 2, &e);
    put_piece(&d, &e);
    n = bind_draft(&d, book);
    expect("the longest book", n == BOLSTERWEFT_BOOK_MOST && !bolsterweft_book_open(book, n).refusal);
}

int main(int count, char **words) {
    begin(count, words);
    static u8 here[1];
    u8 *const pointers[] = {0, here, here + 1, (u8 *)1, (u8 *)~(usize)0};
    for (usize i = 0; i < sizeof pointers / sizeof *pointers; i++) {
        try_empty_bytes(pointers[i]);
        try_empty_room(pointers[i]);
    }
    try_texts();
    try_sheet();
    try_frames();
    try_ids();
    try_lines();
    try_listings();
    try_books();
    unsigned failed = tests == MOST_TESTS;
    for (unsigned i = 0; i < tests; i++)
        failed += wrong[i] > 0;
    printf("%u passed, %u failed\n", tests - failed, failed);
    return failed ? 1 : 0;
}
