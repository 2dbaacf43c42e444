/* The listing, the search, the verdict, the lines and the acknowledgement against those in plain C. A line in plain C with the kind in place
   of `at` and `len` is a command, whose frame must be the one that the line is of. The input is that of the program `listing`. */
#include "../tests/lines_in_c.h"
#include "commands.h"
#include "fenced.h"
#include "mend.h"

enum { LONG = 4096, PLACES = 512 };

static u8 in_c[BOLSTERWEFT_LIST_ROOM + 64];

static void try_list(const u8 *input, usize n, usize m) {
    u8 *room = fenced(1, m, SOME);
    struct bolsterweft_count c = list_call_in_c(input, n, in_c, m);
    agree_written(bolsterweft_list(input, n, room, m), room, c, in_c, m, "the listing");
}

static void try_line(u32 kind, const u8 *f, usize n, usize at, usize m) {
    u8 *room = fenced(1, m, SOME);
    struct bolsterweft_count c = line_in_c(kind, f, n, at, in_c, m);
    agree_written(bolsterweft_line(kind, f, n, at, room, m), room, c, in_c, m, "a line");
}

static void try_next(u32 kind, const u8 *s, usize n, usize place, usize m) {
    u8 *room = fenced(1, m, SOME);
    struct bolsterweft_listed c = line_next_in_c(kind, s, n, place, in_c, m), l = bolsterweft_line_next(kind, s, n, place, room, m);
    agree(l.refusal == c.refusal && l.start == c.start && l.length == c.length && l.line_length == c.line_length, "the next frame");
    agree(!memcmp(room, in_c, l.line_length) && all_same(room + l.line_length, m - l.line_length, SOME), "the next line");
}

static void try_acknowledge(const u8 *f, usize n, usize m) {
    u8 *room = fenced(1, m, SOME);
    struct bolsterweft_count c = acknowledge_in_c(f, n, in_c, m);
    agree_written(bolsterweft_acknowledge(f, n, room, m), room, c, in_c, m, "the acknowledgement");
}

static void try_one_frame(u32 kind, const u8 *s, usize n) {
    struct bolsterweft_payload p = bolsterweft_one_frame(kind, s, n), c = one_frame_in_c(kind, s, n);
    agree(p.refusal == c.refusal && p.payload_start == c.payload_start && p.payload_length == c.payload_length, "one frame");
}

static void try_why(u32 kind, const u8 *s, usize n, usize place) {
    struct bolsterweft_verdict v = bolsterweft_why(kind, s, n, place), c = why_in_c(kind, s, n, place);
    agree(v.refusal == c.refusal && v.test == c.test && v.found == c.found && v.expected == c.expected, "the verdict on a place");
}

/* Bytes that may be one frame, alone behind their fence: whether they are, the verdict on them, their line and their acknowledgement, in
   rooms that just suffice and in rooms that do not. */
static void try_bytes(u32 kind, const u8 *s, usize n, usize at) {
    const u8 *f = fenced_copy(2, s, n);
    usize length = line_in_c(kind, f, n, at, in_c, sizeof in_c).length, answer = acknowledge_in_c(f, n, in_c, sizeof in_c).length;
    try_one_frame(kind, f, n);
    try_why(kind, f, n, 0);
    try_line(kind, f, n, at, length);
    try_acknowledge(f, n, answer);
    try_command(kind, f, n, at);
    if (length)
        try_line(kind, f, n, at, length - 1);
    if (answer)
        try_acknowledge(f, n, answer - 1);
}

/* The verdict on places one behind the other; of a capture that has more of them, from a place on that the capture chooses. */
static void try_places(u32 kind, const u8 *s, usize m) {
    usize from = m > PLACES ? s[m / 2] * m / 256 : 0;
    for (usize place = from; place <= m && place < from + PLACES; place++)
        try_why(kind, s, m, place);
    try_why(kind, s, m, m);
    try_why(kind, s, m, m + 1);
    try_why(kind + 256, s, m, 0);
}

/* Of a long capture some frames stand for all: those from a place on. */
static void try_frames(u32 kind, const u8 *s, usize m) {
    usize place = m > LONG ? s[m / 2] * m / 256 : 0;
    for (int frames = 0; frames < (m > LONG ? 8 : 64); frames++) {
        struct bolsterweft_found c = search_in_c(kind, s, m, place), f = bolsterweft_search(kind, s, m, place);
        agree(f.refusal == c.refusal && f.start == c.start && f.length == c.length, "a frame");
        agree(f.payload_start == c.payload_start && f.payload_length == c.payload_length, "a payload");
        usize length = line_next_in_c(kind, s, m, place, in_c, sizeof in_c).line_length;
        try_next(kind, s, m, place, length);
        if (c.refusal)
            break;
        try_next(kind, s, m, place, length - 1);
        try_bytes(kind, s + c.start, c.length, c.start << frames);
        try_bytes(kind, s + c.start, c.length - 1, 0);
        if (c.start + c.length < m)
            try_bytes(kind, s + c.start, c.length + 1, 0);
        place = c.start + c.length;
    }
    agree(bolsterweft_search(kind, s, m, m + 1).refusal == 3, "a place beyond the length");
    try_next(kind, s, m, m + 1, 99);
    try_next(kind + 256, s, m, 0, 99);
}

/* A long input is tried with one fence, which its length chooses. */
int LLVMFuzzerTestOneInput(const u8 *data, usize n) {
    usize length = list_in_c(data, n, in_c);
    for (fence = 0; fence < SIDES; fence++) {
        if (n > LONG && fence != n % SIDES)
            continue;
        const u8 *input = fenced_copy(0, data, n);
        try_list(input, n, length);
        try_list(input, n, length - 1);
        if (n >= 2 && input[0] >= '1' && input[0] <= '5') {
            const u8 *capture = fenced_copy(0, data + 2, n - 2);
            try_frames((u32)(data[0] - '0'), capture, n - 2);
            try_places((u32)(data[0] - '0'), capture, n - 2);
        }
    }
    return 0;
}

usize LLVMFuzzerMutate(u8 *data, usize size, usize most);

/* Half of the changed inputs have their frames mended, and a kind that is one. */
usize LLVMFuzzerCustomMutator(u8 *data, usize size, usize most, unsigned seed) {
    size = LLVMFuzzerMutate(data, size, most);
    if (size > 2 && seed % 2) {
        data[0] = (u8)('1' + data[0] % 5);
        data[1] = '\n';
        mend_capture(data[0] - '0', data + 2, size - 2, seed);
    }
    return size;
}
