/* Listings by a register map, whole and line after line, against C by the same rules and with the same map. What they write is compared byte
   for byte. (In a file of its own: C that is called in one place is compiled into it, and so the rows of list.c stay as they are.) */
#include "../tests/longest.h"
#include "../tests/pairs_made.h"
#include "table.h"

enum { ROOM = BOLSTERWEFT_LIST_ROOM, LISTED = 500, NIBE = 4 };

static u8 input[FULL], proved[ROOM], in_c[ROOM];
static const struct map map = {map_bytes, REGISTERS};
static usize size;
static struct bolsterweft_count by_proof;
static usize by_c;

static int same(void) { return by_proof.refusal == 0 && by_proof.length == by_c && memcmp(proved, in_c, by_c) == 0; }

static void ours(void) { by_proof = bolsterweft_list_with(input, size, map_bytes, REGISTERS, proved, ROOM); }
static void theirs(void) { by_c = list_by_map_in_c(input, size, map, in_c); }

/* The lines of a capture, one call for each; there is no last line. */
static void ours_by_line(void) {
    usize n = 0, place = 0;
    for (;;) {
        struct bolsterweft_listed l = bolsterweft_line_next_with(NIBE, input + 2, size - 2, place, map_bytes, REGISTERS, proved + n, ROOM - n);
        if (l.refusal) {
            by_proof = (struct bolsterweft_count){l.refusal == BOLSTERWEFT_NO_FRAME ? 0 : l.refusal, n};
            return;
        }
        n += l.line_length;
        place = l.start + l.length;
    }
}

static void theirs_by_line(void) {
    u8 *p = in_c;
    for (usize at = 2, k; at < size; at += k ? k : 1)
        if ((k = length_in_c(NIBE, input + at, size - at)))
            p = put_line(p, NIBE, input + at, k, at - 2, map);
    by_c = (usize)(p - in_c);
}

static usize (*frame)(u8 *f);

/* An input full of such frames; what no frame fills any more is zeros. */
static usize make(usize n) {
    static u8 f[300];
    usize at = 2, k;
    memset(input, 0, n);
    input[0] = '0' + NIBE;
    input[1] = '\n';
    while (at + (k = frame(f)) <= n) {
        memcpy(input + at, f, k);
        at += k;
    }
    return at == 2 ? 0 : (size = n);
}

/* The registers that are listed are spread over the map, as on a pump, and all types come; those whose number is a multiple of six are u8. */
static u32 listed_register(u64 number) { return (u32)(number * 131); }

static void make_map(void) {
    memset(map_bytes, 0, sizeof map_bytes);
    for (u32 i = 0; i < LISTED; i++)
        map_bytes[listed_register(i)] = (u8)(1 + 4 * (i % 6) + i / 6 % 4);
}

static usize put_listed(u8 *p, u64 number) { return put_pair(p, map, listed_register(number)); }

/* 68 with as many pairs of u8 as there may be: 85 of three bytes. */
static usize pairs_of_u8(u8 *f) {
    u8 data[255];
    for (usize at = 0; at < sizeof data;)
        at += put_listed(data + at, any() % (LISTED / 6) * 6);
    return nibe_of(f, 0x68, data, sizeof data, 0);
}

/* 68 with pairs of all types, until no more of four bytes would go in. */
static usize pairs_of_all(u8 *f) {
    u8 data[255];
    usize at = 0;
    while (at + 6 <= sizeof data)
        at += put_listed(data + at, any() % LISTED);
    return nibe_of(f, 0x68, data, at, 0);
}

static usize reply(u8 *f) {
    u8 data[6];
    return nibe_of(f, 0x6A, data, put_listed(data, any() % LISTED), 0);
}

/* 68 with pairs of all types, and behind them a register that is not listed: nothing of it is split. */
static usize not_split(u8 *f) {
    static const u8 unlisted[] = {0xFF, 0xFF, 0};
    u8 data[255];
    usize at = 0;
    while (at + 6 <= sizeof data - sizeof unlisted)
        at += put_listed(data + at, any() % LISTED);
    memcpy(data + at, unlisted, sizeof unlisted);
    return nibe_of(f, 0x68, data, at + sizeof unlisted, 0);
}

static usize any_bytes(u8 *f) { return longest(f, NIBE, 0); }

static usize any_message(u8 *f) { return message(f, NIBE); }

/* By a map of 500 registers. */
static int compare(const char *what, usize (*of)(u8 *f)) {
    static const struct job whole = {make, ours, theirs, same, 0}, lines = {make, ours_by_line, theirs_by_line, same, 0};
    frame = of;
    return row("by a map", what, 1.5, &whole) + row("lines", what, 1.5, &lines);
}

int main(void) {
    int bad = 0;
    state = 1; /* the same messages in each run */
    make_map();
    bad += compare("68 full of pairs of u8", pairs_of_u8);
    bad += compare("68 full of pairs of all types", pairs_of_all);
    bad += compare("68, the last register not listed", not_split);
    bad += compare("68 full of any bytes", any_bytes);
    bad += compare("replies by the map", reply);
    bad += compare("Nibe: short frames, all messages", any_message);
    return bad ? 1 : 0;
}
