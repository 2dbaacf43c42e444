/* The calls for a register sheet against one in plain C: sheets of every length and with every type at its limits, good and damaged, into
   maps too short, just long enough and longer.

   sheet SEED: prints the seed, each difference, and `N passed, M failed`: a test is a property, over all inputs. */
#include "lent.h"
#include "sheet_in_c.h"
#include "trials.h"

enum property { GOOD, DAMAGED, EDGES, FAULT, ROOM, EVERY_TEST, PROPERTIES };

static const char *const names[PROPERTIES] = {
    "the map of a sheet", "a damaged sheet", "sheets at their limits", "the fault", "nothing else is written", "every test fails somewhere",
};

static unsigned tried[PROPERTIES], wrong[PROPERTIES], failed_tests;

static void expect(enum property p, int right, usize n) {
    tried[p]++;
    if (!right && !wrong[p]++)
        printf("%s: wrong at a sheet of %lu bytes\n", names[p], (unsigned long)n);
}

enum { MOST = 8000 };

static u8 sheet[MOST + 64];
static usize size;

static const char *const types[] = {"u8", "s8", "u16", "s16", "u32", "s32"};

static void add_line(u32 reg, const char *type, u32 decimals) {
    if (size < MOST)
        size += (usize)snprintf((char *)sheet + size, 32, "%u,%s,%u\n", (unsigned)reg, type, (unsigned)decimals);
}

/* Rising registers, `lines` of them, from the given one on, and each at most `apart` above the one before. */
static void make_sheet(u32 lines, u32 from, u32 apart) {
    u32 reg = from;
    size = 0;
    for (u32 i = 0; i < lines && reg <= 65535; i++) {
        add_line(reg, types[any() % 6], (u32)(any() % 4));
        reg += 1 + (u32)(any() % apart);
    }
}

static void make_any_sheet(void) {
    u32 lines = any() % 8 ? (u32)(any() % 12) : 490 + (u32)(any() % 14);
    make_sheet(lines, any() % 2 ? (u32)(any() % 65536) : (u32)(any() % 20), any() % 3 ? 130 : 1);
}

/* A byte altered, left out or put in, or the end cut off. */
static void damage(void) {
    static const u8 chars[] = "0123456789,,,\n\nus18632 -\r";
    usize at = size ? any() % size : 0;
    u8 c = any() % 8 ? chars[any() % (sizeof chars - 1)] : (u8)any();
    switch (any() % 4) {
    case 0:
        if (size)
            sheet[at] = c;
        break;
    case 1:
        for (usize i = at; i + 1 < size; i++)
            sheet[i] = sheet[i + 1];
        size -= size > 0;
        break;
    case 2:
        for (usize i = size++; i > at; i--)
            sheet[i] = sheet[i - 1];
        sheet[at] = c;
        break;
    default:
        size = at;
    }
}

static void try_sheet(enum property p) {
    static u8 own[BOLSTERWEFT_MAP_ROOM + 64];
    static const usize rooms[] = {BOLSTERWEFT_MAP_ROOM, BOLSTERWEFT_MAP_ROOM - 1, BOLSTERWEFT_MAP_ROOM + 1, 0};
    usize m = any() % 4 ? rooms[0] : rooms[any() % 4];
    u8 *map = lend_room(m);
    struct bolsterweft_count r = bolsterweft_sheet_map(sheet, size, map, m), c = sheet_map_in_c(sheet, size, own, m);
    struct bolsterweft_fault f = bolsterweft_sheet_fault(sheet, size), g = sheet_fault_in_c(sheet, size);
    expect(p, r.refusal == c.refusal && r.length == c.length && !memcmp(map, own, c.length), size);
    expect(FAULT, f.refusal == 0 && f.test == g.test && f.line == g.line && (r.refusal == 10) == (f.test != 0), size);
    expect(ROOM, only_written(c.length, m), size);
    failed_tests |= 1u << f.test;
}

/* Each number of a line below, at and above its limits, with leading zeros, and every type with every character altered. */
static void try_edges(void) {
    static const char *const lines[] = {
        "",          "\n",        ",,\n",      "0,u8,0\n",  "0,u8,0",    "00,u8,0\n",     "01,u8,0\n",   "65535,s32,3\n", "65536,s32,3\n", "99999,u8,0\n",
        "065535,u8,0\n", "655350,u8,0\n", "4294967297,u8,0\n", "1,u8,4\n",  "1,u8,00\n", "1,u8,\n",  "1,u8,10\n", ",u8,0\n",    "1,,0\n",     "1,u9,0\n",
        "1,U8,0\n",  "1,u8 ,0\n", "1, u8,0\n", "1,u16,0\n", "1,u61,0\n", "1,u,0\n",       "1,8,0\n",     "1,s64,0\n",     "1,u8,0,\n",     "1,u8\n",
        "1\n",       "1,u8,0\r\n", "1,u8,0\n\n", "\n1,u8,0\n", "1,u8,0\n1,u8,0\n", "2,u8,0\n1,u8,0\n", "1,u8,0\n2,u8,0", "-1,u8,0\n", "+1,u8,0\n", "1.0,u8,0\n",
    };
    for (usize i = 0; i < sizeof lines / sizeof *lines; i++) {
        size = strlen(lines[i]);
        memcpy(sheet, lines[i], size);
        try_sheet(EDGES);
    }
    for (u32 n = 499; n <= 502; n++)
        for (u32 last = 0; last < 2; last++) {
            make_sheet(n, last ? 65536 - n : 0, 1);
            try_sheet(EDGES);
        }
}

int main(int count, char **words) {
    begin(count, words);
    try_edges();
    for (int i = 0; i < 20000; i++) {
        make_any_sheet();
        try_sheet(GOOD);
        for (u64 times = 1 + any() % 3; times > 0; times--)
            damage();
        try_sheet(DAMAGED);
    }
    expect(EVERY_TEST, failed_tests == 0xFF, 0);
    unsigned bad = 0;
    for (int p = 0; p < PROPERTIES; p++)
        bad += !tried[p] || wrong[p] > 0;
    printf("%u passed, %u failed\n", PROPERTIES - bad, bad);
    return bad ? 1 : 0;
}
