/* The proved calls on numbers against a second implementation that shares nothing with them: texts by C's own `%llu` and a point put
   in, texts read by the grammar, character by character, bytes by C's own integers, floats by the machine's own casts.

   numbers SEED: prints the seed, each difference, and `N passed, M failed`: a test is a property, over all inputs. */
#include "lent.h"
#include "numbers_in_c.h"
#include "trials.h"

enum property { TEXT, READ_BACK, READ, VALUE, VALUE_BACK, VALUE_READ, WIDE, FITS, PANEL, CLIMATE, CLIMATE_BEYOND, ROOM, PROPERTIES };

static const char *const names[PROPERTIES] = {
    "the text", "a text read back", "any text read", "the bytes", "bytes read back", "any bytes read", "decimals, widths and signs that are too large",
    "fits a single", "the panel's float", "a climate message's singles", "a climate message out of range", "nothing else is written",
};

static unsigned tried[PROPERTIES], wrong[PROPERTIES];

static void expect(enum property p, int right, i64 raw, i64 with) {
    tried[p]++;
    if (!right && !wrong[p]++)
        printf("%s: wrong at %lld, %lld\n", names[p], (long long)raw, (long long)with);
}

static int same_number(struct bolsterweft_reading a, struct bolsterweft_reading b) {
    return a.refusal == b.refusal && a.raw == b.raw && a.decimals == b.decimals;
}

static int same_count(struct bolsterweft_count a, struct bolsterweft_count b) { return a.refusal == b.refusal && a.length == b.length; }

static int same_raw(struct bolsterweft_raw a, struct bolsterweft_raw b) { return a.refusal == b.refusal && a.raw == b.raw; }

/* A number of which C could lose the high bits. */
static u32 widened(u32 low) {
    static const u32 above[] = {256, 65536, 0x01000000, 0x80000000, 0xFFFFFF00, 0xFFFF0000};
    return low + above[any() % 6];
}

static void try_text(enum property p, i64 raw, u32 decimals) {
    u8 own[24];
    usize m = any() % (sizeof own + 1);
    u8 *room = lend_room(m);
    struct bolsterweft_count r = bolsterweft_text(raw, decimals, room, m), c = text_in_c(raw, decimals, own, m);
    expect(p, same_count(r, c) && !memcmp(room, own, c.length), raw, decimals);
    expect(ROOM, only_written(c.length, m), raw, decimals);
    if (decimals <= 3 && in_range(raw)) {
        struct bolsterweft_reading wanted = {0, decimals, raw};
        usize n = text_of(raw, decimals, (char *)own);
        expect(READ_BACK, same_number(bolsterweft_number(own, n), wanted), raw, decimals);
    }
}

/* A number's text with a character altered, left out or put in; or characters of which texts are made. */
static void try_any_text(i64 raw) {
    static const u8 chars[] = "0123456789-.+ 0-.e,/:";
    u8 t[40];
    usize n = any() % 14;
    if (any() % 4) {
        n = text_of(raw, (u32)(any() % 5), (char *)t);
        usize at = any() % (n + 1), how = any() % 3;
        if (how == 1 && at < n) {
            for (usize i = at; i + 1 < n; i++)
                t[i] = t[i + 1];
            n--;
        } else if (how == 2) {
            for (usize i = n++; i > at; i--)
                t[i] = t[i - 1];
            t[at] = chars[any() % (sizeof chars - 1)];
        } else if (at < n) {
            t[at] = any() % 8 ? chars[any() % (sizeof chars - 1)] : (u8)any();
        }
    } else {
        for (usize i = 0; i < n; i++)
            t[i] = chars[any() % (sizeof chars - 1)];
    }
    expect(READ, same_number(bolsterweft_number(t, n), number_in_c(t, n)), raw, (i64)n);
}

static void try_value(enum property p, i64 raw, u32 width, u32 is_signed) {
    u8 own[8];
    usize m = any() % (sizeof own + 1);
    u8 *room = lend_room(m);
    struct bolsterweft_count r = bolsterweft_value(raw, width, is_signed, room, m), c = value_in_c(raw, width, is_signed, own, m);
    expect(p, same_count(r, c) && !memcmp(room, own, c.length), raw, width);
    expect(ROOM, only_written(c.length, m), raw, width);
    if (is_width(width) && held(raw, width, is_signed != 0, own)) {
        struct bolsterweft_raw wanted = {0, raw};
        expect(VALUE_BACK, same_raw(bolsterweft_value_read(own, width, width, is_signed), wanted), raw, width);
    }
}

static void try_value_read(enum property p, u32 width, u32 is_signed) {
    u8 s[6];
    usize n = any() % 6;
    for (usize i = 0; i < n; i++)
        s[i] = any() % 4 ? (u8)any() : (u8)(any() % 2 ? 0xFF : 0x80);
    if (width == 99)
        width = (u32)(any() % 4 ? n : any() % 6);
    expect(p, same_raw(bolsterweft_value_read(s, n, width, is_signed), value_read_in_c(s, n, width, is_signed)), (i64)n, width);
}

/* What a cut to a byte or to 16 bits would let through: decimals and widths. What it would turn round: a sign that is not 0. */
static void try_wide(i64 raw) {
    static const u32 widths[] = {1, 2, 4};
    u32 width = widths[any() % 3];
    try_text(WIDE, raw, widened((u32)(any() % 4)));
    try_value(WIDE, raw, widened(width), (u32)(any() % 2));
    try_value_read(WIDE, widened(width), (u32)(any() % 2));
    try_value(WIDE, raw, width, widened(0));
    try_value_read(WIDE, width, widened(0));
}

static void try_float(i64 raw) {
    struct bolsterweft_fit f = bolsterweft_fits(raw), cf = fits_in_c(raw);
    struct bolsterweft_panel_value v = bolsterweft_panel(raw), cv = panel_in_c(raw);
    expect(FITS, f.refusal == cf.refusal && f.fits == cf.fits, raw, 0);
    expect(PANEL, v.refusal == cv.refusal && v.size == cv.size && !memcmp(&v.single, &cv.single, 4) && !memcmp(&v.wide, &cv.wide, 8), raw, 0);
}

static void try_climate(enum property p, i32 temperature, u32 humidity) {
    struct bolsterweft_climate r = bolsterweft_climate(temperature, humidity), c = climate_in_c(temperature, humidity);
    expect(p, r.refusal == c.refusal && !memcmp(&r.temperature, &c.temperature, 4) && !memcmp(&r.humidity, &c.humidity, 4), temperature, humidity);
}

/* Around the limits of 16 bits, and what a cut would bring back between them. */
static void try_climates_beyond(void) {
    static const i32 temperatures[] = {-2147483647 - 1, -65537, -65536, -32770, -32769, -32768, 0, 32767, 32768, 32769, 65535, 65536, 2147483647};
    static const u32 humidities[] = {0, 65534, 65535, 65536, 65537, 131071, 0x7FFFFFFF, 0x80000000, 0xFFFF0000, 0xFFFFFFFF};
    for (usize i = 0; i < sizeof temperatures / sizeof *temperatures; i++)
        for (usize k = 0; k < sizeof humidities / sizeof *humidities; k++)
            try_climate(CLIMATE_BEYOND, temperatures[i], humidities[k]);
    for (int t = 0; t < 20000; t++)
        try_climate(CLIMATE_BEYOND, (i32)(u32)any() >> any() % 32, (u32)any() >> any() % 32);
}

static void try_number(i64 raw) {
    for (u32 decimals = 0; decimals < 5; decimals++)
        try_text(TEXT, raw, decimals);
    try_any_text(raw);
    for (u32 width = 0; width < 6; width++) {
        try_value(VALUE, raw, width, 0);
        try_value(VALUE, raw, width, 1);
    }
    try_value_read(VALUE_READ, 99, (u32)(any() % 2));
    try_wide(raw);
    try_float(raw);
}

int main(int count, char **words) {
    begin(count, words);
    /* the numbers of document 01 */
    static const i64 papers[] = {0, -5, -125, 16777216, 16777217, 33554434, 4294967040, 65535, -32768, 4294967295, -2147483648, 40004};
    for (usize i = 0; i < sizeof papers / sizeof *papers; i++)
        for (int t = 0; t < 100; t++)
            try_number(papers[i]);
    /* all counts of 16 bits */
    for (u32 n = 0; n < 65536; n++)
        try_climate(CLIMATE, (i16)n, (u16)(n * 40503));
    try_climates_beyond();
    /* around each power of two and of ten, on both sides of zero */
    for (i64 p = 1; p < (i64)1 << 40; p *= 2)
        for (i64 near = -3; near <= 3; near++) {
            try_number(p + near);
            try_number(-p + near);
        }
    for (i64 p = 1; p < (i64)1000000000000; p *= 10)
        for (i64 near = -3; near <= 3; near++) {
            try_number(p + near);
            try_number(-p + near);
        }
    /* any number of any length; and some with few bits between their zeros */
    for (int t = 0; t < 30000; t++) {
        try_number((i64)((any() << 32 ^ any()) >> (any() % 64)));
        try_number(-(i64)((any() << 32 ^ any()) >> (1 + any() % 63)));
        try_number((i64)((any() >> 30 | 1) << any() % 12));
    }
    try_number((i64)((u64)1 << 63));

    unsigned passed = 0, failed = 0, comparisons = 0;
    for (int p = 0; p < PROPERTIES; p++) {
        comparisons += tried[p];
        passed += tried[p] && !wrong[p];
        failed += !tried[p] || wrong[p];
    }
    printf("%u comparisons\n%u passed, %u failed\n", comparisons, passed, failed);
    return failed != 0;
}
