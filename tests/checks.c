/* The proved checks against a second implementation that shares nothing with them: the remainder of a division of polynomials,
   on an array of bits, as the textbooks define a check value. (The engines go by a shifting register.)

   checks SEED: prints the seed, each difference, and `N passed, M failed`: a test is a check and a property, over all inputs. */
#include "probe.h"
#include "trials.h"

enum { MOST = 1100 };

struct check {
    const char *name;
    int width;
    u32 poly; /* without the highest term, its first bit at the top */
    u32 start;
    int low_first;
    u16 (*whole)(const u8 *, usize);
    u16 (*after)(u16, const u8 *, usize);
};

static u16 nikobus8(const u8 *s, usize n) { return probe_nikobus_crc8(s, n); }
static u16 nibe(const u8 *s, usize n) { return probe_nibe_xor(s, n); }
static u16 homiq(const u8 *s, usize n) { return probe_homiq_crc(s, n); }
static u16 nikobus8_after(u16 v, const u8 *s, usize n) { return probe_nikobus_crc8_after((u8)v, s, n); }
static u16 nibe_after(u16 v, const u8 *s, usize n) { return probe_nibe_xor_after((u8)v, s, n); }
static u16 homiq_after(u16 v, const u8 *s, usize n) { return probe_homiq_crc_after((u8)v, s, n); }

/* Homiq's 0x8C is 0x31 with its bits in the other order. */
static const struct check checks[] = {
    {"nikobus crc16", 16, 0x1021, 0xFFFF, 0, probe_nikobus_crc16, probe_nikobus_crc16_after},
    {"nikobus crc8", 8, 0x99, 0, 0, nikobus8, nikobus8_after},
    {"nest crc", 16, 0x1021, 0, 0, probe_nest_crc, probe_nest_crc_after},
    {"nibe xor", 8, 0x01, 0, 0, nibe, nibe_after},
    {"homiq crc", 8, 0x31, 0, 1, homiq, homiq_after},
};

enum property { WHOLE, PIECES, BURST, UNSEEN, PROPERTIES };

static const char *const names[PROPERTIES] = {"the whole", "three pieces", "a burst is seen", "17 bits go unseen"};

static unsigned tried[sizeof checks / sizeof *checks][PROPERTIES], wrong[sizeof checks / sizeof *checks][PROPERTIES];

static void expect(enum property p, const struct check *c, usize n, u32 got, u32 wanted) {
    tried[c - checks][p]++;
    if (got == wanted)
        return;
    if (!wrong[c - checks][p]++)
        printf("%s: %s, of %lu bytes: %X, and it should be %X\n", c->name, names[p], (unsigned long)n, got, wanted);
}

/* The remainder of the message times x^width by the polynomial, with the start added to its first bits. */
static u32 remainder_of(const struct check *c, const u8 *s, usize n) {
    static u8 bit[8 * MOST + 16];
    usize bits = 8 * n;
    int w = c->width;
    for (usize i = 0; i < bits; i++)
        bit[i] = (s[i / 8] >> (c->low_first ? i % 8 : 7 - i % 8)) & 1;
    for (int i = 0; i < w; i++)
        bit[bits + i] = 0;
    for (int i = 0; i < w; i++)
        bit[i] ^= (c->start >> (w - 1 - i)) & 1;
    for (usize i = 0; i < bits; i++) {
        if (!bit[i])
            continue;
        for (int j = 0; j < w; j++)
            bit[i + 1 + j] ^= (c->poly >> (w - 1 - j)) & 1;
    }
    u32 r = 0;
    for (int i = 0; i < w; i++)
        r |= (u32)bit[bits + i] << (c->low_first ? i : w - 1 - i);
    return r;
}

static void fill(u8 *s, usize n) {
    u32 kind = any() % 4;
    for (usize i = 0; i < n; i++)
        s[i] = kind == 0 ? 0 : kind == 1 ? 0xFF : kind == 2 ? (u8)(i & 1 ? 0xD5 : 0xAA) : (u8)any();
    if (n && kind < 3)
        s[any() % n] ^= (u8)(1u << any() % 8);
}

/* The whole; the same in three pieces; and a difference within a stretch as long as the check is wide is seen. */
static void trial(const struct check *c, u8 *s, usize n) {
    u32 wanted = remainder_of(c, s, n);
    expect(WHOLE, c, n, c->whole(s, n), wanted);
    usize a = any() % (n + 1), b = a + any() % (n - a + 1);
    u16 v = c->after((u16)c->start, s, a);
    v = c->after(v, s + a, b - a);
    v = c->after(v, s + b, n - b);
    expect(PIECES, c, n, v, wanted);
    if (!n)
        return;
    usize first = any() % (8 * n);
    int flipped = 0;
    for (usize i = first; i < 8 * n && i < first + (usize)c->width; i++) {
        if (i != first && any() % 2)
            continue;
        s[i / 8] ^= (u8)(1u << (c->low_first ? i % 8 : 7 - i % 8));
        flipped++;
    }
    expect(BURST, c, n, flipped && c->whole(s, n) != wanted, 1);
}

int main(int count, char **words) {
    static u8 s[MOST];
    begin(count, words);
    for (usize k = 0; k < sizeof checks / sizeof *checks; k++) {
        for (usize n = 0; n < 64; n++) {
            fill(s, n);
            trial(checks + k, s, n);
        }
        for (int t = 0; t < 2000; t++) {
            usize n = any() % (MOST + 1);
            fill(s, n);
            trial(checks + k, s, n);
        }
    }
    /* 01, known point (l): 17 bits can go unseen */
    u8 zeros[3] = {0, 0, 0}, poly[3] = {0x01, 0x10, 0x21};
    expect(UNSEEN, checks + 2, 3, probe_nest_crc(zeros, 3), probe_nest_crc(poly, 3));

    unsigned passed = 0, failed = 0, comparisons = 0;
    for (usize k = 0; k < sizeof checks / sizeof *checks; k++) {
        for (int p = 0; p < PROPERTIES; p++) {
            comparisons += tried[k][p];
            passed += tried[k][p] && !wrong[k][p];
            failed += wrong[k][p] != 0;
        }
    }
    printf("%u comparisons\n%u passed, %u failed\n", comparisons, passed, failed);
    return failed != 0;
}
