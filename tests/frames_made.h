/* Frames made in plain C from document 01, for the tests and the benchmarks. Each answers its length. The bytes of a payload are
   given, or come of a seed; a spoilt frame is laid out well, and its (first) check value is wrong. */
#ifndef FRAMES_MADE_H
#define FRAMES_MADE_H

#include "frames_in_c.h"

static usize link_of(u8 *f, const u8 *bytes, usize n, int spoilt) {
    static const char digits[] = "0123456789ABCDEF";
    usize at = 0;
    u16 crc16 = 0xFFFF;
    u8 crc8 = 0;
    f[at++] = '$';
    f[at++] = (u8)digits[(2 * n + 10) / 16];
    f[at++] = (u8)digits[(2 * n + 10) % 16];
    for (usize i = 0; i < n; i++) {
        crc16 = crc_high16(crc16, bytes[i]);
        f[at++] = (u8)digits[bytes[i] / 16];
        f[at++] = (u8)digits[bytes[i] % 16];
    }
    if (spoilt)
        crc16 ^= 1;
    for (int k = 12; k >= 0; k -= 4)
        f[at++] = (u8)digits[crc16 >> k & 15];
    for (usize i = 0; i < at; i++)
        crc8 = crc_high8(crc8, f[i]);
    f[at++] = (u8)digits[crc8 / 16];
    f[at++] = (u8)digits[crc8 % 16];
    f[at++] = '\r';
    return at;
}

static usize nest_of(u8 *f, u8 kind, u32 id, const u8 *payload, usize n, int spoilt) {
    usize at = 0, from;
    u16 crc = 0;
    f[at++] = 0xD5;
    if (kind == 3)
        f[at++] = 0xD5;
    f[at++] = 0xAA;
    f[at++] = 0x96;
    from = at;
    f[at++] = (u8)id;
    f[at++] = (u8)(id >> 8);
    f[at++] = (u8)n;
    f[at++] = (u8)(n >> 8);
    for (usize i = 0; i < n; i++)
        f[at++] = payload[i];
    for (usize i = from; i < at; i++)
        crc = crc_high16(crc, f[i]);
    if (spoilt)
        crc ^= 1;
    f[at++] = (u8)crc;
    f[at++] = (u8)(crc >> 8);
    return at;
}

static usize nibe_of(u8 *f, u8 command, const u8 *data, usize n, int spoilt) {
    u8 x = (u8)n;
    f[0] = 0xC0;
    f[1] = command;
    f[2] = (u8)n;
    for (usize i = 0; i < n; i++) {
        f[3 + i] = data[i];
        x ^= data[i];
    }
    f[3 + n] = spoilt ? x ^ 1 : x;
    return n + 4;
}

/* With these six fields. */
static usize made_homiq(u8 *f, const char *fields, int spoilt) {
    usize n = strlen(fields);
    u8 crc = 0;
    for (usize i = 0; i < n; i++)
        if (fields[i] != ';')
            crc = crc_low8(crc, (u8)fields[i]);
    return (usize)snprintf((char *)f, 200, "<;%s;%u;>\r\n", fields, spoilt ? crc ^ 1u : crc);
}

/* A link, a Nest and a Nibe frame with n bytes that a seed gives; a Nest frame's id is the seed. */

static const u8 *seeded(usize n, u8 seed) {
    static u8 bytes[1024];
    for (usize i = 0; i < n; i++)
        bytes[i] = (u8)(i * 37 + seed);
    return bytes;
}

static usize made_link(u8 *f, usize n, u8 seed, int spoilt) { return link_of(f, seeded(n, seed), n, spoilt); }

static usize made_nest(u8 *f, u8 kind, usize n, u8 seed, int spoilt) { return nest_of(f, kind, seed, seeded(n, seed), n, spoilt); }

static usize made_nibe(u8 *f, u8 command, usize n, u8 seed, int spoilt) { return nibe_of(f, command, seeded(n, seed), n, spoilt); }

#endif
