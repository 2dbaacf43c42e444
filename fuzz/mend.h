/* Makes what is nearly a frame a frame, by working out its check values: by changing bytes alone a fuzzer would hardly ever get behind
   them. */
#ifndef MEND_H
#define MEND_H

#include "../tests/frames_in_c.h"

/* Each answers the frame's length, of m bytes at s; 0 if nothing there looks like one. */

static void put_digits(u8 *s, u32 value, int count) {
    static const char digits[] = "0123456789ABCDEF";
    for (int i = 0; i < count; i++)
        s[i] = (u8)digits[value >> 4 * (count - 1 - i) & 15];
}

static usize mend_link(u8 *s, usize m) {
    if (m < 12 || !all_hex(s + 1, 2))
        return 0;
    usize n = hex_byte(s + 1) & 0xFE;
    if (n < 0x0C || m < n)
        return 0;
    put_digits(s + 1, (u32)n, 2);
    u16 crc16 = 0xFFFF;
    for (usize i = 3; i < n - 7; i++)
        if (hex(s[i]) < 0)
            put_digits(s + i, s[i], 1);
    for (usize i = 3; i < n - 7; i += 2)
        crc16 = crc_high16(crc16, hex_byte(s + i));
    put_digits(s + n - 7, crc16, 4);
    u8 crc8 = 0;
    for (usize i = 0; i < n - 3; i++)
        crc8 = crc_high8(crc8, s[i]);
    put_digits(s + n - 3, crc8, 2);
    s[n - 1] = '\r';
    return n;
}

static usize mend_nikobus(u8 *s, usize m) {
    if (m && s[0] == '$')
        return mend_link(s, m);
    if (m >= 9 && s[0] == '#' && s[1] == 'N') {
        s[8] = '\r';
        return 9;
    }
    return nikobus_length(s, m);
}

static usize mend_nest(u8 *s, usize m, usize preamble) {
    if (m < preamble + 6 || s[0] != 0xD5 || s[preamble - 1] != 0x96)
        return 0;
    u8 *checked = s + preamble;
    usize n = checked[2] + 256u * checked[3];
    if (n > 1025 || m < preamble + n + 6)
        return 0;
    u16 crc = 0;
    for (usize i = 0; i < n + 4; i++)
        crc = crc_high16(crc, checked[i]);
    checked[n + 4] = (u8)crc;
    checked[n + 5] = (u8)(crc >> 8);
    return preamble + n + 6;
}

static usize mend_nibe(u8 *s, usize m) {
    if (m < 4 || s[0] != 0xC0 || m < s[2] + 4u)
        return 0;
    u8 x = 0;
    for (usize i = 2; i < s[2] + 3u; i++)
        x ^= s[i];
    s[s[2] + 3] = x;
    return s[2] + 4u;
}

/* The CRC and what follows it are written over what stands behind the sixth field. */
static usize mend_homiq(u8 *s, usize m) {
    if (m < 2 || s[0] != '<' || s[1] != ';')
        return 0;
    usize at = 2;
    u8 crc = 0;
    for (int fields = 0; fields < 6; at++) {
        if (at >= m || at > 60)
            return 0;
        if (s[at] == ';')
            fields++;
        else
            crc = crc_low8(crc, s[at]);
    }
    char end[12];
    usize n = (usize)snprintf(end, sizeof end, "%u;>\r\n", crc);
    if (m < at + n)
        return 0;
    memcpy(s + at, end, n);
    return at + n;
}

static usize mend(u8 kind, u8 *s, usize m) {
    switch (kind) {
    case 1:
        return mend_nikobus(s, m);
    case 2:
        return mend_nest(s, m, 3);
    case 3:
        return mend_nest(s, m, 4);
    case 4:
        return mend_nibe(s, m);
    default:
        return mend_homiq(s, m);
    }
}

/* The frames of a capture, one behind the other; some are left as they are. */
static void mend_capture(u8 kind, u8 *s, usize m, u32 seed) {
    for (usize at = 0; at < m;) {
        seed = seed * 1664525 + 1013904223;
        usize n = seed >> 29 ? mend(kind, s + at, m - at) : 0;
        at += n ? n : 1;
    }
}

#endif
