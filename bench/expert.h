/* The search as an expert would write it in C: `memchr` looks for the byte that a frame begins with, and check values come of tables. The frames
   are those of tests/frames_in_c.h. (`memmem` for Nest's preamble took longer than `memchr` for its first byte, and so is not used.) */
#ifndef EXPERT_H
#define EXPERT_H

#include "../tests/frames_in_c.h"

void *memchr(const void *s, int byte, usize n);

static u16 table_high16[256];
static u8 table_high8[256], table_low8[256], table_hex[256];

enum { NO_DIGIT = 0xFF };

static void make_tables(void) {
    for (int b = 0; b < 256; b++) {
        table_high16[b] = crc_high16(0, (u8)b);
        table_high8[b] = crc_high8(0, (u8)b);
        table_low8[b] = crc_low8(0, (u8)b);
        table_hex[b] = (u8)(hex((u8)b) < 0 ? NO_DIGIT : hex((u8)b));
    }
}

static u16 expert_crc16(u16 v, u8 b) { return (u16)(v << 8 ^ table_high16[v >> 8 ^ b]); }

/* Nikobus */

static u8 expert_byte(const u8 *s) { return (u8)(table_hex[s[0]] << 4 | table_hex[s[1]]); }

static int expert_digits(const u8 *s, usize n) {
    u8 none = 0;
    for (usize i = 0; i < n; i++)
        none |= table_hex[s[i]] & 0xF0;
    return !none;
}

static usize expert_link(const u8 *s, usize m) {
    if (m < 3 || !expert_digits(s + 1, 2))
        return 0;
    usize n = expert_byte(s + 1);
    if (n < 0x0C || n % 2 || m < n || s[n - 1] != '\r' || !expert_digits(s + 3, n - 4))
        return 0;
    u16 crc16 = 0xFFFF;
    for (usize i = 3; i < n - 7; i += 2)
        crc16 = expert_crc16(crc16, expert_byte(s + i));
    if (expert_byte(s + n - 7) != crc16 >> 8 || expert_byte(s + n - 5) != (crc16 & 0xFF))
        return 0;
    u8 crc8 = 0;
    for (usize i = 0; i < n - 3; i++)
        crc8 = table_high8[crc8 ^ s[i]];
    return expert_byte(s + n - 3) == crc8 ? n : 0;
}

static usize expert_nikobus(const u8 *s, usize m) {
    if (s[0] == '$')
        return expert_link(s, m);
    if (m >= 9 && s[1] == 'N' && s[8] == '\r' && expert_digits(s + 2, 6))
        return 9;
    return m >= 4 && s[1] == 'E' && s[2] == '1' && s[3] == '\r' ? 4 : 0;
}

/* Nest */

static usize expert_nest(const u8 *s, usize m) {
    if (m < 6)
        return 0;
    usize n = s[2] + 256u * s[3];
    if (n > 1024 || m < n + 6)
        return 0;
    u16 crc = 0;
    for (usize i = 0; i < n + 4; i++)
        crc = expert_crc16(crc, s[i]);
    return (s[n + 4] | s[n + 5] << 8) == crc ? n + 6 : 0;
}

static usize expert_command(const u8 *s, usize m) {
    if (m < 3 || s[1] != 0xAA || s[2] != 0x96)
        return 0;
    usize n = expert_nest(s + 3, m - 3);
    return n ? n + 3 : 0;
}

static usize expert_response(const u8 *s, usize m) {
    if (m < 4 || s[1] != 0xD5 || s[2] != 0xAA || s[3] != 0x96)
        return 0;
    usize n = expert_nest(s + 4, m - 4);
    return n ? n + 4 : 0;
}

/* Homiq */

static usize expert_homiq(const u8 *s, usize m) {
    if (m < 2 || s[1] != ';')
        return 0;
    struct reader r = {s, m, 2};
    read_field(&r, 8);
    read_field(&r, 16);
    read_field(&r, 4);
    read_field(&r, 4);
    read_number(&r, 511);
    if (r.at && r.at < m && (s[r.at] == 's' || s[r.at] == 'a'))
        r.at++;
    else
        r.at = 0;
    read_char(&r, ';');
    usize head = r.at;
    u32 found = read_number(&r, 255);
    read_char(&r, '>');
    read_char(&r, '\r');
    read_char(&r, '\n');
    if (!r.at)
        return 0;
    u8 v = 0;
    for (usize i = 2; i < head; i++)
        if (s[i] != ';')
            v = table_low8[v ^ s[i]];
    return found == v ? r.at : 0;
}

/* By kind */

#define BY_MEMCHR(name, mark, length)                                                                                                \
    static __attribute__((noinline)) struct bolsterweft_found name(const u8 *s, usize n, usize place) {                              \
        const u8 *end = s + n;                                                                                                       \
        for (const u8 *p = s + place; (p = memchr(p, mark, (usize)(end - p))); p++) {                                                \
            usize k = length(p, (usize)(end - p));                                                                                   \
            if (k)                                                                                                                   \
                return (struct bolsterweft_found){0, (usize)(p - s), k, 0, 0};                                                       \
        }                                                                                                                            \
        return (struct bolsterweft_found){1, 0, 0, 0, 0};                                                                            \
    }
BY_MEMCHR(expert_commands, 0xD5, expert_command)
BY_MEMCHR(expert_responses, 0xD5, expert_response)
BY_MEMCHR(expert_nibes, 0xC0, nibe_length)
BY_MEMCHR(expert_homiqs, '<', expert_homiq)

/* The next place of a byte, the end if there is none. */
static const u8 *next_of(const u8 *p, const u8 *end, int byte) {
    const u8 *q = memchr(p, byte, (usize)(end - p));
    return q ? q : end;
}

/* Two bytes begin a frame of Nikobus: each is looked for again only when its last place has been passed. */
static __attribute__((noinline)) struct bolsterweft_found expert_nikobuses(const u8 *s, usize n, usize place) {
    const u8 *end = s + n, *dollar = next_of(s + place, end, '$'), *number = next_of(s + place, dollar, '#');
    for (;;) {
        const u8 *p = number < dollar ? number : dollar;
        if (p == end)
            return (struct bolsterweft_found){1, 0, 0, 0, 0};
        usize k = expert_nikobus(p, (usize)(end - p));
        if (k)
            return (struct bolsterweft_found){0, (usize)(p - s), k, 0, 0};
        if (p == dollar)
            dollar = next_of(p + 1, end, '$');
        number = next_of(p + 1, dollar, '#');
    }
}

static struct bolsterweft_found by_expert(u32 which, const u8 *s, usize n, usize place) {
    switch (which) {
    case 1:
        return expert_nikobuses(s, n, place);
    case 2:
        return expert_commands(s, n, place);
    case 3:
        return expert_responses(s, n, place);
    case 4:
        return expert_nibes(s, n, place);
    default:
        return expert_homiqs(s, n, place);
    }
}

#endif
