/* Document 01's numbers in plain C, written from the document: texts by C's own `%llu` and a point put in, and read by the grammar,
   character by character; bytes by C's own integers; floats by the machine's own casts. The calls are those of bolsterweft.h. */
#ifndef NUMBERS_IN_C_H
#define NUMBERS_IN_C_H

#include "../include/bolsterweft.h"
#include "prelude.h"

static const i64 LOWEST = -2147483648LL, HIGHEST = 4294967295LL;

static int in_range(i64 raw) { return LOWEST <= raw && raw <= HIGHEST; }

/* The text of a raw number, as C writes it, with zeros in front for the decimals and a point put in. */
static usize text_of(i64 raw, u32 decimals, char *out) {
    char digits[32];
    usize n = (usize)snprintf(digits, sizeof digits, "%0*llu", (int)decimals + 1, (unsigned long long)(raw < 0 ? -(u64)raw : (u64)raw)), k = 0;
    if (raw < 0)
        out[k++] = '-';
    for (usize i = 0; i < n; i++) {
        if (decimals && i == n - decimals)
            out[k++] = '.';
        out[k++] = digits[i];
    }
    return k;
}

static int is_digit(u8 c) { return '0' <= c && c <= '9'; }

/* The grammar of 01: [-] (0 | 1-9 digits) [. 1 to 3 digits], no minus on zero, the number in range. */
static struct bolsterweft_reading number_in_c(const u8 *t, usize n) {
    struct bolsterweft_reading none = {7, 0, 0}, r = {0, 0, 0};
    usize i = 0;
    int minus = n && t[0] == '-';
    i64 value = 0;
    i += (usize)minus;
    usize first = i;
    while (i < n && is_digit(t[i]) && i - first < 11)
        value = value * 10 + (t[i++] - '0');
    if (i == first || (t[first] == '0' && i > first + 1))
        return none;
    if (i < n) {
        if (t[i++] != '.')
            return none;
        while (i < n && is_digit(t[i]) && r.decimals < 3) {
            value = value * 10 + (t[i++] - '0');
            r.decimals++;
        }
        if (!r.decimals || i < n)
            return none;
    }
    r.raw = minus ? -value : value;
    return (minus && !value) || !in_range(r.raw) ? none : r;
}

/* Only for decimals up to 3 and a number in range is there a text. */
static inline struct bolsterweft_count text_in_c(i64 raw, u32 decimals, u8 *room, usize m) {
    char own[40];
    if (decimals > 3)
        return (struct bolsterweft_count){7, 0};
    if (!in_range(raw))
        return (struct bolsterweft_count){5, 0};
    usize n = text_of(raw, decimals, own);
    if (n > m)
        return (struct bolsterweft_count){4, 0};
    memcpy(room, own, n);
    return (struct bolsterweft_count){0, n};
}

static inline int is_width(u32 width) { return width == 1 || width == 2 || width == 4; }

/* The bytes as C's own integers have them, since the machine is little-endian; and whether they hold the number. */
static inline int held(i64 raw, u32 width, int is_signed, u8 *out) {
    i8 s1 = (i8)raw;
    i16 s2 = (i16)raw;
    i32 s4 = (i32)raw;
    u8 u1 = (u8)raw;
    u16 u2 = (u16)raw;
    u32 u4 = (u32)raw;
    const void *as = is_signed ? width == 1 ? (void *)&s1 : width == 2 ? (void *)&s2 : (void *)&s4
                               : width == 1 ? (void *)&u1 : width == 2 ? (void *)&u2 : (void *)&u4;
    memcpy(out, as, width);
    if (is_signed)
        return (width == 1 ? s1 : width == 2 ? s2 : s4) == raw;
    return (i64)(width == 1 ? u1 : width == 2 ? u2 : u4) == raw;
}

static inline struct bolsterweft_count value_in_c(i64 raw, u32 width, u32 is_signed, u8 *room, usize m) {
    u8 own[4];
    if (!is_width(width))
        return (struct bolsterweft_count){7, 0};
    if (!held(raw, width, is_signed != 0, own))
        return (struct bolsterweft_count){5, 0};
    if (m < width)
        return (struct bolsterweft_count){4, 0};
    memcpy(room, own, width);
    return (struct bolsterweft_count){0, width};
}

static inline struct bolsterweft_raw value_read_in_c(const u8 *s, usize n, u32 width, u32 is_signed) {
    if (!is_width(width))
        return (struct bolsterweft_raw){7, 0};
    if (n != width)
        return (struct bolsterweft_raw){5, 0};
    i64 value = 0;
    for (usize i = 0; i < width; i++)
        value += (i64)s[i] << 8 * i;
    return (struct bolsterweft_raw){0, is_signed && s[width - 1] >= 0x80 ? value - ((i64)1 << 8 * width) : value};
}

/* What the machine's own casts keep. */
static inline int cast_keeps(i64 raw) { return (double)(float)raw == (double)raw; }

static inline struct bolsterweft_fit fits_in_c(i64 raw) {
    return in_range(raw) ? (struct bolsterweft_fit){0, cast_keeps(raw) ? 1 : 0} : (struct bolsterweft_fit){5, 0};
}

static inline struct bolsterweft_panel_value panel_in_c(i64 raw) {
    if (!in_range(raw))
        return (struct bolsterweft_panel_value){5, 0, 0, 0};
    if (cast_keeps(raw))
        return (struct bolsterweft_panel_value){0, 4, (float)raw, 0};
    return (struct bolsterweft_panel_value){0, 8, 0, (double)raw};
}

static inline struct bolsterweft_climate climate_in_c(i32 temperature, u32 humidity) {
    if (temperature < -32768 || temperature > 32767 || humidity > 65535)
        return (struct bolsterweft_climate){5, 0, 0};
    return (struct bolsterweft_climate){0, (float)temperature, (float)humidity};
}

#endif
