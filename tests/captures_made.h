/* Captures, drawn at random, for the tests in C: good frames, spoilt frames, frames of other kinds, bit flips, cut frames, false starts
   and noise. And numbers that C could cut to a kind, or to a number of few bits. */
#ifndef CAPTURES_MADE_H
#define CAPTURES_MADE_H

#include "messages_made.h"

/* A capture that is made has at most this number of bytes, and its last frame. */
enum { MOST_CAPTURE = 6000, CAPTURE_ROOM = MOST_CAPTURE + 2048 };

static inline usize made(u8 kind, u8 *f, int spoilt) {
    static const u8 commands[] = {0x60, 0x62, 0x68, 0x69, 0x6A, 0x6B, 0x6C};
    static const char characters[] = "!#$%&0123456789=?@ABCXYZ_abcxyz{|}~.";
    u8 seed = (u8)any();
    usize n = any() % 4 ? any() % 12 : any() % 130;
    if (kind == 1) {
        u64 form = any() % 4;
        if (form == 0)
            return (usize)snprintf((char *)f, 20, "#N%06X\r", (unsigned)(any() & 0xFFFFFF));
        if (form == 1)
            return (usize)snprintf((char *)f, 20, "#E1\r");
        return made_link(f, n % 122 + 1, seed, spoilt);
    }
    if (kind == 2 || kind == 3)
        return made_nest(f, kind, any() % 40 ? n : 1024, seed, spoilt);
    if (kind == 4)
        return made_nibe(f, commands[any() % 7], any() % 40 ? n : 255, seed, spoilt);
    char fields[80];
    usize at = 0, most[] = {8, 16, 4, 4};
    for (int k = 0; k < 4; k++) {
        for (usize i = any() % most[k] + 1; i; i--)
            fields[at++] = characters[any() % (sizeof characters - 1)];
        fields[at++] = ';';
    }
    snprintf(fields + at, 20, "%u;%c", (unsigned)(any() % 513), any() % 2 ? 's' : 'a');
    return made_homiq(f, fields, spoilt);
}

/* A start mark, and then nothing good. */
static inline usize false_start(u8 kind, u8 *f) {
    static const u8 marks[][8] = {{0}, "$FE", {0xD5, 0xAA, 0x96, 1, 0, 0, 4}, {0xD5, 0xD5, 0xAA, 0x96, 1, 0, 0, 4}, {0xC0, 0x68, 0xFF}, "<;A;1;"};
    static const usize sizes[] = {0, 3, 7, 8, 3, 6};
    memcpy(f, marks[kind], sizes[kind]);
    return any() % sizes[kind] + 1;
}

static inline usize fill_capture(u8 *capture, u8 kind) {
    usize n = 0, wanted = any() % (any() % 8 ? 400 : MOST_CAPTURE);
    while (n < wanted) {
        usize from = n;
        switch (any() % 7) {
        case 0:
            n += false_start(kind, capture + n);
            break;
        case 1:
            for (usize i = any() % 20; i; i--)
                capture[n++] = (u8)any();
            break;
        case 2:
            n += made(kind, capture + n, 1);
            break;
        case 3:
            n += made((u8)(any() % 5 + 1), capture + n, 0);
            break;
        default:
            n += any() % 2 ? made(kind, capture + n, 0) : message(capture + n, kind);
        }
        if (n > from && any() % 5 == 0)
            capture[from + any() % (n - from)] ^= (u8)(1u << any() % 8);
        if (n > from && any() % 9 == 0)
            n = from + any() % (n - from);
    }
    return n;
}

/* A number whose low 8, 16 or 24 bits are `low`, and which is another: what a cut would turn into `low`. */
static inline u32 wide(u32 low) {
    static const u32 above[] = {256, 260 - 4, 65536, 65540 - 4, 0x01000000, 0x80000000, 0xFFFFFF00, 0xFFFF0000};
    return low + above[any() % (sizeof above / sizeof *above)];
}

/* A kind that there is not. */
static inline u32 unknown_kind(void) {
    static const u32 some[] = {0, 6, 7, 255, 256, 260, 65540, 0xFFFFFFFF};
    u64 way = any() % 3;
    return way == 0 ? some[any() % 8] : way == 1 ? wide((u32)(any() % 5) + 1) : (u32)any() | 8;
}

#endif
