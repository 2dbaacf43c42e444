/* Short messages, drawn at random, each row of document 01's table as often as any other: for the tests and the benchmarks. Each answers
   its frame's length. */
#ifndef MESSAGES_MADE_H
#define MESSAGES_MADE_H

#include "frames_made.h"
#include "trials.h"

static u8 of(const char *choices, usize n) { return (u8)choices[any() % n]; }

static usize nikobus_message(u8 *f, const u8 *any_bytes) {
    u8 b[16];
    memcpy(b, any_bytes, sizeof b);
    switch (any() % 6) {
    case 0:
        b[0] = of("\x12\x17", 2);
        return link_of(f, b, 3, 0);
    case 1:
        b[0] = of("\x15\x16", 2);
        b[9] = 0xFF;
        return link_of(f, b, 10, 0);
    case 2:
        return link_of(f, b, 9, 0);
    case 3:
        return (usize)snprintf((char *)f, 20, "#N%06X\r", (unsigned)(any() & 0xFFFFFF));
    case 4:
        return (usize)snprintf((char *)f, 20, "#E1\r");
    default:
        return link_of(f, b, any() % 8 + 1, 0);
    }
}

static usize response_message(u8 *f, const u8 *any_bytes) {
    switch (any() % 6) {
    case 0:
        return nest_of(f, 3, 0x02, any_bytes, 4, 0);
    case 1:
        return nest_of(f, 3, 0x0B, any_bytes, 16, 0);
    case 2:
        return nest_of(f, 3, 0x01, (const u8 *)"BRK", 3, 0);
    case 3:
        return nest_of(f, 3, 0x2F, any_bytes, 0, 0);
    case 4:
        return nest_of(f, 3, 0x18, (const u8 *)"4.2.8 2019-04-03\r\"\\\xFF", any() % 20, 0);
    default:
        return nest_of(f, 3, (u32)(any() % 0xFF00 + 0x100), any_bytes, any() % 12, 0);
    }
}

static usize nibe_message(u8 *f, const u8 *any_bytes) {
    static const u8 done[] = {0, 1};
    switch (any() % 5) {
    case 0:
        return nibe_of(f, 0x69, any_bytes, 2, 0);
    case 1:
    case 2:
        return nibe_of(f, of("\x6A\x6B", 2), any_bytes, of("\x03\x04\x06", 3), 0);
    case 3:
        return nibe_of(f, 0x6C, done + any() % 2, 1, 0);
    default:
        return nibe_of(f, of("\x60\x62\x68", 3), any_bytes, any() % 12, 0);
    }
}

static usize homiq_message(u8 *f) {
    char cmd[16], fields[64];
    u8 val = of("01", 2);
    switch (any() % 5) {
    case 0:
        snprintf(cmd, sizeof cmd, "O.%u", (unsigned)(any() % 10));
        break;
    case 1:
        snprintf(cmd, sizeof cmd, "I.%u", (unsigned)(any() % 16));
        break;
    case 2:
        snprintf(cmd, sizeof cmd, "UD");
        val = of("uds", 3);
        break;
    case 3:
        snprintf(cmd, sizeof cmd, "HB");
        val = '1';
        break;
    default:
        snprintf(cmd, sizeof cmd, "S.%u", (unsigned)(any() % 1000));
    }
    snprintf(fields, sizeof fields, "%s;%c;0H;%u;%u;%c", cmd, val, (unsigned)(any() % 100), (unsigned)(any() % 512), of("sa", 2));
    return made_homiq(f, fields, 0);
}

static usize message(u8 *f, u8 kind) {
    u8 any_bytes[16];
    for (usize i = 0; i < sizeof any_bytes; i++)
        any_bytes[i] = (u8)any();
    switch (kind) {
    case 1:
        return nikobus_message(f, any_bytes);
    case 2:
        return nest_of(f, 2, (u32)(any() & 0xFFFF), any_bytes, any() % 12, 0);
    case 3:
        return response_message(f, any_bytes);
    case 4:
        return nibe_message(f, any_bytes);
    default:
        return homiq_message(f);
    }
}

#endif
