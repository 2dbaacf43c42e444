/* Register maps, and messages of the pump that they say something of, for the tests and the benchmarks in C. */
#ifndef PAIRS_MADE_H
#define PAIRS_MADE_H

#include "lines_in_c.h"
#include "messages_made.h"

enum { REGISTERS = 65536 };

static u8 map_bytes[REGISTERS];

/* A register and a value of the type that the map says; without a type the register alone. Answers how many bytes. */
static usize put_pair(u8 *p, struct map map, u32 r) {
    u32 value = (u32)any();
    usize width = type_in_map(map, r).width;
    p[0] = (u8)r;
    p[1] = (u8)(r >> 8);
    memcpy(p + 2, &value, width);
    return 2 + width;
}

#endif
