/* What the tests in C draw their inputs from: numbers that a seed gives, so that a run can be had again. */
#ifndef TRIALS_H
#define TRIALS_H

#include "prelude.h"

static u64 state;

static u64 any(void) {
    state ^= state << 13;
    state ^= state >> 7;
    state ^= state << 17;
    return state * 0x2545F4914F6CDD1Du >> 8;
}

/* Takes the seed from the program's first argument, 0 if it has none, and prints it. */
static inline void begin(int count, char **words) {
    u64 seed = 0;
    if (count > 1)
        for (const char *p = words[1]; *p >= '0' && *p <= '9'; p++)
            seed = seed * 10 + (u64)(*p - '0');
    printf("seed %lu\n", (unsigned long)seed);
    state = seed * 0x9E3779B97F4A7C15u + 1;
}

#endif
