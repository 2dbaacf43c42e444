/* A room that is lent for writing, with bytes before and behind it that are known too: whether anything else was written shows. */
#ifndef LENT_H
#define LENT_H

#include "../include/bolsterweft.h"
#include "trials.h"

enum { LENT_MOST = BOLSTERWEFT_LIST_ROOM + 64, LENT_GUARD = 32 };

static u8 lent[LENT_GUARD + LENT_MOST + LENT_GUARD], lent_fill;

/* m bytes, all alike. */
static inline u8 *lend_room(usize m) {
    lent_fill = (u8)any();
    memset(lent, lent_fill, LENT_GUARD + m + LENT_GUARD);
    return lent + LENT_GUARD;
}

static inline int all_same(const u8 *s, usize n, u8 byte) {
    for (usize i = 0; i < n; i++)
        if (s[i] != byte)
            return 0;
    return 1;
}

/* Whether, of the m bytes and those around them, at most the first n have been written. */
static inline int only_written(usize n, usize m) {
    return all_same(lent, LENT_GUARD, lent_fill) && all_same(lent + LENT_GUARD + n, m - n + LENT_GUARD, lent_fill);
}

#endif
