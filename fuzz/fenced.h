/* Bytes before or behind which a page stands that may not be touched: if the code under test, which knows nothing of sanitizers, reads or
   writes outside what it was lent, the run ends. A page before and a page behind at once would need a length of whole pages. So an input is
   tried twice: with all that is lent right before a fence, and right behind one. */
#ifndef FENCED_H
#define FENCED_H

#include "../tests/prelude.h"
#include <stdio.h>
#include <stdlib.h>
#include <sys/mman.h>

enum { FENCED = 0x210000, PAGE = 0x1000, FENCES = 4 };

/* Which side the fence is on. */
enum side { BEHIND, BEFORE, SIDES };
static enum side fence;

/* n bytes, each so, right before a fence or right behind one. There are FENCES of them, which do not overlap. */
static u8 *fenced(int which, usize n, u8 byte) {
    static u8 *froms[FENCES];
    if (!froms[which]) {
        u8 *page = mmap(0, PAGE + FENCED + PAGE, PROT_READ | PROT_WRITE, MAP_PRIVATE | MAP_ANONYMOUS, -1, 0);
        if (page == MAP_FAILED || mprotect(page, PAGE, PROT_NONE) || mprotect(page + PAGE + FENCED, PAGE, PROT_NONE))
            abort();
        froms[which] = page + PAGE;
    }
    if (n > FENCED)
        abort();
    return memset(froms[which] + (fence == BEFORE ? 0 : FENCED - n), byte, n);
}

static const u8 *fenced_copy(int which, const u8 *bytes, usize n) { return memcpy(fenced(which, n, 0), bytes, n); }

/* Ends the run if the two sides differ; the fuzzer keeps the input. */
static inline void agree(int same, const char *what) {
    if (!same) {
        fprintf(stderr, "THE TWO DIFFER: %s\n", what);
        abort();
    }
}

static inline int all_same(const u8 *s, usize n, u8 byte) {
    for (usize i = 0; i < n; i++)
        if (s[i] != byte)
            return 0;
    return 1;
}

/* What a room is filled with before a call. */
enum { SOME = 0xEE };

/* A call that writes into a room of m bytes: it answered the same as C, wrote the same, and nothing else. */
static inline void agree_written(struct bolsterweft_count w, const u8 *room, struct bolsterweft_count c, const u8 *in_c, usize m, const char *what) {
    agree(w.refusal == c.refusal && w.length == c.length && !memcmp(room, in_c, w.length) && all_same(room + w.length, m - w.length, SOME), what);
}

#endif
