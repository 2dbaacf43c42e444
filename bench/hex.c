/* Bytes as hex digits into a room, against the usual loop over a table in C. */
#include "../tests/probe.h"
#include "table.h"

static u8 s[FULL], room[2 * FULL], other[2 * FULL];
static usize length, ours_is, theirs_is;

static __attribute__((noinline)) usize by_table(const u8 *bytes, usize n, u8 *to) {
    static const u8 digits[] = "0123456789ABCDEF";
    for (usize i = 0; i < n; i++) {
        to[2 * i] = digits[bytes[i] >> 4];
        to[2 * i + 1] = digits[bytes[i] & 15];
    }
    return 2 * n;
}

static usize make(usize size) {
    u32 x = 1;
    for (usize i = 0; i < size; i++) {
        x = x * 1664525u + 1013904223u;
        s[i] = (u8)(x >> 24);
    }
    return length = size;
}

static void ours(void) { ours_is = probe_hex(s, length, room, 2 * length, 0); }
static void theirs(void) { theirs_is = by_table(s, length, other); }
static int same(void) { return ours_is == theirs_is && !memcmp(room, other, ours_is); }

int main(void) {
    static const struct job job = {make, ours, theirs, same, 0};
    return row("hex", "64 KiB of any bytes", 1.0, &job) ? 1 : 0;
}
