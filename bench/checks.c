/* The check values, against the same loops in C. */
#include "../tests/probe.h"
#include "table.h"

/* The same loops, bit by bit, as one would write them in C. */
static u16 high16(u16 v, const u8 *s, usize n) {
    for (usize i = 0; i < n; i++) {
        v ^= (u16)(s[i] << 8);
        for (int k = 0; k < 8; k++)
            v = v & 0x8000 ? (u16)(v << 1 ^ 0x1021) : (u16)(v << 1);
    }
    return v;
}

static u8 high8(u8 v, const u8 *s, usize n) {
    for (usize i = 0; i < n; i++) {
        v ^= s[i];
        for (int k = 0; k < 8; k++)
            v = v & 0x80 ? (u8)(v << 1 ^ 0x99) : (u8)(v << 1);
    }
    return v;
}

static u8 low8(u8 v, const u8 *s, usize n) {
    for (usize i = 0; i < n; i++) {
        v ^= s[i];
        for (int k = 0; k < 8; k++)
            v = v & 1 ? v >> 1 ^ 0x8C : v >> 1;
    }
    return v;
}

static u8 xor8(u8 v, const u8 *s, usize n) {
    for (usize i = 0; i < n; i++)
        v ^= s[i];
    return v;
}

#define OF(name, call)                                                                                                     \
    static __attribute__((noinline)) u32 name(const u8 *s, usize n) { return call; }
OF(c_nikobus_crc16, high16(0xFFFF, s, n))
OF(c_nikobus_crc8, high8(0, s, n))
OF(c_nest_crc, high16(0, s, n))
OF(c_nibe_xor, xor8(0, s, n))
OF(c_homiq_crc, low8(0, s, n))
OF(r_nikobus_crc16, probe_nikobus_crc16(s, n))
OF(r_nikobus_crc8, probe_nikobus_crc8(s, n))
OF(r_nest_crc, probe_nest_crc(s, n))
OF(r_nibe_xor, probe_nibe_xor(s, n))
OF(r_homiq_crc, probe_homiq_crc(s, n))

static u8 s[FULL];
static usize length;
static u32 ours_is, theirs_is;

static usize make(usize size) {
    u32 x = 1;
    for (usize i = 0; i < size; i++) {
        x = x * 1664525u + 1013904223u;
        s[i] = (u8)(x >> 24);
    }
    return length = size;
}

static int same(void) { return ours_is == theirs_is; }

#define JOB(name)                                                                                                          \
    static void ours_##name(void) { ours_is = r_##name(s, length); }                                                       \
    static void theirs_##name(void) { theirs_is = c_##name(s, length); }                                                   \
    static const struct job job_##name = {make, ours_##name, theirs_##name, same, 0};
JOB(nikobus_crc16)
JOB(nikobus_crc8)
JOB(nest_crc)
JOB(nibe_xor)
JOB(homiq_crc)

int main(void) {
    int bad = row("check", "Nikobus: CRC16", 1.15, &job_nikobus_crc16);
    bad += row("check", "Nikobus: CRC8", 1.15, &job_nikobus_crc8);
    bad += row("check", "Nest: CRC", 1.15, &job_nest_crc);
    bad += row("check", "Nibe: XOR", 1.15, &job_nibe_xor);
    bad += row("check", "Homiq: CRC", 1.15, &job_homiq_crc);
    return bad ? 1 : 0;
}
