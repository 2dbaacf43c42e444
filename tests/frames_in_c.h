/* Document 01's frames in plain C, written from the document: what the proved search is compared with, and timed against. The
   length of the frame at the head of s, of which there are m bytes; 0 for none. Then document 02's verdict on a place, which names the
   first test that fails (K1). The calls below are those of bolsterweft.h. */
#ifndef FRAMES_IN_C_H
#define FRAMES_IN_C_H

#include "../include/bolsterweft.h"
#include "prelude.h"

static u16 crc_high16(u16 v, u8 b) {
    v ^= (u16)(b << 8);
    for (int k = 0; k < 8; k++)
        v = v & 0x8000 ? (u16)(v << 1 ^ 0x1021) : (u16)(v << 1);
    return v;
}

static u8 crc_high8(u8 v, u8 b) {
    v ^= b;
    for (int k = 0; k < 8; k++)
        v = v & 0x80 ? (u8)(v << 1 ^ 0x99) : (u8)(v << 1);
    return v;
}

static u8 crc_low8(u8 v, u8 b) {
    v ^= b;
    for (int k = 0; k < 8; k++)
        v = v & 1 ? v >> 1 ^ 0x8C : v >> 1;
    return v;
}

/* Nikobus */

static int hex(u8 c) {
    if (c >= '0' && c <= '9')
        return c - '0';
    if (c >= 'A' && c <= 'F')
        return c - 'A' + 10;
    return -1;
}

static int all_hex(const u8 *s, usize n) {
    for (usize i = 0; i < n; i++)
        if (hex(s[i]) < 0)
            return 0;
    return 1;
}

static u8 hex_byte(const u8 *s) { return (u8)(hex(s[0]) * 16 + hex(s[1])); }

static usize link_length(const u8 *s, usize m) {
    if (m < 3 || s[0] != '$' || !all_hex(s + 1, 2))
        return 0;
    usize n = hex_byte(s + 1);
    if (n < 0x0C || n % 2 || m < n || !all_hex(s + 3, n - 4) || s[n - 1] != '\r')
        return 0;
    u16 crc16 = 0xFFFF;
    for (usize i = 3; i < n - 7; i += 2)
        crc16 = crc_high16(crc16, hex_byte(s + i));
    if (hex_byte(s + n - 7) != crc16 >> 8 || hex_byte(s + n - 5) != (crc16 & 0xFF))
        return 0;
    u8 crc8 = 0;
    for (usize i = 0; i < n - 3; i++)
        crc8 = crc_high8(crc8, s[i]);
    return hex_byte(s + n - 3) == crc8 ? n : 0;
}

static usize nikobus_length(const u8 *s, usize m) {
    if (m >= 1 && s[0] == '$')
        return link_length(s, m);
    if (m >= 9 && s[0] == '#' && s[1] == 'N' && all_hex(s + 2, 6) && s[8] == '\r')
        return 9;
    if (m >= 4 && s[0] == '#' && s[1] == 'E' && s[2] == '1' && s[3] == '\r')
        return 4;
    return 0;
}

/* Nest: what stands behind the preamble */

static usize nest_rest(const u8 *s, usize m) {
    if (m < 6)
        return 0;
    usize n = s[2] + 256u * s[3];
    if (n > 1024 || m < n + 6)
        return 0;
    u16 crc = 0;
    for (usize i = 0; i < n + 4; i++)
        crc = crc_high16(crc, s[i]);
    return (s[n + 4] | s[n + 5] << 8) == crc ? n + 6 : 0;
}

static usize command_length(const u8 *s, usize m) {
    if (m < 3 || s[0] != 0xD5 || s[1] != 0xAA || s[2] != 0x96)
        return 0;
    usize n = nest_rest(s + 3, m - 3);
    return n ? n + 3 : 0;
}

static usize response_length(const u8 *s, usize m) {
    if (m < 4 || s[0] != 0xD5 || s[1] != 0xD5 || s[2] != 0xAA || s[3] != 0x96)
        return 0;
    usize n = nest_rest(s + 4, m - 4);
    return n ? n + 4 : 0;
}

/* Nibe */

static usize nibe_length(const u8 *s, usize m) {
    if (m < 4 || s[0] != 0xC0)
        return 0;
    switch (s[1]) {
    case 0x60:
    case 0x62:
    case 0x68:
    case 0x69:
    case 0x6A:
    case 0x6B:
    case 0x6C:
        break;
    default:
        return 0;
    }
    usize n = s[2];
    if (m < n + 4)
        return 0;
    u8 x = 0;
    for (usize i = 2; i < n + 3; i++)
        x ^= s[i];
    return x == s[n + 3] ? n + 4 : 0;
}

/* Homiq: each reader moves the place behind what it read, or sets it to 0 */

struct reader {
    const u8 *s;
    usize m;
    usize at;
};

static void read_char(struct reader *r, u8 c) {
    if (!r->at || r->at >= r->m || r->s[r->at] != c)
        r->at = 0;
    else
        r->at++;
}

static void read_field(struct reader *r, usize most) {
    if (!r->at)
        return;
    usize n = 0;
    for (; n <= most && r->at + n < r->m; n++) {
        u8 c = r->s[r->at + n];
        if (c < 0x21 || c > 0x7E || c == ';' || c == '<' || c == '>')
            break;
    }
    r->at = n >= 1 && n <= most ? r->at + n : 0;
    read_char(r, ';');
}

static u32 read_number(struct reader *r, u32 most) {
    if (!r->at)
        return 0;
    usize n = 0;
    u32 v = 0;
    for (; n < 4 && r->at + n < r->m; n++) {
        u8 c = r->s[r->at + n];
        if (c < '0' || c > '9')
            break;
        v = v * 10 + c - '0';
    }
    if (n == 0 || n > 3 || (n > 1 && r->s[r->at] == '0') || v > most)
        r->at = 0;
    else
        r->at += n;
    read_char(r, ';');
    return v;
}

/* Behind `<;`: where what is laid out as a frame ends, 0 for none; the CRC that stands there, and the one that its fields have. It is always
   inlined: a call would be timed with the length. */
static inline __attribute__((always_inline)) usize homiq_end(const u8 *s, usize m, u32 *found, u32 *expected) {
    struct reader r = {s, m, 2};
    read_field(&r, 8);
    read_field(&r, 16);
    read_field(&r, 4);
    read_field(&r, 4);
    read_number(&r, 511);
    if (r.at && r.at < m && (s[r.at] == 's' || s[r.at] == 'a'))
        r.at++;
    else
        r.at = 0;
    read_char(&r, ';');
    usize head = r.at;
    *found = read_number(&r, 255);
    read_char(&r, '>');
    read_char(&r, '\r');
    read_char(&r, '\n');
    if (!r.at)
        return 0;
    u8 v = 0;
    for (usize i = 2; i < head; i++)
        if (s[i] != ';')
            v = crc_low8(v, s[i]);
    *expected = v;
    return r.at;
}

static usize homiq_length(const u8 *s, usize m) {
    u32 found, expected;
    if (m < 2 || s[0] != '<' || s[1] != ';')
        return 0;
    usize n = homiq_end(s, m, &found, &expected);
    return n && found == expected ? n : 0;
}

/* By kind */

static inline usize length_in_c(u8 kind, const u8 *s, usize m) {
    switch (kind) {
    case 1:
        return nikobus_length(s, m);
    case 2:
        return command_length(s, m);
    case 3:
        return response_length(s, m);
    case 4:
        return nibe_length(s, m);
    default:
        return homiq_length(s, m);
    }
}

/* The kinds that there are. */
static inline int known(u32 kind) { return kind >= 1 && kind <= 5; }

/* Whether the bytes are one frame of a kind that is known. No frame is empty: a length of 0 is `none`. */
static inline int is_frame(u32 kind, const u8 *f, usize n) { return n > 0 && length_in_c((u8)kind, f, n) == n; }

/* Where a frame's payload begins, and how long it is. */
static inline void payload_in_c(u8 kind, const u8 *f, usize n, usize *start, usize *length) {
    *start = kind == 2 ? 7 : kind == 3 ? 8 : kind == 5 ? 2 : 3;
    if (kind == 1) {
        *start = f[0] == '$' ? 3 : f[1] == 'N' ? 2 : 4;
        *length = f[0] == '$' ? n - 10 : f[1] == 'N' ? 6 : 0;
    } else if (kind == 5) {
        usize fields = 0, at = 2;
        for (; fields < 6; at++)
            fields += f[at] == ';';
        *length = at - 3;
    } else {
        *length = n - (kind == 4 ? 4 : *start + 2);
    }
}

static inline struct bolsterweft_payload one_frame_in_c(u32 kind, const u8 *f, usize n) {
    struct bolsterweft_payload p = {!known(kind) ? 2 : !is_frame(kind, f, n) ? 5 : 0, 0, 0};
    if (!p.refusal)
        payload_in_c((u8)kind, f, n, &p.payload_start, &p.payload_length);
    return p;
}

/* The verdict on what stands at the head of s: each test in the order of document 02, start, length, fields, first check, second check. The
   lengths above are timed, stop as soon as they can, and know no check value where none is needed; so the verdict works out its own. */

/* Of a link of n bytes: CRC16 of the payload's bytes. */
static inline u16 link_crc16(const u8 *s, usize n) {
    u16 crc16 = 0xFFFF;
    for (usize i = 3; i < n - 7; i += 2)
        crc16 = crc_high16(crc16, hex_byte(s + i));
    return crc16;
}

/* And CRC8 of the characters before it. */
static inline u8 link_crc8(const u8 *s, usize n) {
    u8 crc8 = 0;
    for (usize i = 0; i < n - 3; i++)
        crc8 = crc_high8(crc8, s[i]);
    return crc8;
}

/* Of id, length and n bytes behind them. */
static inline u16 nest_crc(const u8 *s, usize n) {
    u16 crc = 0;
    for (usize i = 0; i < n + 4; i++)
        crc = crc_high16(crc, s[i]);
    return crc;
}

/* Of the length and n bytes behind it. */
static inline u8 nibe_xor(const u8 *s, usize n) {
    u8 x = 0;
    for (usize i = 0; i <= n; i++)
        x ^= s[i];
    return x;
}

static inline int is_command(u8 c) { return c == 0x60 || c == 0x62 || c == 0x68 || c == 0x69 || c == 0x6A || c == 0x6B || c == 0x6C; }

enum test_in_c { NO_TEST, AT_START, AT_LENGTH, AT_FIELDS, AT_FIRST_CHECK, AT_SECOND_CHECK, TESTS_IN_C };

static inline struct bolsterweft_verdict fails(u32 test) {
    struct bolsterweft_verdict v = {0, test, 0, 0};
    return v;
}

/* The values are reported if they differ. */
static inline struct bolsterweft_verdict compared(u32 test, u32 found, u32 expected) {
    struct bolsterweft_verdict v = {0, test, found, expected};
    return found == expected ? fails(NO_TEST) : v;
}

static inline struct bolsterweft_verdict link_verdict(const u8 *s, usize m) {
    usize n = m < 3 || !all_hex(s + 1, 2) ? 0 : hex_byte(s + 1);
    if (n < 0x0C || n > 0xFE || n % 2 || m < n)
        return fails(AT_LENGTH);
    if (!all_hex(s + 3, n - 4) || s[n - 1] != '\r')
        return fails(AT_FIELDS);
    struct bolsterweft_verdict first = compared(AT_FIRST_CHECK, hex_byte(s + n - 7) * 256u + hex_byte(s + n - 5), link_crc16(s, n));
    return first.test ? first : compared(AT_SECOND_CHECK, hex_byte(s + n - 3), link_crc8(s, n));
}

static inline struct bolsterweft_verdict nikobus_verdict(const u8 *s, usize m) {
    if (m >= 1 && s[0] == '$')
        return link_verdict(s, m);
    if (m >= 2 && s[0] == '#' && s[1] == 'N')
        return fails(m < 9 ? AT_LENGTH : !all_hex(s + 2, 6) || s[8] != '\r' ? AT_FIELDS : NO_TEST);
    if (m >= 3 && s[0] == '#' && s[1] == 'E' && s[2] == '1')
        return fails(m < 4 ? AT_LENGTH : s[3] != '\r' ? AT_FIELDS : NO_TEST);
    return fails(AT_START);
}

/* Every id and every payload is allowed, so that no field can fail. */
static inline struct bolsterweft_verdict nest_verdict(const u8 *preamble, usize k, const u8 *s, usize m) {
    if (m < k || memcmp(s, preamble, k) != 0)
        return fails(AT_START);
    usize n = m < k + 4 ? 1025 : s[k + 2] + 256u * s[k + 3];
    if (n > 1024 || m < k + n + 6)
        return fails(AT_LENGTH);
    return compared(AT_FIRST_CHECK, s[k + n + 4] + 256u * s[k + n + 5], nest_crc(s + k, n));
}

static inline struct bolsterweft_verdict nibe_verdict(const u8 *s, usize m) {
    if (m < 1 || s[0] != 0xC0)
        return fails(AT_START);
    if (m < 3 || m < s[2] + 4u)
        return fails(AT_LENGTH);
    if (!is_command(s[1]))
        return fails(AT_FIELDS);
    return compared(AT_FIRST_CHECK, s[s[2] + 3], nibe_xor(s + 2, s[2]));
}

static inline struct bolsterweft_verdict homiq_verdict(const u8 *s, usize m) {
    u32 found, expected;
    if (m < 2 || s[0] != '<' || s[1] != ';')
        return fails(AT_START);
    if (!homiq_end(s, m, &found, &expected))
        return fails(AT_FIELDS);
    return compared(AT_FIRST_CHECK, found, expected);
}

static inline struct bolsterweft_verdict verdict_in_c(u8 kind, const u8 *s, usize m) {
    static const u8 response[] = {0xD5, 0xD5, 0xAA, 0x96};
    switch (kind) {
    case 1:
        return nikobus_verdict(s, m);
    case 2:
        return nest_verdict(response + 1, 3, s, m);
    case 3:
        return nest_verdict(response, 4, s, m);
    case 4:
        return nibe_verdict(s, m);
    default:
        return homiq_verdict(s, m);
    }
}

static inline struct bolsterweft_verdict why_in_c(u32 kind, const u8 *s, usize n, usize place) {
    struct bolsterweft_verdict v = {!known(kind) ? 2 : place > n ? 3 : 0, 0, 0, 0};
    return v.refusal ? v : verdict_in_c((u8)kind, s + place, n - place);
}

/* Whether bytes of the kind can fail at the test. Only Homiq has no length, only Nest no fields, only Nikobus two checks. */
static inline int can_fail(u8 kind, u32 test) {
    switch (test) {
    case AT_LENGTH:
        return kind != 5;
    case AT_FIELDS:
        return kind != 2 && kind != 3;
    case AT_SECOND_CHECK:
        return kind == 1;
    default:
        return 1;
    }
}

/* The frame with the smallest start. */
static inline struct bolsterweft_found search_in_c(u32 kind, const u8 *s, usize n, usize place) {
    struct bolsterweft_found r = {!known(kind) ? 2 : place > n ? 3 : 1, 0, 0, 0, 0};
    if (r.refusal != 1)
        return r;
    for (usize i = place; i < n; i++) {
        r.length = length_in_c((u8)kind, s + i, n - i);
        if (r.length) {
            r.refusal = 0;
            r.start = i;
            payload_in_c((u8)kind, s + i, r.length, &r.payload_start, &r.payload_length);
            r.payload_start += i;
            return r;
        }
    }
    return r;
}

#endif
