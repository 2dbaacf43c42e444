/* The calls for C on standard input and output, for the comparison with the second decoder (tests/second_c).

   A request is a line: the call's name and its arguments in order, one space between them. A number is decimal digits without leading
   zeros, with `-` before a negative one; a pointer and its length are one word, the bytes in upper-case hex, `-` for none; a room is its
   length. A line may have 300,000 bytes, the bytes of one request 131,072, a room 2,097,202. The answer is a line: `ok` and the members
   behind `refusal`, in order, a float as `single` or `double` and the whole number that it is; or `refused` and the number. If a room was
   lent, `room` follows, its bytes up to the last that is not EE, `+`, and how many bytes EE follow. What is no request is answered with
   `request?`. All of it is as in docs/CALLS.md.

   What an answer cannot show is looked at too: a refusal's other members, the bytes around the room, and the bytes that were lent to be
   read. If one of them is not as it must be, the answer says so, and no answer of the second decoder is like that. */
#include "../include/bolsterweft.h"

#include <stdio.h>
#include <string.h>
#include <unistd.h>

enum { LINE_MOST = 300000, BYTES_MOST = 131072, ROOM_MOST = 2097202, GUARD = 64, FRESH = 0xEE };

/* ---- lines */

static uint8_t line[LINE_MOST + 1];
static size_t line_length;

/* The next byte of standard input, or -1. */
static int next_byte(void) {
    static uint8_t buffer[1 << 16];
    static size_t at, length;
    if (at == length) {
        ssize_t count = read(STDIN_FILENO, buffer, sizeof buffer);
        if (count <= 0)
            return -1;
        at = 0;
        length = (size_t)count;
    }
    return buffer[at++];
}

/* Reads a line, of which a byte too many is kept to show that it is too long. Whether there is one. */
static int next_line(void) {
    int c = next_byte(), begun = c >= 0;
    for (line_length = 0; c >= 0 && c != '\n'; c = next_byte())
        if (line_length <= LINE_MOST)
            line[line_length++] = (uint8_t)c;
    return begun;
}

/* ---- words: what is not as it must be sets `bad` */

static size_t word_at;
static int bad;

/* The next word, and its length. */
static const uint8_t *word(size_t *length) {
    const uint8_t *from = line + word_at;
    size_t at = word_at;
    if (word_at > line_length)
        bad = 1;
    while (at < line_length && line[at] != ' ')
        at++;
    *length = at < word_at ? 0 : at - word_at;
    word_at = at + 1;
    return from;
}

/* A magnitude with or without a sign, up to 2^64 - 1. */
static uint64_t magnitude(int *minus) {
    size_t n, i = 0;
    const uint8_t *s = word(&n);
    uint64_t value = 0;
    *minus = n > 0 && s[0] == '-';
    if (*minus)
        i = 1;
    if (bad || i == n || (s[i] == '0' && (n > i + 1 || *minus)))
        bad = 1;
    for (; !bad && i < n; i++) {
        uint64_t digit = (uint64_t)(s[i] - '0');
        if (s[i] < '0' || s[i] > '9' || value > (~(uint64_t)0 - digit) / 10)
            bad = 1;
        else
            value = value * 10 + digit;
    }
    return bad ? 0 : value;
}

static uint64_t unsigned_number(uint64_t most) {
    int minus;
    uint64_t value = magnitude(&minus);
    if (minus || value > most)
        bad = 1;
    return value;
}

static int64_t signed_number(uint64_t most) {
    int minus;
    uint64_t value = magnitude(&minus);
    if (value > most + (minus ? 1 : 0))
        bad = 1;
    return bad ? 0 : minus ? -(int64_t)(value - 1) - 1 : (int64_t)value;
}

static uint32_t u32(void) { return (uint32_t)unsigned_number(UINT32_MAX); }
static int32_t i32(void) { return (int32_t)signed_number(INT32_MAX); }
static int64_t i64(void) { return signed_number(~(uint64_t)0 >> 1); }
static size_t size(void) { return (size_t)unsigned_number(~(uint64_t)0); }

/* ---- what is lent */

/* Bytes to be read: twice, so that a change shows. */
struct bytes {
    uint8_t lent[GUARD + BYTES_MOST + GUARD], kept[GUARD + BYTES_MOST + GUARD], *at;
    size_t length;
};

static struct bytes first, second;
static size_t bytes_left;
static uint8_t lent_room[GUARD + ROOM_MOST + GUARD], *const room = lent_room + GUARD;
static size_t room_length;
static int has_room;

static int hex_value(uint8_t c) { return c >= '0' && c <= '9' ? c - '0' : c >= 'A' && c <= 'F' ? c - 'A' + 10 : -1; }

static void read_bytes(struct bytes *b) {
    size_t n, i;
    const uint8_t *s = word(&n);
    b->at = b->lent + GUARD;
    b->length = 0;
    memset(b->lent, 0x5A, GUARD);
    if (bad || n == 0 || (n == 1 && s[0] != '-') || (n > 1 && n % 2 != 0) || n / 2 > bytes_left) {
        bad = 1;
        return;
    }
    for (i = 0; i < n / 2; i++) {
        int high = hex_value(s[2 * i]), low = hex_value(s[2 * i + 1]);
        if (high < 0 || low < 0) {
            bad = 1;
            return;
        }
        b->at[i] = (uint8_t)(16 * high + low);
    }
    b->length = n / 2;
    bytes_left -= b->length;
    memset(b->at + b->length, 0x5A, GUARD);
    memcpy(b->kept, b->lent, GUARD + b->length + GUARD);
}

static void lend_room(void) {
    room_length = (size_t)unsigned_number(ROOM_MOST);
    has_room = 1;
    if (!bad)
        memset(lent_room, FRESH, GUARD + room_length + GUARD);
}

/* There are no more words, and all were right. */
static int complete(void) { return !bad && word_at == line_length + 1; }

static int altered(const struct bytes *b) { return b->length && memcmp(b->lent, b->kept, GUARD + b->length + GUARD) != 0; }

static int guards_altered(void) {
    size_t i;
    for (i = 0; has_room && i < GUARD; i++)
        if (lent_room[i] != FRESH || room[room_length + i] != FRESH)
            return 1;
    return 0;
}

/* ---- answers */

static void print_room(void) {
    static const char digits[] = "0123456789ABCDEF";
    size_t used = room_length, i;
    while (used > 0 && room[used - 1] == FRESH)
        used--;
    printf(" room %s", used ? "" : "-");
    for (i = 0; i < used; i++) {
        putchar(digits[room[i] / 16]);
        putchar(digits[room[i] % 16]);
    }
    printf("+%lu", (unsigned long)(room_length - used));
}

/* Up to four numbers. In a refusal all must be 0. */
static void answer(uint32_t refusal, int count, int64_t a, int64_t b, int64_t c, int64_t d) {
    const int64_t members[] = {a, b, c, d};
    int i;
    if (refusal != 0) {
        printf("refused %u", (unsigned)refusal);
        if (a || b || c || d)
            printf(" (not all zeros)");
    } else {
        printf("ok");
        for (i = 0; i < count; i++)
            printf(" %lld", (long long)members[i]);
    }
}

static void answer_count(struct bolsterweft_count c) { answer(c.refusal, 1, (int64_t)c.length, 0, 0, 0); }

static void answer_panel(struct bolsterweft_panel_value v) {
    if (v.refusal != 0)
        answer(v.refusal, 0, v.size != 0, v.single != 0, v.wide != 0, 0);
    else if (v.size == 4 && v.wide == 0)
        printf("ok single %lld", (long long)v.single);
    else if (v.size == 8 && v.single == 0)
        printf("ok double %lld", (long long)v.wide);
    else
        printf("(neither a single nor a double)");
}

/* ---- the calls: each reads its words, and if they are complete calls and answers */

static void search(void) {
    uint32_t kind = u32();
    read_bytes(&first);
    size_t place = size();
    if (!complete())
        return;
    struct bolsterweft_found f = bolsterweft_search(kind, first.at, first.length, place);
    answer(f.refusal, 4, (int64_t)f.start, (int64_t)f.length, (int64_t)f.payload_start, (int64_t)f.payload_length);
}

static void why(void) {
    uint32_t kind = u32();
    read_bytes(&first);
    size_t place = size();
    if (!complete())
        return;
    struct bolsterweft_verdict v = bolsterweft_why(kind, first.at, first.length, place);
    answer(v.refusal, 3, v.test, v.found, v.expected, 0);
}

static void one_frame(void) {
    uint32_t kind = u32();
    read_bytes(&first);
    if (!complete())
        return;
    struct bolsterweft_payload p = bolsterweft_one_frame(kind, first.at, first.length);
    answer(p.refusal, 2, (int64_t)p.payload_start, (int64_t)p.payload_length, 0, 0);
}

static void acknowledge(void) {
    read_bytes(&first);
    lend_room();
    if (complete())
        answer_count(bolsterweft_acknowledge(first.at, first.length, room, room_length));
}

static void encode(void) {
    read_bytes(&first);
    lend_room();
    if (complete())
        answer_count(bolsterweft_encode(first.at, first.length, room, room_length));
}

static void write_line(void) {
    uint32_t kind = u32();
    read_bytes(&first);
    size_t at = size();
    lend_room();
    if (complete())
        answer_count(bolsterweft_line(kind, first.at, first.length, at, room, room_length));
}

static void line_next(void) {
    uint32_t kind = u32();
    read_bytes(&first);
    size_t place = size();
    lend_room();
    if (!complete())
        return;
    struct bolsterweft_listed l = bolsterweft_line_next(kind, first.at, first.length, place, room, room_length);
    answer(l.refusal, 3, (int64_t)l.start, (int64_t)l.length, (int64_t)l.line_length, 0);
}

static void list(void) {
    read_bytes(&first);
    lend_room();
    if (complete())
        answer_count(bolsterweft_list(first.at, first.length, room, room_length));
}

static void sheet_map(void) {
    read_bytes(&first);
    lend_room();
    if (complete())
        answer_count(bolsterweft_sheet_map(first.at, first.length, room, room_length));
}

static void sheet_fault(void) {
    read_bytes(&first);
    if (!complete())
        return;
    struct bolsterweft_fault f = bolsterweft_sheet_fault(first.at, first.length);
    answer(f.refusal, 2, f.test, (int64_t)f.line, 0, 0);
}

static void text(void) {
    int64_t raw = i64();
    uint32_t decimals = u32();
    lend_room();
    if (complete())
        answer_count(bolsterweft_text(raw, decimals, room, room_length));
}

static void number(void) {
    read_bytes(&first);
    if (!complete())
        return;
    struct bolsterweft_reading r = bolsterweft_number(first.at, first.length);
    answer(r.refusal, 2, r.decimals, r.raw, 0, 0);
}

static void value(void) {
    int64_t raw = i64();
    uint32_t width = u32(), is_signed = u32();
    lend_room();
    if (complete())
        answer_count(bolsterweft_value(raw, width, is_signed, room, room_length));
}

static void value_read(void) {
    read_bytes(&first);
    uint32_t width = u32(), is_signed = u32();
    if (!complete())
        return;
    struct bolsterweft_raw v = bolsterweft_value_read(first.at, first.length, width, is_signed);
    answer(v.refusal, 1, v.raw, 0, 0, 0);
}

static void fits(void) {
    int64_t raw = i64();
    if (!complete())
        return;
    struct bolsterweft_fit f = bolsterweft_fits(raw);
    answer(f.refusal, 1, f.fits, 0, 0, 0);
}

static void panel(void) {
    int64_t raw = i64();
    if (complete())
        answer_panel(bolsterweft_panel(raw));
}

static void climate(void) {
    int32_t temperature = i32();
    uint32_t humidity = u32();
    if (!complete())
        return;
    struct bolsterweft_climate c = bolsterweft_climate(temperature, humidity);
    if (c.refusal != 0)
        answer(c.refusal, 0, c.temperature != 0, c.humidity != 0, 0, 0);
    else
        printf("ok single %lld single %lld", (long long)c.temperature, (long long)c.humidity);
}

static void book_open(void) {
    read_bytes(&first);
    if (!complete())
        return;
    struct bolsterweft_entries e = bolsterweft_book_open(first.at, first.length);
    answer(e.refusal, 1, (int64_t)e.count, 0, 0, 0);
}

static void book_entry(void) {
    read_bytes(&first);
    uint32_t wanted = u32();
    if (!complete())
        return;
    struct bolsterweft_entry e = bolsterweft_book_entry(first.at, first.length, wanted);
    answer(e.refusal, 4, e.kind, (int64_t)e.offset, (int64_t)e.frame_start, (int64_t)e.frame_length);
}

static void book_line(void) {
    read_bytes(&first);
    uint32_t wanted = u32();
    lend_room();
    if (complete())
        answer_count(bolsterweft_book_line(first.at, first.length, wanted, room, room_length));
}

static void book_list(void) {
    read_bytes(&first);
    lend_room();
    if (complete())
        answer_count(bolsterweft_book_list(first.at, first.length, room, room_length));
}

static void book_add(void) {
    read_bytes(&first);
    uint32_t kind = u32();
    read_bytes(&second);
    lend_room();
    if (complete())
        answer_count(bolsterweft_book_add(first.at, first.length, kind, second.at, second.length, room, room_length));
}

/* ---- the same by a register map */

static void line_with(void) {
    uint32_t kind = u32();
    read_bytes(&first);
    size_t at = size();
    read_bytes(&second);
    lend_room();
    if (complete())
        answer_count(bolsterweft_line_with(kind, first.at, first.length, at, second.at, second.length, room, room_length));
}

static void line_next_with(void) {
    uint32_t kind = u32();
    read_bytes(&first);
    size_t place = size();
    read_bytes(&second);
    lend_room();
    if (!complete())
        return;
    struct bolsterweft_listed l = bolsterweft_line_next_with(kind, first.at, first.length, place, second.at, second.length, room, room_length);
    answer(l.refusal, 3, (int64_t)l.start, (int64_t)l.length, (int64_t)l.line_length, 0);
}

static void list_with(void) {
    read_bytes(&first);
    read_bytes(&second);
    lend_room();
    if (complete())
        answer_count(bolsterweft_list_with(first.at, first.length, second.at, second.length, room, room_length));
}

static void book_line_with(void) {
    read_bytes(&first);
    uint32_t wanted = u32();
    read_bytes(&second);
    lend_room();
    if (complete())
        answer_count(bolsterweft_book_line_with(first.at, first.length, wanted, second.at, second.length, room, room_length));
}

static void book_list_with(void) {
    read_bytes(&first);
    read_bytes(&second);
    lend_room();
    if (complete())
        answer_count(bolsterweft_book_list_with(first.at, first.length, second.at, second.length, room, room_length));
}

static const struct {
    const char *name;
    void (*run)(void);
} calls[] = {
    {"line_with", line_with},
    {"line_next_with", line_next_with},
    {"list_with", list_with},
    {"book_line_with", book_line_with},
    {"book_list_with", book_list_with},
    {"search", search},         {"why", why},             {"one_frame", one_frame}, {"acknowledge", acknowledge}, {"line", write_line},
    {"line_next", line_next},   {"list", list},           {"text", text},           {"number", number},           {"value", value},
    {"value_read", value_read}, {"fits", fits},           {"panel", panel},         {"climate", climate},         {"book_open", book_open},
    {"book_entry", book_entry}, {"book_line", book_line}, {"book_list", book_list}, {"book_add", book_add},       {"sheet_map", sheet_map},
    {"sheet_fault", sheet_fault}, {"encode", encode},
};

static void run(void) {
    static const char prefix[] = "bolsterweft_";
    const size_t before = sizeof prefix - 1;
    size_t n, i;
    word_at = 0;
    bad = line_length > LINE_MOST;
    has_room = 0;
    bytes_left = BYTES_MOST;
    first.length = second.length = 0;
    const uint8_t *name = word(&n);
    void (*call)(void) = NULL;
    for (i = 0; i < sizeof calls / sizeof *calls; i++)
        if (n == before + strlen(calls[i].name) && memcmp(name, prefix, before) == 0 && memcmp(name + before, calls[i].name, n - before) == 0)
            call = calls[i].run;
    if (call && !bad)
        call();
    if (!call || !complete()) {
        printf("request?\n");
        return;
    }
    if (has_room)
        print_room();
    if (guards_altered() || altered(&first) || altered(&second))
        printf(" (bytes that are the caller's were altered)");
    putchar('\n');
}

int main(void) {
    while (next_line())
        run();
    return fflush(stdout) ? 1 : 0;
}
