/* Whether a text is JSON, against the usual recursive reader in C, on texts of 8 KiB, eight times each. Both compare the names of an object
   by their code units. C does it in two ways: it passes over the members before a name again, or it keeps the places of names. The proved
   code has no room to keep them in. */
#include "../tests/probe.h"
#include "table.h"

enum { MOST_BYTES = 8192, MOST_DEPTH = 16 };

typedef const u8 *at;

/* what C does with names: nothing, pass over the members before, keep their places */
enum { NO_NAMES, AGAIN, KEPT };

static at end;
static at kept[MOST_BYTES];
static usize count;

static at blanks(at p) {
    while (p < end && (*p == ' ' || *p == '\t' || *p == '\n' || *p == '\r'))
        p++;
    return p;
}

static int is_in(at p, u8 low, u8 high) { return p < end && low <= *p && *p <= high; }
static int is_digit(at p) { return is_in(p, '0', '9'); }
static int is_hex(at p) { return is_digit(p) || is_in(p, 'A', 'F') || is_in(p, 'a', 'f'); }
static int is_tail(at p) { return is_in(p, 0x80, 0xBF); }

static at escaped(at p) {
    if (p == end)
        return 0;
    switch (*p) {
    case '"':
    case '\\':
    case '/':
    case 'b':
    case 'f':
    case 'n':
    case 'r':
    case 't':
        return p + 1;
    case 'u':
        return is_hex(p + 1) && is_hex(p + 2) && is_hex(p + 3) && is_hex(p + 4) ? p + 5 : 0;
    default:
        return 0;
    }
}

static at character(at p) {
    u8 c = *p;
    if (c == '\\')
        return escaped(p + 1);
    if (c < 0x20)
        return 0;
    if (c < 0x80)
        return p + 1;
    if (c < 0xC2)
        return 0;
    if (c < 0xE0)
        return is_tail(p + 1) ? p + 2 : 0;
    if (c < 0xF0)
        return is_in(p + 1, c == 0xE0 ? 0xA0 : 0x80, c == 0xED ? 0x9F : 0xBF) && is_tail(p + 2) ? p + 3 : 0;
    if (c < 0xF5)
        return is_in(p + 1, c == 0xF0 ? 0x90 : 0x80, c == 0xF4 ? 0x8F : 0xBF) && is_tail(p + 2) && is_tail(p + 3) ? p + 4 : 0;
    return 0;
}

static at string(at p) {
    if (p == end || *p != '"')
        return 0;
    for (p++; p && p < end; p = character(p))
        if (*p == '"')
            return p + 1;
    return 0;
}

static at digits(at p) {
    if (!is_digit(p))
        return 0;
    while (is_digit(p))
        p++;
    return p;
}

static at number(at p) {
    if (p < end && *p == '-')
        p++;
    if (p < end && *p == '0')
        p++;
    else if (!(p = digits(p)))
        return 0;
    if (p < end && *p == '.' && !(p = digits(p + 1)))
        return 0;
    if (p < end && (*p == 'e' || *p == 'E')) {
        p++;
        if (p < end && (*p == '+' || *p == '-'))
            p++;
        return digits(p);
    }
    return p;
}

static at literal(at p, const char *word) {
    usize n = strlen(word);
    return (usize)(end - p) >= n && !memcmp(p, word, n) ? p + n : 0;
}

/* ---- names, in strings that have been read before */

struct cursor {
    at at;
    u32 low; /* the second unit of a character of four bytes, until it is taken */
};

static u32 hex_value(u8 c) { return c <= '9' ? c - '0' : (c & 15) + 9u; }

static u32 escape_of(at p) {
    switch (p[1]) {
    case 'b':
        return 8;
    case 'f':
        return 12;
    case 'n':
        return 10;
    case 'r':
        return 13;
    case 't':
        return 9;
    case 'u':
        return hex_value(p[2]) << 12 | hex_value(p[3]) << 8 | hex_value(p[4]) << 4 | hex_value(p[5]);
    default:
        return p[1];
    }
}

/* The next unit; over 65,535 at the string's end. */
static u32 next_unit(struct cursor *c) {
    at p = c->at;
    if (c->low) {
        u32 low = c->low;
        c->low = 0;
        return low;
    }
    if (*p == '"')
        return 65536;
    if (*p == '\\') {
        c->at += p[1] == 'u' ? 6 : 2;
        return escape_of(p);
    }
    if (*p < 0x80) {
        c->at += 1;
        return *p;
    }
    if (*p < 0xE0) {
        c->at += 2;
        return (p[0] & 31u) << 6 | (p[1] & 63u);
    }
    if (*p < 0xF0) {
        c->at += 3;
        return (p[0] & 15u) << 12 | (p[1] & 63u) << 6 | (p[2] & 63u);
    }
    u32 code = (p[0] & 7u) << 18 | (p[1] & 63u) << 12 | (p[2] & 63u) << 6 | (p[3] & 63u);
    c->at += 4;
    c->low = 0xDC00 + code % 0x400;
    return 0xD7C0 + code / 0x400;
}

static int same_name(at a, at b) {
    struct cursor x = {a + 1, 0}, y = {b + 1, 0};
    for (;;) {
        u32 u = next_unit(&x), v = next_unit(&y);
        if (u != v)
            return 0;
        if (u == 65536)
            return 1;
    }
}

/* ---- values */

static at value(at p, int depth, int names);

static at array(at p, int depth, int names) {
    p = blanks(p);
    if (p < end && *p == ']')
        return p + 1;
    for (;;) {
        if (!(p = value(p, depth, names)))
            return 0;
        p = blanks(p);
        if (p == end)
            return 0;
        if (*p == ']')
            return p + 1;
        if (*p != ',')
            return 0;
        p = blanks(p + 1);
    }
}

static at member(at p, int depth, int names) {
    if (!(p = string(p)))
        return 0;
    p = blanks(p);
    if (p == end || *p != ':')
        return 0;
    return value(blanks(p + 1), depth, names);
}

/* Whether the name at p is that of a member between the first and it. */
static int is_old(at first, at p, int depth) {
    for (at q = first; q < p; q = blanks(blanks(member(q, depth, NO_NAMES)) + 1))
        if (same_name(q, p))
            return 1;
    return 0;
}

static int is_kept(usize from, at p) {
    for (usize i = from; i < count; i++)
        if (same_name(kept[i], p))
            return 1;
    kept[count++] = p;
    return 0;
}

static at object(at p, int depth, int names) {
    usize from = count;
    p = blanks(p);
    if (p < end && *p == '}')
        return p + 1;
    for (at first = p;;) {
        at name = p;
        if (!string(name))
            return 0;
        if ((names == AGAIN && is_old(first, name, depth)) || (names == KEPT && is_kept(from, name)))
            return 0;
        if (!(p = member(p, depth, names)))
            return 0;
        p = blanks(p);
        if (p == end)
            return 0;
        if (*p == '}') {
            count = from;
            return p + 1;
        }
        if (*p != ',')
            return 0;
        p = blanks(p + 1);
    }
}

static at value(at p, int depth, int names) {
    if (!depth || p == end)
        return 0;
    switch (*p) {
    case '"':
        return string(p);
    case '{':
        return object(p + 1, depth - 1, names);
    case '[':
        return array(p + 1, depth - 1, names);
    case 't':
        return literal(p, "true");
    case 'f':
        return literal(p, "false");
    case 'n':
        return literal(p, "null");
    default:
        return number(p);
    }
}

static __attribute__((noinline)) int plain(const u8 *s, usize n, int names) {
    if (n > MOST_BYTES)
        return 0;
    end = s + n;
    count = 0;
    at p = value(blanks(s), MOST_DEPTH, names);
    return p && blanks(p) == end;
}

/* ---- texts */

static u8 text[MOST_BYTES];
static usize length, times;
static int ours_is, theirs_is;

static void add(const char *s) {
    usize n = strlen(s);
    memcpy(text + length, s, n);
    length += n;
}

/* How long a text may be, if there are to be so many bytes in all. */
static usize begun(usize size) {
    length = 0;
    times = size < MOST_BYTES ? 1 : size / MOST_BYTES;
    return size / times;
}

/* A text of the head, as many pieces as go in, and the tail. */
static usize made(usize size, const char *head, const char *piece, const char *tail) {
    usize most = begun(size);
    add(head);
    while (length + strlen(piece) + strlen(tail) <= most)
        add(piece);
    add(tail);
    return times * length;
}

static usize numbers(usize size) { return made(size, "[0", ",-12.5e3", "]"); }
static usize short_numbers(usize size) { return made(size, "[1", ",1", "]"); }
static usize nesting(usize size) { return made(size, "[0", ",[[[[[[[[[[[[[[{}]]]]]]]]]]]]]]", "]"); }
static usize objects(usize size) {
    return made(size, "[0", ",{\"a\":{\"a\":{\"a\":{\"a\":{\"a\":{\"a\":{\"a\":{\"a\":{\"a\":{\"a\":{\"a\":{\"a\":{\"a\":[]}}}}}}}}}}}}}", "]");
}
static usize escapes(usize size) { return made(size, "\"", "a\\n\\u00E9", "\""); }
static usize utf8(usize size) { return made(size, "\"", "\xC3\xA9\xE2\x82\xAC\xF0\x9F\x98\x80", "\""); }
static usize plain_string(usize size) { return made(size, "\"", "a", "\""); }
static usize spaces(usize size) { return made(size, "", " ", "1"); }
static usize any_blanks(usize size) { return made(size, "", " \t\r\n", "1"); }

static usize lines(usize size) {
    return made(size, "[0", ",\n    {\n        \"kind\": 1,\n        \"msg\": \"read\",\n        \"group\": 1,\n        \"addr\": \"4707\"\n    }", "\n]");
}

static usize members(usize size) {
    usize most = begun(size);
    char piece[40];
    add("{\"a\":0");
    for (int i = 0; length + 24 <= most; i++) {
        snprintf(piece, sizeof piece, ", \"n%d\" : true", i);
        add(piece);
    }
    add("}");
    return times * length;
}

static void ours(void) {
    for (usize i = 0; i < times; i++)
        ours_is = probe_jsontext(text, length);
}

static void passing_again(void) {
    for (usize i = 0; i < times; i++)
        theirs_is = plain(text, length, AGAIN);
}

static void keeping(void) {
    for (usize i = 0; i < times; i++)
        theirs_is = plain(text, length, KEPT);
}

/* each of these texts is one */
static int same(void) { return ours_is == 1 && theirs_is == 1; }

int main(void) {
    static const struct {
        const char *input;
        usize (*make)(usize size);
        void (*theirs)(void);
        double most;
    } rows[] = {
        {"numbers", numbers, passing_again, 1.5},
        {"numbers of one digit", short_numbers, passing_again, 1.5},
        {"arrays nested to 16", nesting, passing_again, 1.5},
        {"objects nested to 15, a name each", objects, passing_again, 1.5},
        {"a string with escapes", escapes, passing_again, 1.5},
        {"a string of UTF-8", utf8, passing_again, 1.5},
        {"a string of letters", plain_string, passing_again, 1.5},
        {"spaces", spaces, passing_again, 1.5},
        {"blanks of all four sorts", any_blanks, passing_again, 1.5},
        {"commands, a member a line", lines, passing_again, 1.5},
        {"members", members, passing_again, 1.5},
        {"members, C keeps the places of names", members, keeping, 0},
    };
    int bad = 0;
    for (usize i = 0; i < sizeof rows / sizeof *rows; i++) {
        struct job job = {rows[i].make, ours, rows[i].theirs, same, 0};
        bad |= row("jsontext", rows[i].input, rows[i].most, &job);
    }
    return bad;
}
