/* Long captures for c/check, and their listings in plain C, which have no limit of 65,536 bytes.

   captures make KIND SEED BYTES   writes a capture, in many small pieces
   captures edge KIND SEED BYTES   writes one of the longest frames, with a few other bytes before each
   captures list KIND              writes the listing of its standard input, up to 4 MiB */
#include "captures_made.h"
#include "lines_in_c.h"
#include "longest.h"

__PTRDIFF_TYPE__ read(int file, void *to, usize n);
__PTRDIFF_TYPE__ write(int file, const void *from, usize n);

enum { MOST = 1 << 22 };

static u8 capture[MOST + CAPTURE_ROOM], line[BOLSTERWEFT_LINE_ROOM];

static u64 number_of(const char *word) {
    u64 n = 0;
    while (*word)
        n = n * 10 + (u64)(*word++ - '0');
    return n;
}

static int put_all(const u8 *s, usize n) {
    while (n) {
        __PTRDIFF_TYPE__ k = write(1, s, n);
        if (k <= 0)
            return 1;
        s += k;
        n -= (usize)k;
    }
    return 0;
}

/* Frames, and heads that claim as much as they may, so that many a frame lies in what a false start claims. */
static usize make(u8 kind, usize wanted) {
    usize n = 0;
    while (n < wanted) {
        u64 way = any() % 16;
        if (way == 0)
            n += longest(capture + n, kind, (int)(any() % 2));
        else if (way == 1)
            n += longest(capture + n, kind, 0) - any() % 40 - 1;
        else
            n += fill_capture(capture + n, kind) % 2048;
    }
    return wanted;
}

/* The longest frames: a window that is moved on a byte too far loses one. */
static usize make_edge(u8 kind, usize wanted) {
    usize n = 0;
    while (n < wanted) {
        for (usize k = any() % (any() % 2 ? 9 : 2); k; k--)
            capture[n++] = 0;
        n += one_of_the_longest(capture + n, kind, (u8)any());
    }
    return wanted;
}

static int write_pieces(usize n) {
    for (usize at = 0, k; at < n; at += k) {
        k = any() % 16 ? any() % 3000 + 1 : any() % 9 + 1;
        k = k < n - at ? k : n - at;
        if (put_all(capture + at, k))
            return 1;
    }
    return 0;
}

static int list(u8 kind) {
    usize n = 0, at = 0, frames = 0, inside = 0;
    for (__PTRDIFF_TYPE__ k; (k = read(0, capture + n, MOST - n)) > 0;)
        n += (usize)k;
    while (at < n) {
        usize k = length_in_c(kind, capture + at, n - at);
        if (k && put_all(line, (usize)(put_line(line, kind, capture + at, k, at, no_map) - line)))
            return 1;
        frames += k > 0;
        inside += k;
        at += k ? k : 1;
    }
    u8 *p = put_number(put_text(line, "{\"frames\":"), frames);
    p = put_text(put_number(put_text(p, ",\"skipped\":"), n - inside), "}\n");
    return put_all(line, (usize)(p - line));
}

int main(int count, char **words) {
    u8 kind = count > 2 ? (u8)number_of(words[2]) : 0;
    if (count == 3 && words[1][0] == 'l')
        return list(kind);
    if (count != 5 || number_of(words[4]) > MOST)
        return 2;
    state = number_of(words[3]) * 0x9E3779B97F4A7C15u + kind;
    return write_pieces((words[1][0] == 'e' ? make_edge : make)(kind, number_of(words[4])));
}
