/* A small host program over the library. It shows how each call is used, and how a C program reads its arguments, a stream and a file so
 * that nothing is cut, lost or half written.
 *
 * Exit status: 0 done; 1 refused or I/O error; 2 usage error. What it was asked for goes to standard output, the reason for a 1 or a 2
 * to standard error. */
#define _POSIX_C_SOURCE 200809L

#include "../include/bolsterweft.h"

#include <errno.h>
#include <stdio.h>
#include <stdlib.h>
#include <string.h>
#include <unistd.h>

enum { DONE = 0, FAILED = 1, MISUSED = 2 };

/* A longer window is read in fewer pieces; it must hold more than the longest frame. */
#ifndef WINDOW_BYTES
#define WINDOW_BYTES 16384
#endif
_Static_assert(WINDOW_BYTES > BOLSTERWEFT_FRAME_MOST, "the window must hold more than the longest frame");

static const char usage_text[] =
    "usage: bolsterweft list KIND < CAPTURE           a line of JSON for each frame, as the capture comes in, and a last line\n"
    "       bolsterweft frame KIND < FRAME            whether it is one frame: where its payload is, and the payload in hex\n"
    "       bolsterweft why KIND PLACE [FILE]         the first test that a frame at that place of a capture fails\n"
    "       bolsterweft acknowledge < FRAME           the acknowledgement of a Homiq frame\n"
    "       bolsterweft encode < COMMAND              the frame of a command, which is a line of JSON\n"
    "       bolsterweft sheet [FILE]                  the registers of a register sheet, with type and decimals\n"
    "       bolsterweft text RAW DECIMALS             the text of a raw number\n"
    "       bolsterweft number TEXT                   the raw number and the decimals of a text\n"
    "       bolsterweft value RAW WIDTH SIGN          a raw number as bytes, in hex; SIGN is signed or unsigned\n"
    "       bolsterweft value-of HEX WIDTH SIGN       the raw number that bytes are\n"
    "       bolsterweft fits RAW                      whether a float holds a raw number\n"
    "       bolsterweft panel RAW                     what the wall panel shows of a raw number\n"
    "       bolsterweft climate TEMPERATURE HUMIDITY  what it shows of a climate message\n"
    "       bolsterweft book new FILE                 a new book without entries\n"
    "       bolsterweft book add FILE KIND < FRAME    a frame as the book's last entry\n"
    "       bolsterweft book list FILE                a line of JSON for each entry\n"
    "       bolsterweft version                       the versions of header and archive\n"
    "KIND is nikobus, nest-command, nest-response, nibe or homiq, or its number 1 to 5.\n"
    "Without FILE the capture of `why`, or the sheet, is read from standard input. A capture may have 65,536 bytes, a sheet 6,000.\n";

static int misused(const char *what, const char *word) {
    fprintf(stderr, "bolsterweft: %s: %s\n%s", what, word, usage_text);
    return MISUSED;
}

/* A refusal is reported by its sentence. */
static int refused(const char *what, uint32_t refusal) {
    fprintf(stderr, "bolsterweft: %s: refused with %u: %s\n", what, (unsigned)refusal, bolsterweft_refusal_text(refusal));
    return FAILED;
}

/* What the system says of its last error. */
static int failed(const char *what) {
    fprintf(stderr, "bolsterweft: %s: %s\n", what, strerror(errno));
    return FAILED;
}

/* ---- arguments: each reader answers whether the word is what it should be, and then sets *value */

static int is_digit(char c) { return c >= '0' && c <= '9'; }

/* strtoll skips spaces, takes a plus, stops at the first other character and clips what is too large. A word that is anything but a
 * number, whole and in range, is none. */
static int read_int64(const char *word, int64_t *value) {
    char *end;
    long long number;
    if (!is_digit(word[word[0] == '-']))
        return 0;
    errno = 0;
    number = strtoll(word, &end, 10);
    if (errno != 0 || *end != '\0')
        return 0;
    *value = (int64_t)number;
    return 1;
}

/* strtoul also takes a minus, and answers a large number then. unsigned long is as wide as size_t: 64 bits. */
static int read_size(const char *word, size_t *value) {
    char *end;
    unsigned long number;
    if (!is_digit(word[0]))
        return 0;
    errno = 0;
    number = strtoul(word, &end, 10);
    if (errno != 0 || *end != '\0')
        return 0;
    *value = number;
    return 1;
}

static int read_uint32(const char *word, uint32_t *value) {
    size_t number;
    if (!read_size(word, &number) || number > UINT32_MAX)
        return 0;
    *value = (uint32_t)number;
    return 1;
}

static int read_int32(const char *word, int32_t *value) {
    int64_t number;
    if (!read_int64(word, &number) || number < INT32_MIN || number > INT32_MAX)
        return 0;
    *value = (int32_t)number;
    return 1;
}

/* A kind by its name or its number. A number that is no kind's is let through: the library refuses it. */
static int read_kind(const char *word, uint32_t *kind) {
    static const char *const names[] = {"nikobus", "nest-command", "nest-response", "nibe", "homiq"};
    uint32_t i;
    for (i = 0; i < sizeof names / sizeof *names; i++)
        if (strcmp(word, names[i]) == 0) {
            *kind = BOLSTERWEFT_NIKOBUS + i;
            return 1;
        }
    return read_uint32(word, kind);
}

static int read_sign(const char *word, uint32_t *is_signed) {
    *is_signed = strcmp(word, "signed") == 0;
    return *is_signed || strcmp(word, "unsigned") == 0;
}

static int hex_value(char c) {
    if (is_digit(c))
        return c - '0';
    return c >= 'A' && c <= 'F' ? c - 'A' + 10 : c >= 'a' && c <= 'f' ? c - 'a' + 10 : -1;
}

/* Bytes in hex, two digits each, at most `most` of them. */
static int read_hex(const char *word, uint8_t *bytes, size_t most, size_t *length) {
    size_t i, digits = strlen(word);
    if (digits % 2 != 0 || digits / 2 > most)
        return 0;
    for (i = 0; i < digits / 2; i++) {
        int high = hex_value(word[2 * i]), low = hex_value(word[2 * i + 1]);
        if (high < 0 || low < 0)
            return 0;
        bytes[i] = (uint8_t)(16 * high + low);
    }
    *length = digits / 2;
    return 1;
}

/* ---- output */

static void print_hex(const uint8_t *bytes, size_t length) {
    size_t i;
    for (i = 0; i < length; i++)
        printf("%02X", (unsigned)bytes[i]);
}

/* No call writes a NUL: what is printed is a number of bytes. */
static void print_bytes(const uint8_t *bytes, size_t length) { fwrite(bytes, 1, length, stdout); }

/* ---- a capture, listed as it comes in
 *
 * The window has the bytes that are still needed. Whether a frame begins at a place is decided by the bytes from there on, as many as the
 * kind's longest frame has. So a place is decided if that many bytes stand there in the window, or if no more will come. A frame that the library finds in
 * the window is whole. But it is the capture's next frame only if every place before it is decided. At an undecided one a longer frame may
 * begin, which the window cuts, and what was found may be a part of its payload. */

struct window {
    uint8_t bytes[WINDOW_BYTES];
    size_t length; /* of the bytes that are there */
    size_t place;  /* where the next frame is looked for; no frame that is still to be listed begins before it */
    uint64_t gone; /* how many bytes of the capture came before the window */
    size_t most;   /* how many bytes the kind's longest frame has */
    int ended;     /* no more will come */
};

struct totals {
    uint64_t frames;
    uint64_t listed; /* bytes in frames */
};

static size_t longest_frame(uint32_t kind) {
    switch (kind) {
    case BOLSTERWEFT_NIKOBUS:
        return BOLSTERWEFT_NIKOBUS_MOST;
    case BOLSTERWEFT_NEST_COMMAND:
        return BOLSTERWEFT_NEST_COMMAND_MOST;
    case BOLSTERWEFT_NIBE:
        return BOLSTERWEFT_NIBE_MOST;
    case BOLSTERWEFT_HOMIQ:
        return BOLSTERWEFT_HOMIQ_MOST;
    default:
        return BOLSTERWEFT_FRAME_MOST;
    }
}

/* Places before this one are decided. */
static size_t decided(const struct window *w) {
    if (w->ended)
        return w->length;
    return w->length < w->most ? 0 : w->length - w->most + 1;
}

/* Lets go of what lies before the place, and reads once. */
static int refill(struct window *w) {
    ssize_t count;
    memmove(w->bytes, w->bytes + w->place, w->length - w->place);
    w->length -= w->place;
    w->gone += w->place;
    w->place = 0;
    do
        count = read(STDIN_FILENO, w->bytes + w->length, sizeof w->bytes - w->length);
    while (count < 0 && errno == EINTR);
    if (count < 0)
        return failed("the capture cannot be read");
    w->ended = count == 0;
    w->length += (size_t)count;
    return DONE;
}

/* The line has the frame's place in the window as `at`. If the window does not begin where the capture does, it is written anew. */
static int print_line(uint32_t kind, const struct window *w, struct bolsterweft_listed frame, uint8_t *room, size_t room_length) {
    struct bolsterweft_count line = {0, frame.line_length};
    if (w->gone != 0)
        line = bolsterweft_line(kind, w->bytes + frame.start, frame.length, w->gone + frame.start, room, room_length);
    if (line.refusal != 0)
        return refused("a line", line.refusal);
    print_bytes(room, line.length);
    return DONE;
}

/* Lists the frames of the window that are certain, and moves the place behind them and behind the decided places without a frame. */
static int list_window(uint32_t kind, struct window *w, struct totals *t) {
    uint8_t room[BOLSTERWEFT_LINE_ROOM];
    for (;;) {
        struct bolsterweft_listed frame = bolsterweft_line_next(kind, w->bytes, w->length, w->place, room, sizeof room);
        size_t certain = decided(w);
        if (frame.refusal != 0 && frame.refusal != BOLSTERWEFT_NO_FRAME)
            return refused("list", frame.refusal);
        if (frame.refusal == BOLSTERWEFT_NO_FRAME || (frame.start > w->place && frame.start > certain)) {
            if (w->place < certain)
                w->place = certain;
            return DONE;
        }
        if (print_line(kind, w, frame, room, sizeof room) != DONE)
            return FAILED;
        w->place = frame.start + frame.length;
        t->frames++;
        t->listed += frame.length;
    }
}

static int list(uint32_t kind) {
    static struct window w;
    struct totals t = {0, 0};
    w.most = longest_frame(kind);
    do {
        if (refill(&w) != DONE || list_window(kind, &w, &t) != DONE)
            return FAILED;
        if (fflush(stdout) != 0) /* lines are seen as soon as they are certain */
            return failed("the lines cannot be written");
    } while (!w.ended);
    printf("{\"frames\":%llu,\"skipped\":%llu}\n", (unsigned long long)t.frames, (unsigned long long)(w.gone + w.length - t.listed));
    return DONE;
}

/* ---- one frame */

/* Reads a whole stream, which must not have more than `most` bytes. */
static int read_all(FILE *file, const char *name, uint8_t *bytes, size_t most, size_t *length) {
    *length = fread(bytes, 1, most, file);
    if (ferror(file))
        return failed(name);
    if (*length == most && getc(file) != EOF) {
        fprintf(stderr, "bolsterweft: %s: more than %lu bytes\n", name, (unsigned long)most);
        return FAILED;
    }
    return DONE;
}

static int read_file(const char *path, uint8_t *bytes, size_t most, size_t *length) {
    int status;
    FILE *file = fopen(path, "rb");
    if (file == NULL)
        return failed(path);
    status = read_all(file, path, bytes, most, length);
    fclose(file);
    return status;
}

static int read_input(uint8_t *bytes, size_t most, size_t *length) { return read_all(stdin, "standard input", bytes, most, length); }

static int read_frame(uint8_t *frame, size_t *length) { return read_input(frame, BOLSTERWEFT_FRAME_MOST, length); }

static int show_frame(uint32_t kind) {
    uint8_t frame[BOLSTERWEFT_FRAME_MOST];
    size_t length;
    struct bolsterweft_payload payload;
    if (read_frame(frame, &length) != DONE)
        return FAILED;
    payload = bolsterweft_one_frame(kind, frame, length);
    if (payload.refusal != 0)
        return refused("frame", payload.refusal);
    printf("length %lu payload at %lu length %lu ", (unsigned long)length, (unsigned long)payload.payload_start,
           (unsigned long)payload.payload_length);
    print_hex(frame + payload.payload_start, payload.payload_length);
    putchar('\n');
    return DONE;
}

/* The verdict on one place of a capture. The values say what is wrong if a check failed; otherwise both are 0. */
static int print_why(uint32_t kind, size_t place, const char *path) {
    static const char *const tests[] = {"none", "start", "length", "fields", "first check", "second check"};
    static uint8_t capture[BOLSTERWEFT_INPUT_MOST];
    size_t length;
    struct bolsterweft_verdict verdict;
    if ((path ? read_file(path, capture, sizeof capture, &length) : read_input(capture, sizeof capture, &length)) != DONE)
        return FAILED;
    verdict = bolsterweft_why(kind, capture, length, place);
    if (verdict.refusal != 0)
        return refused("why", verdict.refusal);
    printf("%s", tests[verdict.test]);
    if (verdict.found != verdict.expected)
        printf(": found %u, expected %u", (unsigned)verdict.found, (unsigned)verdict.expected);
    putchar('\n');
    return DONE;
}

/* A register sheet is read into a map once, and the map is what says a register's type. Of a sheet that is refused, the line that is wrong. */
static int print_sheet(const char *path) {
    static const char *const types[] = {"u8", "s8", "u16", "s16", "u32", "s32"};
    static const char *const tests[] = {"right",        "not three fields",    "not a register", "not a type",
                                        "not decimals", "not a next register", "the 501st line", "no LF at its end"};
    static uint8_t text[BOLSTERWEFT_SHEET_MOST], map[BOLSTERWEFT_MAP_ROOM];
    size_t length, reg;
    struct bolsterweft_count written;
    if ((path ? read_file(path, text, sizeof text, &length) : read_input(text, sizeof text, &length)) != DONE)
        return FAILED;
    written = bolsterweft_sheet_map(text, length, map, sizeof map);
    if (written.refusal != 0) {
        struct bolsterweft_fault fault = bolsterweft_sheet_fault(text, length);
        fprintf(stderr, "bolsterweft: line %lu of the sheet: %s\n", (unsigned long)fault.line, tests[fault.test]);
        return refused("sheet", written.refusal);
    }
    for (reg = 0; reg < written.length; reg++)
        if (map[reg] != 0)
            printf("%lu %s %u\n", (unsigned long)reg, types[(map[reg] - 1) / 4], (unsigned)(map[reg] - 1) % 4);
    return DONE;
}

static int acknowledge(void) {
    uint8_t frame[BOLSTERWEFT_FRAME_MOST], room[BOLSTERWEFT_ACKNOWLEDGE_ROOM];
    size_t length;
    struct bolsterweft_count written;
    if (read_frame(frame, &length) != DONE)
        return FAILED;
    written = bolsterweft_acknowledge(frame, length, room, sizeof room);
    if (written.refusal != 0)
        return refused("acknowledge", written.refusal);
    print_bytes(room, written.length);
    return DONE;
}

/* A command is a line as `list` prints it, with `kind` in place of `at` and `len`. The LF at its end is a blank of JSON. */
static int encode(void) {
    static uint8_t text[BOLSTERWEFT_COMMAND_MOST], room[BOLSTERWEFT_FRAME_MOST];
    size_t length;
    struct bolsterweft_count written;
    if (read_input(text, sizeof text, &length) != DONE)
        return FAILED;
    written = bolsterweft_encode(text, length, room, sizeof room);
    if (written.refusal != 0)
        return refused("encode", written.refusal);
    print_bytes(room, written.length);
    return DONE;
}

/* ---- numbers */

static int print_text(int64_t raw, uint32_t decimals) {
    uint8_t room[BOLSTERWEFT_TEXT_ROOM];
    struct bolsterweft_count written = bolsterweft_text(raw, decimals, room, sizeof room);
    if (written.refusal != 0)
        return refused("text", written.refusal);
    print_bytes(room, written.length);
    putchar('\n');
    return DONE;
}

static int print_number(const char *text) {
    struct bolsterweft_reading reading = bolsterweft_number((const uint8_t *)text, strlen(text));
    if (reading.refusal != 0)
        return refused("number", reading.refusal);
    printf("raw %lld decimals %u\n", (long long)reading.raw, (unsigned)reading.decimals);
    return DONE;
}

static int print_value(int64_t raw, uint32_t width, uint32_t is_signed) {
    uint8_t room[4];
    struct bolsterweft_count written = bolsterweft_value(raw, width, is_signed, room, sizeof room);
    if (written.refusal != 0)
        return refused("value", written.refusal);
    print_hex(room, written.length);
    putchar('\n');
    return DONE;
}

static int print_value_of(const uint8_t *bytes, size_t length, uint32_t width, uint32_t is_signed) {
    struct bolsterweft_raw value = bolsterweft_value_read(bytes, length, width, is_signed);
    if (value.refusal != 0)
        return refused("value-of", value.refusal);
    printf("%lld\n", (long long)value.raw);
    return DONE;
}

static int print_fits(int64_t raw) {
    struct bolsterweft_fit fit = bolsterweft_fits(raw);
    if (fit.refusal != 0)
        return refused("fits", fit.refusal);
    puts(fit.fits ? "yes" : "no");
    return DONE;
}

static int print_panel(int64_t raw) {
    struct bolsterweft_panel_value value = bolsterweft_panel(raw);
    if (value.refusal != 0)
        return refused("panel", value.refusal);
    if (value.size == sizeof value.single)
        printf("float %.1f\n", (double)value.single);
    else
        printf("double %.1f\n", value.wide);
    return DONE;
}

static int print_climate(int32_t temperature, uint32_t humidity) {
    struct bolsterweft_climate pair = bolsterweft_climate(temperature, humidity);
    if (pair.refusal != 0)
        return refused("climate", pair.refusal);
    printf("float %.1f float %.1f\n", (double)pair.temperature, (double)pair.humidity);
    return DONE;
}

/* ---- a book in a file
 *
 * A book is never half written: the new one is written to FILE.new, put on the disk, and then takes the place of FILE in one step. FILE.new
 * must not be there before, so it is a lock too: if two programs add at once, the second fails and says so, and no entry is lost. */

struct new_file {
    const char *path;
    char name[4096]; /* the path, and .new */
    FILE *file;
};

static int begin_file(struct new_file *f, const char *path) {
    int length = snprintf(f->name, sizeof f->name, "%s.new", path);
    f->path = path;
    if (length < 0 || (size_t)length >= sizeof f->name) {
        fprintf(stderr, "bolsterweft: the name is too long: %s\n", path);
        return FAILED;
    }
    f->file = fopen(f->name, "wbx"); /* x: fails if it exists */
    if (f->file != NULL)
        return DONE;
    if (errno != EEXIST)
        return failed(f->name);
    fprintf(stderr, "bolsterweft: %s is there already: another program writes the book; if none does, remove it\n", f->name);
    return FAILED;
}

static int drop_file(struct new_file *f) {
    fclose(f->file);
    remove(f->name);
    return FAILED;
}

/* Writes the bytes and puts the file in its place: in that of an old one if `over`, and otherwise only if there is none. */
static int finish_file(struct new_file *f, const uint8_t *bytes, size_t length, int over) {
    int written = fwrite(bytes, 1, length, f->file) == length && fflush(f->file) == 0 && fsync(fileno(f->file)) == 0;
    written = fclose(f->file) == 0 && written;
    if (!written || (over ? rename(f->name, f->path) : link(f->name, f->path)) != 0) {
        failed(f->path);
        remove(f->name);
        return FAILED;
    }
    if (!over)
        remove(f->name);
    return DONE;
}

static int read_book(const char *path, uint8_t *book, size_t *length) { return read_file(path, book, BOLSTERWEFT_BOOK_MOST, length); }

static int book_new(const char *path) {
    static const uint8_t empty[] = {0, 0, 6, 0, 0, 0};
    struct new_file f;
    if (begin_file(&f, path) != DONE)
        return FAILED;
    return finish_file(&f, empty, sizeof empty, 0);
}

/* The old book is read only when the lock is held. The library writes the new one into a second buffer. */
static int add_to(struct new_file *f, uint32_t kind, const uint8_t *frame, size_t frame_length) {
    static uint8_t book[BOLSTERWEFT_BOOK_MOST], room[BOLSTERWEFT_BOOK_MOST];
    size_t length;
    struct bolsterweft_count written;
    if (read_book(f->path, book, &length) != DONE)
        return drop_file(f);
    written = bolsterweft_book_add(book, length, kind, frame, frame_length, room, sizeof room);
    if (written.refusal != 0) {
        refused(f->path, written.refusal);
        return drop_file(f);
    }
    return finish_file(f, room, written.length, 1);
}

static int book_add(const char *path, uint32_t kind) {
    uint8_t frame[BOLSTERWEFT_FRAME_MOST];
    size_t length;
    struct new_file f;
    if (read_frame(frame, &length) != DONE || begin_file(&f, path) != DONE)
        return FAILED;
    return add_to(&f, kind, frame, length);
}

static int book_list(const char *path) {
    enum { LINES_MOST = 8 * BOLSTERWEFT_BOOK_MOST + 40 * BOLSTERWEFT_ENTRIES_MOST };
    static uint8_t book[BOLSTERWEFT_BOOK_MOST], room[LINES_MOST];
    size_t length;
    struct bolsterweft_count written;
    if (read_book(path, book, &length) != DONE)
        return FAILED;
    written = bolsterweft_book_list(book, length, room, sizeof room);
    if (written.refusal != 0)
        return refused(path, written.refusal);
    print_bytes(room, written.length);
    return DONE;
}

/* ---- the commands: each takes its words, of which there are as many as its row below says */

static int do_list(char **words) {
    uint32_t kind;
    return read_kind(words[0], &kind) ? list(kind) : misused("not a kind", words[0]);
}

static int do_frame(char **words) {
    uint32_t kind;
    return read_kind(words[0], &kind) ? show_frame(kind) : misused("not a kind", words[0]);
}

static int do_why(char **words) {
    uint32_t kind;
    size_t place;
    if (!read_kind(words[0], &kind))
        return misused("not a kind", words[0]);
    return read_size(words[1], &place) ? print_why(kind, place, words[2]) : misused("not a place", words[1]);
}

static int do_acknowledge(char **words) {
    (void)words;
    return acknowledge();
}

static int do_encode(char **words) {
    (void)words;
    return encode();
}

static int do_text(char **words) {
    int64_t raw;
    uint32_t decimals;
    if (!read_int64(words[0], &raw))
        return misused("not a number", words[0]);
    if (!read_uint32(words[1], &decimals))
        return misused("not a number of decimals", words[1]);
    return print_text(raw, decimals);
}

static int do_number(char **words) { return print_number(words[0]); }

static int do_value(char **words) {
    int64_t raw;
    uint32_t width, is_signed;
    if (!read_int64(words[0], &raw))
        return misused("not a number", words[0]);
    if (!read_uint32(words[1], &width))
        return misused("not a width", words[1]);
    return read_sign(words[2], &is_signed) ? print_value(raw, width, is_signed) : misused("neither signed nor unsigned", words[2]);
}

static int do_value_of(char **words) {
    uint8_t bytes[64];
    size_t length;
    uint32_t width, is_signed;
    if (!read_hex(words[0], bytes, sizeof bytes, &length))
        return misused("not bytes in hex", words[0]);
    if (!read_uint32(words[1], &width))
        return misused("not a width", words[1]);
    return read_sign(words[2], &is_signed) ? print_value_of(bytes, length, width, is_signed) : misused("neither signed nor unsigned", words[2]);
}

static int do_fits(char **words) {
    int64_t raw;
    return read_int64(words[0], &raw) ? print_fits(raw) : misused("not a number", words[0]);
}

static int do_panel(char **words) {
    int64_t raw;
    return read_int64(words[0], &raw) ? print_panel(raw) : misused("not a number", words[0]);
}

static int do_climate(char **words) {
    int32_t temperature;
    uint32_t humidity;
    if (!read_int32(words[0], &temperature))
        return misused("not a temperature", words[0]);
    return read_uint32(words[1], &humidity) ? print_climate(temperature, humidity) : misused("not a humidity", words[1]);
}

static int do_book(char **words) {
    uint32_t kind;
    if (strcmp(words[0], "new") == 0 && words[2] == NULL)
        return book_new(words[1]);
    if (strcmp(words[0], "list") == 0 && words[2] == NULL)
        return book_list(words[1]);
    if (strcmp(words[0], "add") != 0 || words[2] == NULL)
        return misused("not what can be done with a book", words[0]);
    return read_kind(words[2], &kind) ? book_add(words[1], kind) : misused("not a kind", words[2]);
}

static int do_sheet(char **words) { return print_sheet(words[0]); }

static int do_version(char **words) {
    (void)words;
    printf("header %u archive %u\n", (unsigned)BOLSTERWEFT_VERSION, (unsigned)bolsterweft_version());
    return DONE;
}

static const struct command {
    const char *name;
    int least, most; /* words behind the name */
    int (*run)(char **words);
} commands[] = {
    {"list", 1, 1, do_list},               {"frame", 1, 1, do_frame},       {"why", 2, 3, do_why},
    {"acknowledge", 0, 0, do_acknowledge}, {"text", 2, 2, do_text},         {"number", 1, 1, do_number},
    {"value", 3, 3, do_value},             {"value-of", 3, 3, do_value_of}, {"fits", 1, 1, do_fits},
    {"panel", 1, 1, do_panel},             {"climate", 2, 2, do_climate},   {"book", 2, 3, do_book},
    {"sheet", 0, 1, do_sheet},             {"encode", 0, 0, do_encode},     {"version", 0, 0, do_version},
};

static int run(int count, char **words) {
    size_t i;
    for (i = 0; i < sizeof commands / sizeof *commands; i++) {
        const struct command *c = commands + i;
        if (strcmp(words[0], c->name) != 0)
            continue;
        if (count - 1 < c->least || count - 1 > c->most)
            return misused("too few words or too many", words[0]);
        return c->run(words + 1);
    }
    return misused("unknown command", words[0]);
}

int main(int count, char **words) {
    int status;
    if (count < 2)
        return misused("what to do", "is missing");
    if (bolsterweft_version() != BOLSTERWEFT_VERSION) {
        fputs("bolsterweft: header and archive are of different versions\n", stderr);
        return FAILED;
    }
    status = run(count - 1, words + 1);
    if (fflush(stdout) != 0 && status == DONE)
        return failed("standard output");
    return status;
}
