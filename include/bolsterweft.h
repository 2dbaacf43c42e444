/* Bolsterweft for C: frames of four home buses (Nikobus, Nest, Nibe, Homiq), their lines of JSON, capture books, exact numbers.
 *
 * Platform: x86-64 Linux, System V calling convention. The header compiles as C89, C99, C11, C17 and C++11 or later. Link
 * with libbolsterweft.a (`cc program.c -lbolsterweft`). Of the C library the archive needs only `memcpy`, and `memset` for
 * `bolsterweft_encode` and the calls for a book.
 *
 *
 * WHAT EVERY CALL DOES
 *
 * A call answers, or it refuses. The answer is a struct by value. Its first member, `refusal`, is 0 if the call answers, and
 * otherwise one number of `enum bolsterweft_refusal`. A call that refuses sets all other members to 0 and alters no byte that was
 * lent to it. If several causes apply, the one that is tested first counts; each function below lists its refusals in that order.
 *
 * Every call accepts all values of its numbers (a kind of 260 is refused, and is not taken for 4), ends, and does nothing undefined.
 * This, and what each call answers, is proved: docs/PROMISES.md says what, docs/ASSUMPTIONS.md what the proof assumes. No call
 * allocates, locks or prints. `Stack` is what a call and all that it calls take at the deepest, rounded up to a multiple of 64 bytes.
 *
 *
 * WHAT THE CALLER OWES
 *
 *   - A pointer and the length n behind it stand for n bytes that can be read, and that nobody else changes during the call.
 *   - A `room` and its length n stand for n bytes that can also be written. It need not be initialised.
 *   - A room overlaps nothing else that the same call is given. To add to a book, for example, two buffers are needed.
 *   - If a length is 0, its pointer may be anything, NULL too.
 *
 * Nothing is kept after a call, and the library has no state. So calls on several threads do not disturb one another, and a call
 * from a signal handler is safe.
 *
 *
 * TEXT HAS NO NUL
 *
 * No call writes a NUL behind a text or a line. The answer's `length` says how many bytes were written; all bytes of the room
 * behind them are left as they were. So print a text by `printf("%.*s", (int)length, (const char *)room)` or by `fwrite`, and
 * never by `%s`. A text that is read is a pointer and a length, too, and a NUL in it is one of its bytes.
 *
 *
 * THE EXAMPLES
 *
 * In the examples below `capture` is an array of the bytes C0 69 C0 69 02 64 00 66; `nibe` of its last six, which are a frame;
 * `homiq` of the frame `<;I.3;1;0H;0;42;s;134;>` CR LF; `book` of a book that has the frame D5 AA 96 FF 00 00 00 A3 4B as its only
 * entry. `room` is `uint8_t room[BOLSTERWEFT_LINE_ROOM]`, and `map` is `uint8_t map[BOLSTERWEFT_MAP_ROOM]`. The comment at an
 * example's end is what it prints.
 */
#ifndef BOLSTERWEFT_H
#define BOLSTERWEFT_H

#include <stddef.h>
#include <stdint.h>

#ifdef __cplusplus
extern "C" {
#endif

/* The version that this header is of: 10000 * major + 100 * minor + patch. Compare it with `bolsterweft_version()` once, as the
 * program starts: if they differ, header and archive are not a pair, and the structs below may not be those of the archive. */
#define BOLSTERWEFT_VERSION 10500

/* The kinds: a bus and a direction. */
enum bolsterweft_kind {
    BOLSTERWEFT_NIKOBUS = 1,       /* the Nikobus serial line */
    BOLSTERWEFT_NEST_COMMAND = 2,  /* what is sent to the Nest backplate */
    BOLSTERWEFT_NEST_RESPONSE = 3, /* what the Nest backplate sends */
    BOLSTERWEFT_NIBE = 4,          /* the Nibe pump's RS-485 line */
    BOLSTERWEFT_HOMIQ = 5          /* the Homiq line */
};

/* The refusals. `bolsterweft_refusal_text` has a sentence for each. No call for C refuses with 9 today. */
enum bolsterweft_refusal {
    BOLSTERWEFT_NO_FRAME = 1,        /* no frame from that place on */
    BOLSTERWEFT_NO_KIND = 2,         /* the kind is not 1 to 5 */
    BOLSTERWEFT_NO_PLACE = 3,        /* the place is beyond the buffer's length; the book has no entry of that number */
    BOLSTERWEFT_NO_ROOM = 4,         /* the room is too short */
    BOLSTERWEFT_OUT_OF_LIMITS = 5,   /* a frame, a book or a number is outside its limits */
    BOLSTERWEFT_CONTENT_ABOVE = 6,   /* a message has the content of one above it in the table */
    BOLSTERWEFT_BAD_FORM = 7,        /* a width, decimals or a number text are not as they must be */
    BOLSTERWEFT_NO_BOOK = 8,         /* the bytes are not a capture book */
    BOLSTERWEFT_NO_REGISTER = 9,     /* a register is not in the register sheet, or data end inside a value */
    BOLSTERWEFT_BAD_SHEET = 10,      /* the bytes are not a register sheet */
    BOLSTERWEFT_NOT_IN_GRAMMAR = 11, /* a text is not JSON, or over a limit */
    BOLSTERWEFT_BAD_MEMBERS = 12     /* members of a command are missing, extra, not spelt as they must be, or disagree */
};

/* Sizes that are always enough, and limits. */
enum bolsterweft_size {
    BOLSTERWEFT_TEXT_ROOM = 12,            /* room for any number text */
    BOLSTERWEFT_NIKOBUS_MOST = 254,        /* the longest Nikobus frame */
    BOLSTERWEFT_NEST_COMMAND_MOST = 1033,  /* the longest Nest command: 3 + 4 + 1024 + 2 bytes */
    BOLSTERWEFT_NEST_RESPONSE_MOST = 1034, /* the longest Nest response: 4 + 4 + 1024 + 2 bytes */
    BOLSTERWEFT_NIBE_MOST = 259,           /* the longest Nibe frame */
    BOLSTERWEFT_HOMIQ_MOST = 51,           /* the longest Homiq frame */
    BOLSTERWEFT_FRAME_MOST = 1034,         /* the longest frame of any kind */
    BOLSTERWEFT_ACKNOWLEDGE_ROOM = 51,     /* room for any acknowledgement, as for any Homiq frame */
    BOLSTERWEFT_COMMAND_MOST = 8192,       /* the longest command as a text of JSON */
    BOLSTERWEFT_LINE_ROOM = 8368,          /* room for the line of any frame: 8 bytes for each of the frame's, and 96 more */
    BOLSTERWEFT_INPUT_MOST = 65536,        /* the longest input of `bolsterweft_list` */
    BOLSTERWEFT_LIST_ROOM = 2097202,       /* room for any listing: 32 bytes for each of the input's, and 50 more */
    BOLSTERWEFT_BOOK_MOST = 65536,         /* the longest book */
    BOLSTERWEFT_ENTRIES_MOST = 1000,       /* the most entries of a book */
    BOLSTERWEFT_SHEET_MOST = 6000,         /* the longest register sheet */
    BOLSTERWEFT_SHEET_LINES_MOST = 500,    /* the most lines of a register sheet */
    BOLSTERWEFT_MAP_ROOM = 65536           /* a register map: a byte for each register */
};


/* ---- the version -------------------------------------------------------------------------------------------------------- */

/* The version that the archive is of.
 *
 * Answers: a number like BOLSTERWEFT_VERSION.
 * Refuses: never.
 * Cost: constant.
 * Stack: 64 bytes.
 *
 * Example:
 *
 *     if (bolsterweft_version() != BOLSTERWEFT_VERSION)
 *         abort();
 *     printf("%u\n", (unsigned)bolsterweft_version()); // 10500
 */
uint32_t bolsterweft_version(void);


/* ---- frames ------------------------------------------------------------------------------------------------------------- */

/* A frame in a buffer. It has `length` bytes from buffer[start] on. Its payload has `payload_length` bytes from
 * buffer[payload_start] on: the hex digits of a Nikobus link or press (a tail has none), Nest's payload, Nibe's data, Homiq's CMD
 * to TYPE. */
struct bolsterweft_found {
    uint32_t refusal;
    size_t start;
    size_t length;
    size_t payload_start;
    size_t payload_length;
};

/* Finds the frame of the kind with the smallest start at or after the place.
 *
 *   kind                   enum bolsterweft_kind
 *   buffer, buffer_length  the bytes to be searched
 *   place                  the first byte at which a frame may begin
 *
 * Answers: the frame and its payload, as places in the buffer. What is found has the right layout, lengths and check
 * values. The next search begins at start + length: so all frames of a buffer are found in order, no two of them overlap,
 * and none lies between them.
 * Refuses, in this order:
 *   2  if the kind is not 1 to 5.
 *   3  if the place is beyond buffer_length.
 *   1  if no frame starts at or after the place, also if the place is buffer_length.
 * Cost: linear in the bytes searched. Each false start among them costs at most one frame's length more: the worst capture, two
 * overlapping Nest heads in every ten bytes that each claim some 1,000, takes 197 times as long as good frames of its size (31 ms
 * for 64 KiB, measured).
 * Stack: 192 bytes.
 *
 * Example:
 *
 *     struct bolsterweft_found f = bolsterweft_search(BOLSTERWEFT_NIBE, capture, sizeof capture, 0);
 *     if (f.refusal == 0)
 *         printf("%zu %zu %zu %zu\n", f.start, f.length, f.payload_start, f.payload_length); // 2 6 5 2
 */
struct bolsterweft_found bolsterweft_search(uint32_t kind, const uint8_t *buffer, size_t buffer_length, size_t place);

/* The payload of a frame: `payload_length` bytes from frame[payload_start] on. */
struct bolsterweft_payload {
    uint32_t refusal;
    size_t payload_start;
    size_t payload_length;
};

/* Tells whether the bytes are one frame of the kind and no byte more.
 *
 *   kind                 enum bolsterweft_kind
 *   frame, frame_length  the bytes
 *
 * Answers: the payload, as a place in the frame.
 * Refuses, in this order:
 *   2  if the kind is not 1 to 5.
 *   5  if the bytes are not one frame.
 * Cost: linear in frame_length.
 * Stack: 192 bytes.
 *
 * Example:
 *
 *     struct bolsterweft_payload p = bolsterweft_one_frame(BOLSTERWEFT_NIBE, nibe, sizeof nibe);
 *     if (p.refusal == 0)
 *         printf("%zu %zu\n", p.payload_start, p.payload_length); // 3 2
 */
struct bolsterweft_payload bolsterweft_one_frame(uint32_t kind, const uint8_t *frame, size_t frame_length);

/* The tests of a frame, in their order. */
enum bolsterweft_test {
    BOLSTERWEFT_TEST_NONE = 0,   /* no test failed: a frame of the kind stands there */
    BOLSTERWEFT_TEST_START = 1,  /* the whole start mark is not there */
    BOLSTERWEFT_TEST_LENGTH = 2, /* the length is not allowed, or there are too few bytes (Homiq has no such test) */
    BOLSTERWEFT_TEST_FIELDS = 3, /* a digit, a field, a Nibe command, CR or CR LF is not as it must be */
    BOLSTERWEFT_TEST_FIRST = 4,  /* the first check: Nikobus' CRC16, and the only one of the other buses */
    BOLSTERWEFT_TEST_SECOND = 5  /* the second check: Nikobus' CRC8 */
};

/* The test that failed first, of `enum bolsterweft_test`. If it is a check, `found` is the value that stands in the frame, and
 * `expected` the one that is worked out; otherwise both are 0. */
struct bolsterweft_verdict {
    uint32_t refusal;
    uint32_t test;
    uint32_t found;
    uint32_t expected;
};

/* Tells which test a frame of the kind that begins at the place fails first.
 *
 *   kind                   enum bolsterweft_kind
 *   buffer, buffer_length  the bytes
 *   place                  where the frame should begin
 *
 * Answers: the test and, if it is a check, its two values. It is BOLSTERWEFT_TEST_NONE exactly if `bolsterweft_search` from that
 * place finds a frame at that place.
 * Refuses, in this order:
 *   2  if the kind is not 1 to 5.
 *   3  if the place is beyond buffer_length.
 * Cost: linear in the frame's length.
 * Stack: 192 bytes.
 *
 * Example:
 *
 *     struct bolsterweft_verdict v = bolsterweft_why(BOLSTERWEFT_NIBE, capture, sizeof capture, 0);
 *     if (v.refusal == 0)
 *         printf("%u %u %u\n", (unsigned)v.test, (unsigned)v.found, (unsigned)v.expected); // 2 0 0
 */
struct bolsterweft_verdict bolsterweft_why(uint32_t kind, const uint8_t *buffer, size_t buffer_length, size_t place);

/* How many bytes were written, from the front of the room on. No NUL is behind them. */
struct bolsterweft_count {
    uint32_t refusal;
    size_t length;
};

/* Writes the acknowledgement of a Homiq frame of type `s`: SRC and DST exchanged, type `a`, the CRC worked out.
 *
 *   frame, frame_length  the frame that is acknowledged
 *   room, room_length    BOLSTERWEFT_ACKNOWLEDGE_ROOM bytes are always enough
 *
 * Answers: how many bytes were written, which are a frame. No NUL is behind them.
 * Refuses, in this order:
 *   5  if the bytes are not one Homiq frame, or its type is `a`.
 *   4  if the room is too short.
 * Cost: linear in frame_length.
 * Stack: 384 bytes.
 *
 * Example:
 *
 *     struct bolsterweft_count a = bolsterweft_acknowledge(homiq, sizeof homiq, room, sizeof room);
 *     if (a.refusal == 0)
 *         fwrite(room, 1, a.length, stdout); // <;I.3;1;0;0H;42;a;64;>
 */
struct bolsterweft_count bolsterweft_acknowledge(const uint8_t *frame, size_t frame_length, uint8_t *room, size_t room_length);

/* Writes the frame of a command that is a text of JSON: an object with the members of a frame's line, as docs/LINES.md describes them,
 * but with `kind`, its number, in place of `at` and `len`. The members may stand in any order.
 *
 *   text, text_length  the text: UTF-8, BOLSTERWEFT_COMMAND_MOST bytes at most; blanks and LF may stand around it
 *   room, room_length  BOLSTERWEFT_FRAME_MOST bytes are always enough
 *
 * Answers: how many bytes were written, which are a frame of that kind. No NUL is behind them.
 * Refuses, in this order:
 *   11  if the text is not JSON or too long, has values more than 16 deep in one another, or a name twice in an object.
 *   12  if members are missing, extra, of another sort or spelling than in a line, or disagree.
 *   5  if a value is outside its limits.
 *   6  if the message has the content of one above it in the table.
 *   4  if the room is too short.
 * Cost: linear in text_length; in addition each object costs at most the number of its members times its size, twice
 * BOLSTERWEFT_COMMAND_MOST bytes are cleared, and a text that is too long is refused at once. An object of as many members as fit
 * is the worst text (14 ms, measured on a busy machine); the longest commands take 0.05 ms.
 * Stack: 21,760 bytes.
 *
 * Example:
 *
 *     struct bolsterweft_count c = bolsterweft_encode((const uint8_t *)"{\"kind\":4,\"msg\":\"ask\",\"reg\":100}", 32, room, sizeof room);
 *     if (c.refusal == 0)
 *         printf("%zu %02X %02X\n", c.length, (unsigned)room[0], (unsigned)room[1]); // 6 C0 69
 */
struct bolsterweft_count bolsterweft_encode(const uint8_t *text, size_t text_length, uint8_t *room, size_t room_length);


/* ---- the register sheet -------------------------------------------------------------------------------------------------- */

/* The installer's register sheet says what the values of the Nibe pump's registers are. It has up to 500 lines
 * `register,type,decimals`, each with LF. The type is u8, s8, u16, s16, u32 or s32. The registers rise, and no number has leading
 * zeros. It is read once, into a register map, and the map is what other calls take. A map has one byte for each register: 0 for one
 * that is not in the sheet, and otherwise 1 + 4 * type + decimals, the types being 0 to 5 in the order above. */

/* Reads a register sheet into a register map.
 *
 *   text, text_length  the sheet; without a byte it is a sheet without lines
 *   map, map_length    BOLSTERWEFT_MAP_ROOM bytes are always enough, and fewer are too few
 *
 * Answers: how many bytes were written: BOLSTERWEFT_MAP_ROOM.
 * Refuses, in this order:
 *   10  if the bytes are not a sheet; `bolsterweft_sheet_fault` tells which line is wrong.
 *   4  if the map is too short.
 * Cost: linear in text_length, and BOLSTERWEFT_MAP_ROOM bytes are set.
 * Stack: 192 bytes.
 *
 * Example:
 *
 *     struct bolsterweft_count c = bolsterweft_sheet_map((const uint8_t *)"40004,s16,1\n", 12, map, sizeof map);
 *     if (c.refusal == 0)
 *         printf("%zu %u %u\n", c.length, (unsigned)map[40004], (unsigned)map[40005]); // 65536 14 0
 */
struct bolsterweft_count bolsterweft_sheet_map(const uint8_t *text, size_t text_length, uint8_t *map, size_t map_length);

/* The tests of a register sheet's line, in their order. */
enum bolsterweft_sheet_test {
    BOLSTERWEFT_SHEET_PASSED = 0,     /* no test failed: the bytes are a sheet */
    BOLSTERWEFT_SHEET_FORM = 1,       /* the line has not three fields with a comma between each two */
    BOLSTERWEFT_SHEET_REGISTER = 2,   /* the register is not 0 to 65535, or has leading zeros */
    BOLSTERWEFT_SHEET_TYPE = 3,       /* the type is none of the six */
    BOLSTERWEFT_SHEET_DECIMALS = 4,   /* the decimals are not 0 to 3 */
    BOLSTERWEFT_SHEET_NOT_RISING = 5, /* the register is not above that of the line before */
    BOLSTERWEFT_SHEET_OVER_500 = 6,   /* the line is the 501st */
    BOLSTERWEFT_SHEET_NO_LAST_LF = 7  /* the line has no LF */
};

/* The first line of a register sheet that is wrong, counted from 1, and the first test that it fails, of
 * `enum bolsterweft_sheet_test`. Both are 0 if the bytes are a sheet. */
struct bolsterweft_fault {
    uint32_t refusal;
    uint32_t test;
    size_t line;
};

/* Tells which line of a register sheet is wrong, and why.
 *
 *   text, text_length  the sheet
 *
 * Answers: the line and the test. They are 0 exactly if the bytes are a sheet.
 * Refuses: never.
 * Cost: linear in text_length.
 * Stack: 128 bytes.
 *
 * Example:
 *
 *     struct bolsterweft_fault f = bolsterweft_sheet_fault((const uint8_t *)"40004,s16,1\n40004,u8,0\n", 23);
 *     if (f.test == BOLSTERWEFT_SHEET_NOT_RISING)
 *         printf("line %zu\n", f.line); // line 2
 */
struct bolsterweft_fault bolsterweft_sheet_fault(const uint8_t *text, size_t text_length);


/* ---- lines of JSON ------------------------------------------------------------------------------------------------------ */

/* Writes the line of one frame: a JSON object and LF, and no NUL.
 *
 *   kind                 enum bolsterweft_kind
 *   frame, frame_length  the frame
 *   at                   the line's first member: any number, usually the frame's place in its capture
 *   room, room_length    BOLSTERWEFT_LINE_ROOM bytes are always enough
 *
 * Answers: how many bytes were written. docs/LINES.md describes them.
 * Refuses, in this order:
 *   2  if the kind is not 1 to 5.
 *   5  if the bytes are not one frame.
 *   4  if the room is too short.
 * Cost: linear in frame_length.
 * Stack: 576 bytes.
 *
 * Example:
 *
 *     struct bolsterweft_count c = bolsterweft_line(BOLSTERWEFT_NIBE, nibe, sizeof nibe, 14, room, sizeof room);
 *     if (c.refusal == 0)
 *         fwrite(room, 1, c.length, stdout); // {"at":14,"len":6,"msg":"ask","reg":100}
 */
struct bolsterweft_count bolsterweft_line(uint32_t kind, const uint8_t *frame, size_t frame_length, size_t at, uint8_t *room,
                                          size_t room_length);

/* Writes the line of one frame by a register map.
 *
 *   kind                 enum bolsterweft_kind
 *   frame, frame_length  the frame
 *   at                   the line's first member: any number, usually the frame's place in its capture
 *   map, map_length      what `bolsterweft_sheet_map` writes; without a byte it is no sheet
 *   room, room_length    26 bytes for each of the frame's, and 96 more, are always enough
 *
 * Answers: how many bytes were written. docs/LINES.md describes them.
 * Refuses, in this order:
 *   2  if the kind is not 1 to 5.
 *   5  if the bytes are not one frame.
 *   4  if the room is too short.
 * Cost: linear in frame_length.
 * Stack: 576 bytes.
 *
 * Example:
 *
 *     struct bolsterweft_count c = bolsterweft_line_with(BOLSTERWEFT_NIBE, nibe, sizeof nibe, 14, map, sizeof map, room, sizeof room);
 *     if (c.refusal == 0)
 *         fwrite(room, 1, c.length, stdout); // {"at":14,"len":6,"msg":"ask","reg":100}
 */
struct bolsterweft_count bolsterweft_line_with(uint32_t kind, const uint8_t *frame, size_t frame_length, size_t at, const uint8_t *map,
                                               size_t map_length, uint8_t *room, size_t room_length);

/* A frame in a capture, and its line: the frame has `length` bytes from capture[start] on, and its line is the first `line_length`
 * bytes of the room. */
struct bolsterweft_listed {
    uint32_t refusal;
    size_t start;
    size_t length;
    size_t line_length;
};

/* Finds the next frame as `bolsterweft_search` does, and writes its line: a JSON object and LF, and no NUL.
 *
 *   kind                     enum bolsterweft_kind
 *   capture, capture_length  the bytes to be searched
 *   place                    the first byte at which a frame may begin
 *   room, room_length        BOLSTERWEFT_LINE_ROOM bytes are always enough
 *
 * Answers: the frame's place in the capture, which is also the line's `at`, its length, and how many bytes were written.
 * The next call begins at start + length.
 * Refuses, in this order:
 *   2  if the kind is not 1 to 5.
 *   3  if the place is beyond capture_length.
 *   4  if there is a frame, and the room is too short for its line.
 *   1  if no frame starts at or after the place.
 * Cost: that of the search, and linear in the frame's length.
 * Stack: 832 bytes.
 *
 * Example:
 *
 *     struct bolsterweft_listed l = bolsterweft_line_next(BOLSTERWEFT_NIBE, capture, sizeof capture, 0, room, sizeof room);
 *     if (l.refusal == 0)
 *         fwrite(room, 1, l.line_length, stdout); // {"at":2,"len":6,"msg":"ask","reg":100}
 */
struct bolsterweft_listed bolsterweft_line_next(uint32_t kind, const uint8_t *capture, size_t capture_length, size_t place, uint8_t *room,
                                                size_t room_length);

/* Finds the next frame, and writes its line by a register map.
 *
 *   kind                     enum bolsterweft_kind
 *   capture, capture_length  the bytes to be searched
 *   place                    the first byte at which a frame may begin
 *   map, map_length          what `bolsterweft_sheet_map` writes; without a byte it is no sheet
 *   room, room_length        26 bytes for each of the frame's, and 96 more, are always enough
 *
 * Answers: the frame's place in the capture, which is also the line's `at`, its length, and how many bytes were written.
 * The next call begins at start + length.
 * Refuses, in this order:
 *   2  if the kind is not 1 to 5.
 *   3  if the place is beyond capture_length.
 *   4  if there is a frame, and the room is too short for its line.
 *   1  if no frame starts at or after the place.
 * Cost: that of the search, and linear in the frame's length.
 * Stack: 896 bytes.
 *
 * Example:
 *
 *     struct bolsterweft_listed l = bolsterweft_line_next_with(BOLSTERWEFT_NIBE, capture, sizeof capture, 0, map, sizeof map, room, sizeof room);
 *     if (l.refusal == 0)
 *         fwrite(room, 1, l.line_length, stdout); // {"at":2,"len":6,"msg":"ask","reg":100}
 */
struct bolsterweft_listed bolsterweft_line_next_with(uint32_t kind, const uint8_t *capture, size_t capture_length, size_t place,
                                                     const uint8_t *map, size_t map_length, uint8_t *room, size_t room_length);

/* Writes the whole listing of an input, as bin/list prints it: lines of JSON with LF, and no NUL.
 *
 *   input, input_length  a digit 1 to 5 for the kind, LF, then the capture: BOLSTERWEFT_INPUT_MOST bytes at most
 *   room, room_length    32 bytes for each of the input's, and 50 more, are always enough, as are BOLSTERWEFT_LIST_ROOM
 *
 * Answers: how many bytes were written. An input that is not as described is answered, too: with the one line
 * {"refused":2} or {"refused":5}.
 * Refuses, in this order:
 *   4  if the room is too short.
 * Cost: that of searching the capture; twice that if the room is shorter than what is always enough.
 * Stack: 1,024 bytes.
 *
 * Example:
 *
 *     struct bolsterweft_count c = bolsterweft_list((const uint8_t *)"4\nnoise", 7, room, sizeof room);
 *     if (c.refusal == 0)
 *         fwrite(room, 1, c.length, stdout); // {"frames":0,"skipped":5}
 */
struct bolsterweft_count bolsterweft_list(const uint8_t *input, size_t input_length, uint8_t *room, size_t room_length);

/* Writes the whole listing of an input by a register map, as bin/list prints it with the map's sheet.
 *
 *   input, input_length  a digit 1 to 5 for the kind, LF, then the capture: BOLSTERWEFT_INPUT_MOST bytes at most
 *   map, map_length      what `bolsterweft_sheet_map` writes; without a byte it is no sheet
 *   room, room_length    32 bytes for each of the input's, and 50 more, are always enough, as are BOLSTERWEFT_LIST_ROOM
 *
 * Answers: how many bytes were written. An input that is not as described is answered, too: with the one line
 * {"refused":2} or {"refused":5}.
 * Refuses, in this order:
 *   4  if the room is too short.
 * Cost: that of searching the capture; twice that if the room is shorter than what is always enough.
 * Stack: 1,024 bytes.
 *
 * Example:
 *
 *     struct bolsterweft_count c = bolsterweft_list_with((const uint8_t *)"4\nnoise", 7, map, sizeof map, room, sizeof room);
 *     if (c.refusal == 0)
 *         fwrite(room, 1, c.length, stdout); // {"frames":0,"skipped":5}
 */
struct bolsterweft_count bolsterweft_list_with(const uint8_t *input, size_t input_length, const uint8_t *map, size_t map_length,
                                               uint8_t *room, size_t room_length);


/* ---- numbers ------------------------------------------------------------------------------------------------------------ */

/* Writes the decimal text of raw / 10^decimals, exactly, and no NUL.
 *
 *   raw                -2147483648 to 4294967295
 *   decimals           0 to 3: the number of digits behind the point; for 0 there is no point
 *   room, room_length  BOLSTERWEFT_TEXT_ROOM bytes are always enough
 *
 * Answers: how many bytes were written. The text has no leading zeros, and no minus on zero.
 * Refuses, in this order:
 *   7  if the decimals are above 3.
 *   5  if raw is out of range.
 *   4  if the room is too short.
 * Cost: constant.
 * Stack: 256 bytes.
 *
 * Example:
 *
 *     struct bolsterweft_count t = bolsterweft_text(-5, 2, room, sizeof room);
 *     if (t.refusal == 0)
 *         printf("%.*s\n", (int)t.length, (const char *)room); // -0.05
 */
struct bolsterweft_count bolsterweft_text(int64_t raw, uint32_t decimals, uint8_t *room, size_t room_length);

/* A raw number and its decimals. */
struct bolsterweft_reading {
    uint32_t refusal;
    uint32_t decimals;
    int64_t raw;
};

/* Reads the text of a number.
 *
 *   text, text_length  a text as `bolsterweft_text` writes it: `-0`, `+1`, `01`, `1.` and ` 1` are no such texts
 *
 * Answers: the raw number and the decimals whose text it is.
 * Refuses, in this order:
 *   7  if the bytes are no such text, or its raw number is out of range.
 * Cost: constant.
 * Stack: 256 bytes.
 *
 * Example:
 *
 *     struct bolsterweft_reading r = bolsterweft_number((const uint8_t *)"-12.5", 5);
 *     if (r.refusal == 0)
 *         printf("%lld %u\n", (long long)r.raw, (unsigned)r.decimals); // -125 1
 */
struct bolsterweft_reading bolsterweft_number(const uint8_t *text, size_t text_length);

/* Writes a raw number as bytes, low byte first.
 *
 *   raw                the number
 *   width              1, 2 or 4: how many bytes
 *   is_signed          0 for unsigned bytes, anything else for two's complement
 *   room, room_length  as many bytes as the width
 *
 * Answers: how many bytes were written: the width.
 * Refuses, in this order:
 *   7  if the width is not 1, 2 or 4.
 *   5  if width and sign do not hold the number.
 *   4  if the room is too short.
 * Cost: constant.
 * Stack: 64 bytes.
 *
 * Example:
 *
 *     struct bolsterweft_count v = bolsterweft_value(-2, 2, 1, room, sizeof room);
 *     if (v.refusal == 0)
 *         printf("%zu %02X %02X\n", v.length, (unsigned)room[0], (unsigned)room[1]); // 2 FE FF
 */
struct bolsterweft_count bolsterweft_value(int64_t raw, uint32_t width, uint32_t is_signed, uint8_t *room, size_t room_length);

/* A raw number. */
struct bolsterweft_raw {
    uint32_t refusal;
    int64_t raw;
};

/* Reads a raw number from bytes, low byte first.
 *
 *   bytes, bytes_length  the bytes, as many as the width
 *   width                1, 2 or 4
 *   is_signed            0 for unsigned bytes, anything else for two's complement
 *
 * Answers: the raw number.
 * Refuses, in this order:
 *   7  if the width is not 1, 2 or 4.
 *   5  if bytes_length is not the width.
 * Cost: constant.
 * Stack: 64 bytes.
 *
 * Example:
 *
 *     struct bolsterweft_raw v = bolsterweft_value_read((const uint8_t *)"\xFE\xFF", 2, 2, 1);
 *     if (v.refusal == 0)
 *         printf("%lld\n", (long long)v.raw); // -2
 */
struct bolsterweft_raw bolsterweft_value_read(const uint8_t *bytes, size_t bytes_length, uint32_t width, uint32_t is_signed);

/* `fits` is 1 or 0. */
struct bolsterweft_fit {
    uint32_t refusal;
    uint32_t fits;
};

/* Tells whether a `float` holds the raw number exactly.
 *
 *   raw  -2147483648 to 4294967295
 *
 * Answers: 1 if it does, else 0.
 * Refuses, in this order:
 *   5  if raw is out of range.
 * Cost: constant.
 * Stack: 64 bytes.
 *
 * Example:
 *
 *     struct bolsterweft_fit f = bolsterweft_fits(16777217);
 *     if (f.refusal == 0)
 *         printf("%s\n", f.fits ? "float" : "double"); // double
 */
struct bolsterweft_fit bolsterweft_fits(int64_t raw);

/* A number for the wall panel. If `size` is 4, it is `single`, and if `size` is 8, it is `wide`; the other is 0. In a refusal all
 * three are 0. */
struct bolsterweft_panel_value {
    uint32_t refusal;
    uint32_t size;
    float single;
    double wide;
};

/* Gives the raw number as the wall panel takes it: a `float` if that holds it exactly, and otherwise a `double`.
 *
 *   raw  -2147483648 to 4294967295
 *
 * Answers: the number, exactly, and which of the two it is. It is not divided by 10^decimals.
 * Refuses, in this order:
 *   5  if raw is out of range.
 * Cost: constant.
 * Stack: 64 bytes.
 *
 * Example:
 *
 *     struct bolsterweft_panel_value v = bolsterweft_panel(16777217);
 *     if (v.refusal == 0)
 *         printf("%.1f\n", v.size == 4 ? (double)v.single : v.wide); // 16777217.0
 */
struct bolsterweft_panel_value bolsterweft_panel(int64_t raw);

/* A climate message's two numbers for the wall panel. In C++, too, write `struct bolsterweft_climate`: without `struct`, the name is
 * that of the function below. */
struct bolsterweft_climate {
    uint32_t refusal;
    float temperature;
    float humidity;
};

/* Gives a climate message's two raw numbers as the wall panel takes them: as floats, exactly.
 *
 *   temperature  -32768 to 32767, in hundredths of a degree
 *   humidity     0 to 65535, in tenths of a percent
 *
 * Answers: the two numbers. They are not divided.
 * Refuses, in this order:
 *   5  if the temperature or the humidity is out of range.
 * Cost: constant.
 * Stack: 64 bytes.
 *
 * Example:
 *
 *     struct bolsterweft_climate c = bolsterweft_climate(2150, 455);
 *     if (c.refusal == 0)
 *         printf("%.1f %.1f\n", (double)c.temperature, (double)c.humidity); // 2150.0 455.0
 */
struct bolsterweft_climate bolsterweft_climate(int32_t temperature, uint32_t humidity);


/* ---- the capture book ---------------------------------------------------------------------------------------------------- */

/* A capture book keeps up to 1,000 frames of any kinds in up to 65,536 bytes. The book without entries is the six bytes
 * 00 00 06 00 00 00. Every call below tests every byte of the book first, so a damaged book is refused and never misread.
 * Entries count from 0. */

/* How many entries a book has. */
struct bolsterweft_entries {
    uint32_t refusal;
    size_t count;
};

/* Opens a book: tests all of it, and counts its entries.
 *
 *   book, book_length  the book
 *
 * Answers: how many entries it has.
 * Refuses, in this order:
 *   8  if the bytes are not a book.
 * Cost: linear in book_length.
 * Stack: 256 bytes.
 *
 * Example:
 *
 *     struct bolsterweft_entries e = bolsterweft_book_open(book, sizeof book);
 *     if (e.refusal == 0)
 *         printf("%zu\n", e.count); // 1
 */
struct bolsterweft_entries bolsterweft_book_open(const uint8_t *book, size_t book_length);

/* An entry of a book. It begins at book[offset], and its frame has `frame_length` bytes from book[frame_start] on. */
struct bolsterweft_entry {
    uint32_t refusal;
    uint32_t kind;
    size_t offset;
    size_t frame_start;
    size_t frame_length;
};

/* Finds an entry by its number.
 *
 *   book, book_length  the book
 *   number             the entry's number, counted from 0
 *
 * Answers: the entry's kind, its offset, and its frame, as places in the book.
 * Refuses, in this order:
 *   8  if the bytes are not a book.
 *   3  if it has no entry of that number.
 * Cost: linear in book_length. So a walk over all entries is quadratic; `bolsterweft_book_list` is not.
 * Stack: 320 bytes.
 *
 * Example:
 *
 *     struct bolsterweft_entry e = bolsterweft_book_entry(book, sizeof book, 0);
 *     if (e.refusal == 0)
 *         printf("%u %zu %zu %zu\n", (unsigned)e.kind, e.offset, e.frame_start, e.frame_length); // 2 0 3 9
 */
struct bolsterweft_entry bolsterweft_book_entry(const uint8_t *book, size_t book_length, uint32_t number);

/* Writes the line of an entry's frame: a JSON object and LF, and no NUL.
 *
 *   book, book_length  the book
 *   number             the entry's number, counted from 0
 *   room, room_length  BOLSTERWEFT_LINE_ROOM bytes are always enough
 *
 * Answers: how many bytes were written. The line's `at` is the entry's offset.
 * Refuses, in this order:
 *   8  if the bytes are not a book.
 *   3  if it has no entry of that number.
 *   4  if the room is too short.
 * Cost: linear in book_length.
 * Stack: 640 bytes.
 *
 * Example:
 *
 *     struct bolsterweft_count c = bolsterweft_book_line(book, sizeof book, 0, room, sizeof room);
 *     if (c.refusal == 0)
 *         fwrite(room, 1, c.length, stdout); // {"at":0,"len":9,"msg":"command","id":255,"data":""}
 */
struct bolsterweft_count bolsterweft_book_line(const uint8_t *book, size_t book_length, uint32_t number, uint8_t *room,
                                               size_t room_length);

/* Writes the line of an entry's frame by a register map.
 *
 *   book, book_length  the book
 *   number             the entry's number, counted from 0
 *   map, map_length    what `bolsterweft_sheet_map` writes; without a byte it is no sheet
 *   room, room_length  26 bytes for each of the frame's, and 96 more, are always enough
 *
 * Answers: how many bytes were written. The line's `at` is the entry's offset.
 * Refuses, in this order:
 *   8  if the bytes are not a book.
 *   3  if it has no entry of that number.
 *   4  if the room is too short.
 * Cost: linear in book_length.
 * Stack: 640 bytes.
 *
 * Example:
 *
 *     struct bolsterweft_count c = bolsterweft_book_line_with(book, sizeof book, 0, map, sizeof map, room, sizeof room);
 *     if (c.refusal == 0)
 *         fwrite(room, 1, c.length, stdout); // {"at":0,"len":9,"msg":"command","id":255,"data":""}
 */
struct bolsterweft_count bolsterweft_book_line_with(const uint8_t *book, size_t book_length, uint32_t number,
                                                    const uint8_t *map, size_t map_length, uint8_t *room,
                                                    size_t room_length);

/* Writes the lines of all entries in order, each with LF, and no NUL.
 *
 *   book, book_length  the book
 *   room, room_length  8 bytes for each of the book's, and 40 for each entry, are always enough
 *
 * Answers: how many bytes were written.
 * Refuses, in this order:
 *   8  if the bytes are not a book.
 *   4  if the room is too short.
 * Cost: linear in book_length.
 * Stack: 16,768 bytes.
 *
 * Example:
 *
 *     struct bolsterweft_count c = bolsterweft_book_list(book, sizeof book, room, sizeof room);
 *     if (c.refusal == 0)
 *         fwrite(room, 1, c.length, stdout); // {"at":0,"len":9,"msg":"command","id":255,"data":""}
 */
struct bolsterweft_count bolsterweft_book_list(const uint8_t *book, size_t book_length, uint8_t *room, size_t room_length);

/* Writes the lines of all entries by a register map.
 *
 *   book, book_length  the book
 *   map, map_length    what `bolsterweft_sheet_map` writes; without a byte it is no sheet
 *   room, room_length  26 bytes for each of the book's are always enough
 *
 * Answers: how many bytes were written.
 * Refuses, in this order:
 *   8  if the bytes are not a book.
 *   4  if the room is too short.
 * Cost: linear in book_length.
 * Stack: 16,768 bytes.
 *
 * Example:
 *
 *     struct bolsterweft_count c = bolsterweft_book_list_with(book, sizeof book, map, sizeof map, room, sizeof room);
 *     if (c.refusal == 0)
 *         fwrite(room, 1, c.length, stdout); // {"at":0,"len":9,"msg":"command","id":255,"data":""}
 */
struct bolsterweft_count bolsterweft_book_list_with(const uint8_t *book, size_t book_length, const uint8_t *map,
                                                    size_t map_length, uint8_t *room, size_t room_length);

/* Writes a new book: the old one, with a frame as a new last entry.
 *
 *   book, book_length    the old book, which is only read
 *   kind                 enum bolsterweft_kind
 *   frame, frame_length  the frame
 *   room, room_length    for the new book: book_length + frame_length + 7 bytes
 *
 * Answers: how many bytes were written: the new book.
 * Refuses, in this order:
 *   8  if the bytes are not a book.
 *   2  if the kind is not 1 to 5.
 *   5  if the bytes are not one frame of the kind, or the new book would be over its limits.
 *   4  if the room is too short.
 * Cost: linear in book_length and frame_length.
 * Stack: 320 bytes.
 *
 * Example:
 *
 *     struct bolsterweft_count c = bolsterweft_book_add(book, sizeof book, BOLSTERWEFT_NIBE, nibe, sizeof nibe, room, sizeof room);
 *     if (c.refusal == 0)
 *         printf("%zu bytes, %zu entries\n", c.length, bolsterweft_book_open(room, c.length).count); // 35 bytes, 2 entries
 */
struct bolsterweft_count bolsterweft_book_add(const uint8_t *book, size_t book_length, uint32_t kind, const uint8_t *frame,
                                              size_t frame_length, uint8_t *room, size_t room_length);


/* ---- refusals as text ---------------------------------------------------------------------------------------------------- */

#if defined(__cplusplus) || (defined(__STDC_VERSION__) && __STDC_VERSION__ >= 199901L)
/* A sentence for a refusal number, for logs: a string that ends with NUL, as usual in C, and is never NULL. C89 has no `inline`, and
 * goes without this function.
 *
 * Example:
 *
 *     struct bolsterweft_count t = bolsterweft_text(1, 4, room, sizeof room);
 *     if (t.refusal != 0)
 *         printf("%s\n", bolsterweft_refusal_text(t.refusal)); // A width, decimals or a number text are not as they must be.
 */
static inline const char *bolsterweft_refusal_text(uint32_t refusal) {
    switch (refusal) {
    case 0:
        return "No refusal.";
    case BOLSTERWEFT_NO_FRAME:
        return "There is no frame from that place on.";
    case BOLSTERWEFT_NO_KIND:
        return "The kind is not 1 to 5.";
    case BOLSTERWEFT_NO_PLACE:
        return "The place is beyond the buffer's length, or the book has no entry of that number.";
    case BOLSTERWEFT_NO_ROOM:
        return "The room is too short for the answer.";
    case BOLSTERWEFT_OUT_OF_LIMITS:
        return "A frame, a book or a number is outside its limits.";
    case BOLSTERWEFT_CONTENT_ABOVE:
        return "The message has the content of one above it in the table.";
    case BOLSTERWEFT_BAD_FORM:
        return "A width, decimals or a number text are not as they must be.";
    case BOLSTERWEFT_NO_BOOK:
        return "The bytes are not a capture book.";
    case BOLSTERWEFT_NO_REGISTER:
        return "A register is not in the register sheet, or the data end inside a value.";
    case BOLSTERWEFT_BAD_SHEET:
        return "The bytes are not a register sheet.";
    case BOLSTERWEFT_NOT_IN_GRAMMAR:
        return "The text is not JSON, or over a limit.";
    case BOLSTERWEFT_BAD_MEMBERS:
        return "Members of the command are missing, extra or not as they must be.";
    default:
        return "There is no refusal of this number.";
    }
}
#endif


/* ---- the layout of the structs ------------------------------------------------------------------------------------------- */

/* What the archive was compiled with. A compiler for another platform stops here. C89 goes without. */
#if defined(__cplusplus) && __cplusplus >= 201103L
#define BOLSTERWEFT_HOLDS(truth) static_assert(truth, "bolsterweft.h: this compiler lays out structs otherwise than the archive")
#elif defined(__STDC_VERSION__) && __STDC_VERSION__ >= 201112L
#define BOLSTERWEFT_HOLDS(truth) _Static_assert(truth, "bolsterweft.h: this compiler lays out structs otherwise than the archive")
#endif
#ifdef BOLSTERWEFT_HOLDS
#define BOLSTERWEFT_SIZE(type, bytes) BOLSTERWEFT_HOLDS(sizeof(struct type) == (bytes))
#define BOLSTERWEFT_AT(type, member, place) BOLSTERWEFT_HOLDS(offsetof(struct type, member) == (place))

BOLSTERWEFT_SIZE(bolsterweft_found, 40);
BOLSTERWEFT_AT(bolsterweft_found, refusal, 0);
BOLSTERWEFT_AT(bolsterweft_found, start, 8);
BOLSTERWEFT_AT(bolsterweft_found, length, 16);
BOLSTERWEFT_AT(bolsterweft_found, payload_start, 24);
BOLSTERWEFT_AT(bolsterweft_found, payload_length, 32);

BOLSTERWEFT_SIZE(bolsterweft_payload, 24);
BOLSTERWEFT_AT(bolsterweft_payload, refusal, 0);
BOLSTERWEFT_AT(bolsterweft_payload, payload_start, 8);
BOLSTERWEFT_AT(bolsterweft_payload, payload_length, 16);

BOLSTERWEFT_SIZE(bolsterweft_verdict, 16);
BOLSTERWEFT_AT(bolsterweft_verdict, refusal, 0);
BOLSTERWEFT_AT(bolsterweft_verdict, test, 4);
BOLSTERWEFT_AT(bolsterweft_verdict, found, 8);
BOLSTERWEFT_AT(bolsterweft_verdict, expected, 12);

BOLSTERWEFT_SIZE(bolsterweft_fault, 16);
BOLSTERWEFT_AT(bolsterweft_fault, refusal, 0);
BOLSTERWEFT_AT(bolsterweft_fault, test, 4);
BOLSTERWEFT_AT(bolsterweft_fault, line, 8);

BOLSTERWEFT_SIZE(bolsterweft_count, 16);
BOLSTERWEFT_AT(bolsterweft_count, refusal, 0);
BOLSTERWEFT_AT(bolsterweft_count, length, 8);

BOLSTERWEFT_SIZE(bolsterweft_listed, 32);
BOLSTERWEFT_AT(bolsterweft_listed, refusal, 0);
BOLSTERWEFT_AT(bolsterweft_listed, start, 8);
BOLSTERWEFT_AT(bolsterweft_listed, length, 16);
BOLSTERWEFT_AT(bolsterweft_listed, line_length, 24);

BOLSTERWEFT_SIZE(bolsterweft_reading, 16);
BOLSTERWEFT_AT(bolsterweft_reading, refusal, 0);
BOLSTERWEFT_AT(bolsterweft_reading, decimals, 4);
BOLSTERWEFT_AT(bolsterweft_reading, raw, 8);

BOLSTERWEFT_SIZE(bolsterweft_raw, 16);
BOLSTERWEFT_AT(bolsterweft_raw, refusal, 0);
BOLSTERWEFT_AT(bolsterweft_raw, raw, 8);

BOLSTERWEFT_SIZE(bolsterweft_fit, 8);
BOLSTERWEFT_AT(bolsterweft_fit, refusal, 0);
BOLSTERWEFT_AT(bolsterweft_fit, fits, 4);

BOLSTERWEFT_SIZE(bolsterweft_panel_value, 24);
BOLSTERWEFT_AT(bolsterweft_panel_value, refusal, 0);
BOLSTERWEFT_AT(bolsterweft_panel_value, size, 4);
BOLSTERWEFT_AT(bolsterweft_panel_value, single, 8);
BOLSTERWEFT_AT(bolsterweft_panel_value, wide, 16);

BOLSTERWEFT_SIZE(bolsterweft_climate, 12);
BOLSTERWEFT_AT(bolsterweft_climate, refusal, 0);
BOLSTERWEFT_AT(bolsterweft_climate, temperature, 4);
BOLSTERWEFT_AT(bolsterweft_climate, humidity, 8);

BOLSTERWEFT_SIZE(bolsterweft_entries, 16);
BOLSTERWEFT_AT(bolsterweft_entries, refusal, 0);
BOLSTERWEFT_AT(bolsterweft_entries, count, 8);

BOLSTERWEFT_SIZE(bolsterweft_entry, 32);
BOLSTERWEFT_AT(bolsterweft_entry, refusal, 0);
BOLSTERWEFT_AT(bolsterweft_entry, kind, 4);
BOLSTERWEFT_AT(bolsterweft_entry, offset, 8);
BOLSTERWEFT_AT(bolsterweft_entry, frame_start, 16);
BOLSTERWEFT_AT(bolsterweft_entry, frame_length, 24);

#undef BOLSTERWEFT_AT
#undef BOLSTERWEFT_SIZE
#undef BOLSTERWEFT_HOLDS
#endif

#ifdef __cplusplus
}
#endif

#endif
