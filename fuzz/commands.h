/* A line in plain C with the kind in place of `at` and `len` is a command, whose frame must be the one that the line is of. */
#ifndef COMMANDS_H
#define COMMANDS_H

#include "../tests/lines_in_c.h"
#include "fenced.h"

/* The frame of a command, or a refusal. */
static void try_encode(const u8 *text, usize length, u32 refusal, const u8 *f, usize n, usize m) {
    u8 *room = fenced(1, m, SOME);
    struct bolsterweft_count c = {refusal, refusal ? 0 : n};
    agree_written(bolsterweft_encode(text, length, room, m), room, c, f, m, "a line as a command");
}

/* The command of a frame, behind its fence, in a room that just suffices and in one that does not; and cut. */
static void try_command(u32 kind, const u8 *f, usize n, usize at) {
    static u8 line[BOLSTERWEFT_LINE_ROOM], command[BOLSTERWEFT_LINE_ROOM];
    usize length = line_in_c(kind, f, n, at, line, sizeof line).length;
    usize head = (usize)snprintf((char *)command, 64, "{\"at\":%zu,\"len\":%zu", at, n);
    usize front = (usize)snprintf((char *)command, 64, "{\"kind\":%u", (unsigned)kind);
    if (!length)
        return;
    memcpy(command + front, line + head, length - head);
    length += front - head;
    const u8 *text = fenced_copy(3, command, length);
    try_encode(text, length, 0, f, n, n);
    try_encode(text, length, 4, f, n, n - 1);
    try_encode(text, length - 2, 11, f, n, 0);
}

#endif
