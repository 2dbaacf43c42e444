/* A text as a command. There is no reader of commands in plain C to compare with: what is written must be a frame in plain C, and the
   command of that frame must be written as the same frame; what is refused must leave the room as it was. */
#include "commands.h"

/* The kind of which the bytes are one frame, and 0 for none. Kinds 2 and 3 differ in their first bytes. */
static u32 kind_of(const u8 *f, usize n) {
    u32 kind = BOLSTERWEFT_HOMIQ;
    while (kind && one_frame_in_c(kind, f, n).refusal)
        kind--;
    return kind;
}

/* A command that is written needs just as much room as its frame has bytes. */
static void try_written(const u8 *text, usize n, const u8 *written, usize length) {
    const u8 *frame = fenced_copy(2, written, length);
    u32 kind = kind_of(frame, length);
    agree(kind != 0, "what is written is a frame");
    try_encode(text, n, 0, frame, length, length);
    try_encode(text, n, 4, frame, length, length - 1);
    try_command(kind, frame, length, n);
}

int LLVMFuzzerTestOneInput(const u8 *data, usize n) {
    for (fence = 0; fence < SIDES; fence++) {
        const u8 *text = fenced_copy(0, data, n);
        u8 *room = fenced(1, BOLSTERWEFT_FRAME_MOST, SOME);
        struct bolsterweft_count r = bolsterweft_encode(text, n, room, BOLSTERWEFT_FRAME_MOST);
        agree(n <= BOLSTERWEFT_COMMAND_MOST || r.refusal == 11, "a text that is too long");
        agree(all_same(room + r.length, BOLSTERWEFT_FRAME_MOST - r.length, SOME), "nothing else is written");
        if (r.refusal == 0)
            try_written(text, n, room, r.length);
        else
            agree(r.length == 0 && (r.refusal == 11 || r.refusal == 12 || r.refusal == 5 || r.refusal == 6), "a refusal");
    }
    return 0;
}
