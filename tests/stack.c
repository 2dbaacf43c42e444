/* How much stack each call takes, measured: it runs on a stack of its own that was painted before, with inputs that take it to its deepest
   parts. A line for each call: its name, and how many bytes were altered. What a call reserves and leaves alone is not seen, so a call may
   take more than it shows here; docs/API.md has what the machine code says. x86-64 alone. */
#include "books_made.h"

enum { STACK = 1 << 16, PAINT = 0xA5 };

static u8 stack[STACK] __attribute__((aligned(64)));
static u8 room[BOLSTERWEFT_LIST_ROOM], bytes[BOLSTERWEFT_INPUT_MOST], book[BOLSTERWEFT_BOOK_MOST], map[BOLSTERWEFT_MAP_ROOM];
static const u8 sheet[] = "0,u8,0\n1,s8,1\n10,u16,2\n40004,s16,3\n65534,u32,0\n65535,s32,1\n";
static u8 asked[BOLSTERWEFT_LINE_ROOM];
static usize length, size, room_length, asked_length;
static u32 kind;
static i64 raw;
static struct piece piece;

/* Calls f with the stack pointer at the top of the painted stack. */
static void on_stack(void (*f)(void)) {
    __asm__ volatile("movq %%rsp, %%rbx\n\tmovq %0, %%rsp\n\tcall *%1\n\tmovq %%rbx, %%rsp"
                     :
                     : "r"(stack + STACK), "r"(f)
                     : "rbx", "rax", "rcx", "rdx", "rsi", "rdi", "r8", "r9", "r10", "r11", "memory", "cc", "xmm0", "xmm1", "xmm2", "xmm3",
                       "xmm4", "xmm5", "xmm6", "xmm7", "xmm8", "xmm9", "xmm10", "xmm11", "xmm12", "xmm13", "xmm14", "xmm15");
}

static usize taken(void (*f)(void)) {
    usize at = 0;
    memset(stack, PAINT, STACK);
    on_stack(f);
    while (at < STACK && stack[at] == PAINT)
        at++;
    return STACK - at;
}

/* The answers are kept, so that no call is left out. */
static volatile u32 refusals;

static void version(void) { refusals += bolsterweft_version(); }
static void search(void) { refusals += bolsterweft_search(kind, bytes, length, 0).refusal; }
static void why(void) { refusals += bolsterweft_why(kind, bytes, length, 2).test; }
static void one_frame(void) { refusals += bolsterweft_one_frame(kind, piece.frame, piece.length).refusal; }
static void acknowledge(void) { refusals += bolsterweft_acknowledge(piece.frame, piece.length, room, room_length).refusal; }
static void encode(void) { refusals += bolsterweft_encode(asked, asked_length, room, room_length).refusal; }
static void line(void) { refusals += bolsterweft_line(kind, piece.frame, piece.length, ~(usize)0, room, room_length).refusal; }
static void line_with(void) { refusals += bolsterweft_line_with(kind, piece.frame, piece.length, ~(usize)0, map, sizeof map, room, room_length).refusal; }
static void line_next_with(void) { refusals += bolsterweft_line_next_with(kind, bytes, length, 0, map, sizeof map, room, room_length).refusal; }
static void list_with(void) { refusals += bolsterweft_list_with(bytes, length, map, sizeof map, room, room_length).refusal; }
static void line_next(void) { refusals += bolsterweft_line_next(kind, bytes, length, 0, room, room_length).refusal; }
static void list(void) { refusals += bolsterweft_list(bytes, length, room, room_length).refusal; }
static void sheet_map(void) { refusals += bolsterweft_sheet_map(sheet, sizeof sheet - 1, room, room_length).refusal; }
static void sheet_fault(void) { refusals += bolsterweft_sheet_fault(sheet, sizeof sheet - 1).test; }
static void text(void) { refusals += bolsterweft_text(raw, 3, room, 12).refusal; }
static void number(void) { refusals += bolsterweft_number((const u8 *)"-1234567.89", 11).refusal; }
static void value(void) { refusals += bolsterweft_value(raw, 4, 1, room, 4).refusal; }
static void value_read(void) { refusals += bolsterweft_value_read(bytes, 4, 4, 1).refusal; }
static void fits(void) { refusals += bolsterweft_fits(raw).refusal; }
static void panel(void) { refusals += bolsterweft_panel(raw).refusal; }
static void climate(void) { refusals += bolsterweft_climate((i32)raw, 3).refusal; }
static void book_open(void) { refusals += bolsterweft_book_open(book, size).refusal; }
static void book_entry(void) { refusals += bolsterweft_book_entry(book, size, 0).refusal; }
static void book_line(void) { refusals += bolsterweft_book_line(book, size, 0, room, room_length).refusal; }
static void book_list(void) { refusals += bolsterweft_book_list(book, size, room, room_length).refusal; }
static void book_line_with(void) { refusals += bolsterweft_book_line_with(book, size, 0, map, sizeof map, room, room_length).refusal; }
static void book_list_with(void) { refusals += bolsterweft_book_list_with(book, size, map, sizeof map, room, room_length).refusal; }
static void book_add(void) { refusals += bolsterweft_book_add(book, size, piece.kind, piece.frame, piece.length, room, room_length).refusal; }

static const struct {
    const char *name;
    void (*run)(void);
} calls[] = {
    {"version", version},     {"search", search},         {"why", why},             {"one_frame", one_frame}, {"acknowledge", acknowledge},
    {"line", line},           {"line_next", line_next},   {"list", list},           {"text", text},           {"number", number},
    {"value", value},         {"value_read", value_read}, {"fits", fits},           {"panel", panel},         {"climate", climate},
    {"book_open", book_open}, {"book_entry", book_entry}, {"book_line", book_line}, {"book_list", book_list}, {"book_add", book_add},
    {"sheet_map", sheet_map}, {"sheet_fault", sheet_fault}, {"encode", encode},
    {"line_with", line_with}, {"line_next_with", line_next_with}, {"list_with", list_with}, {"book_line_with", book_line_with}, {"book_list_with", book_list_with},
};

enum { CALLS = sizeof calls / sizeof *calls, TRIALS = 200 };

static usize most[CALLS];

/* A command: the frame's line with the kind in place of `at` and `len`, or objects and lists as deep in one another as they may be. */
static void make_command(int trial) {
    usize head = (usize)snprintf((char *)asked, 40, "{\"at\":0,\"len\":%zu", piece.length);
    usize line = bolsterweft_line(kind, piece.frame, piece.length, 0, room, sizeof room).length;
    asked_length = (usize)snprintf((char *)asked, 40, "{\"kind\":%u", (unsigned)kind);
    memcpy(asked + asked_length, room + head, line - head);
    asked_length += line - head;
    if (trial % 4)
        return;
    asked_length = 0;
    for (int i = 0; i < 16; i++)
        asked_length += (usize)snprintf((char *)asked + asked_length, 40, trial % 8 ? "{\"a\":1,\"\\u0062\":" : "[1,");
}

/* A frame of the kind, a capture and an input of such frames, a book of them, and a command. */
static void make(int trial) {
    static struct draft draft;
    make_message(&piece, (u8)kind);
    if (trial % 8 == 0)
        make_longest(&piece, (u8)kind);
    bytes[0] = (u8)('0' + kind);
    bytes[1] = '\n';
    for (length = 2; length + piece.length < 3000; length += piece.length)
        memcpy(bytes + length, piece.frame, piece.length);
    begin_draft(&draft);
    put_piece(&draft, &piece);
    put_piece(&draft, &piece);
    size = bind_draft(&draft, book);
    raw = -(i64)(any() >> 33);
    room_length = trial % 3 ? sizeof room : any() % 200;
    make_command(trial);
}

int main(void) {
    state = 1;
    memset(map, 2 + 4 * 3, sizeof map); /* every register is an s16 with a decimal */
    for (int trial = 0; trial < TRIALS; trial++)
        for (kind = 1; kind <= 5; kind++) {
            make(trial);
            for (int i = 0; i < CALLS; i++) {
                usize n = taken(calls[i].run);
                most[i] = n > most[i] ? n : most[i];
            }
        }
    for (int i = 0; i < CALLS; i++)
        printf("%s %zu\n", calls[i].name, most[i]);
    return 0;
}
