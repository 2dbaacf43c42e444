/* The listing of a capture, against a listing in C by the same rules. What they write is compared byte for byte. */
#include "../tests/lines_in_c.h"
#include "../tests/longest.h"
#include "../tests/messages_made.h"
#include "table.h"

enum { ROOM = BOLSTERWEFT_LIST_ROOM };

static u8 input[FULL], proved[ROOM], in_c[ROOM];
static usize size;
static struct bolsterweft_count by_proof;
static usize by_c;

static void ours(void) { by_proof = bolsterweft_list(input, size, proved, ROOM); }
static void theirs(void) { by_c = list_in_c(input, size, in_c); }
static int same(void) { return by_proof.refusal == 0 && by_proof.length == by_c && memcmp(proved, in_c, by_c) == 0; }

static usize text(u8 *f, u8 kind) {
    (void)kind;
    return nest_of(f, 3, 0x18, seeded(1024, 11), 1024, 0);
}

static usize good_longest(u8 *f, u8 kind) { return longest(f, kind, 0); }

static u8 kind;
static usize (*frame)(u8 *f, u8 kind);

/* An input full of such frames; what no frame fills any more is zeros. */
static usize make(usize n) {
    static u8 f[2048];
    usize at = 2, k;
    memset(input, 0, n);
    input[0] = '0' + kind;
    input[1] = '\n';
    while (at + (k = frame(f, kind)) <= n) {
        memcpy(input + at, f, k);
        at += k;
    }
    return at == 2 ? 0 : (size = n);
}

static usize noise(u8 *f, u8 kind) {
    (void)kind;
    *f = (u8)any();
    return 1;
}

static usize zero(u8 *f, u8 kind) {
    (void)kind;
    *f = 0;
    return 1;
}

static int compare(const char *what, usize (*of)(u8 *f, u8 kind), double most) {
    static const struct job job = {make, ours, theirs, same, 0};
    char name[80];
    frame = of;
    snprintf(name, sizeof name, "%s: %s", kind_names[kind], what);
    return row("listing", name, most, &job);
}

int main(void) {
    int bad = 0;
    state = 1; /* the same messages in each run */
    for (kind = 1; kind <= 5; kind++) {
        /* short lines are at 1.20 to 1.25, and so are texts (a guess: we test the room's end at each label and value, and C never) */
        bad += compare("short frames, all messages", message, 1.3);
        bad += compare("the longest frames", good_longest, 1.25);
        if (kind == 3)
            bad += compare("the longest texts", text, 1.3);
        bad += compare("noise", noise, 1.0);
        bad += compare("zeros", zero, 1.0);
    }
    return bad ? 1 : 0;
}
