/* The proved search against a second one in plain C, on captures of good frames, spoilt frames, bit flips, cut frames, false starts
   and noise: every frame from every place asked, the parts, and whether bytes are one frame. And the verdict on every place, up to the
   capture's end and behind it; every verdict that a kind can have must come.

   frames SEED: prints the seed, each difference, and `N passed, M failed`: a test is a property of a kind, over all captures. */
#include "captures_made.h"

enum { CAPTURES = 3000, SHOWN = 96 };

enum property { ALL, ANYWHERE, REFUSED, WIDE, ONE, PAYLOAD, WHY, BEHIND_THE_END, FRAMES_ALONE, PROPERTIES };

static const char *const properties[PROPERTIES] = {
    "all frames of a capture, one search after the other", "the first frame from any place", "refusals", "kinds and places that are too large",
    "one frame and no byte more", "the payload's place and length", "the first test that fails, at every place", "the verdict behind the end",
    "no test fails at frames, and at them alone",
};
static const char *const tests[TESTS_IN_C] = {"none", "start", "length", "fields", "first check", "second check"};
static const char *const kinds[] = {"", "Nikobus", "Nest command", "Nest response", "Nibe", "Homiq"};

static unsigned tried[6][PROPERTIES], wrong[6][PROPERTIES];
static unsigned long frames_found, verdicts[6][TESTS_IN_C];
static u8 capture[CAPTURE_ROOM];

static void expect(u8 kind, enum property p, int right, const u8 *s, usize n) {
    tried[kind][p]++;
    if (right || wrong[kind][p]++)
        return;
    printf("%s, %s: wrong, in %zu bytes:", kinds[kind], properties[p], n);
    for (usize i = 0; i < n && i < SHOWN; i++)
        printf(" %02X", s[i]);
    printf("\n");
}

static int same(struct bolsterweft_found a, struct bolsterweft_found b) {
    return a.refusal == b.refusal && a.start == b.start && a.length == b.length && a.payload_start == b.payload_start &&
           a.payload_length == b.payload_length;
}

static int same_payload(struct bolsterweft_payload a, struct bolsterweft_payload b) {
    return a.refusal == b.refusal && a.payload_start == b.payload_start && a.payload_length == b.payload_length;
}

static int refused(struct bolsterweft_found f, u32 refusal) {
    static const struct bolsterweft_found zeros;
    f.refusal -= refusal;
    return same(f, zeros);
}

static int same_verdict(struct bolsterweft_verdict a, struct bolsterweft_verdict b) {
    return a.refusal == b.refusal && a.test == b.test && a.found == b.found && a.expected == b.expected;
}

static int refused_verdict(struct bolsterweft_verdict v, u32 refusal) { return v.refusal == refusal && !v.test && !v.found && !v.expected; }

/* At every place, the end too. What is answered is counted, of the proved side. */
static void try_places(u8 kind, usize n) {
    for (usize place = 0; place <= n; place++) {
        const u8 *s = capture + place;
        usize m = n - place;
        struct bolsterweft_verdict v = bolsterweft_why(kind, capture, n, place);
        expect(kind, WHY, same_verdict(v, why_in_c(kind, capture, n, place)), s, m);
        expect(kind, FRAMES_ALONE, (v.test == NO_TEST) == (length_in_c(kind, s, m) > 0), s, m);
        if (v.test < TESTS_IN_C)
            verdicts[kind][v.test]++;
    }
    for (usize more = 1; more < 4; more++)
        expect(kind, BEHIND_THE_END, refused_verdict(bolsterweft_why(kind, capture, n, n + more), 3), capture, n);
}

static void try_one_frame(u8 kind, const u8 *f, usize n) {
    expect(kind, ONE, same_payload(bolsterweft_one_frame(kind, f, n), one_frame_in_c(kind, f, n)), f, n);
}

/* A kind that a byte, or 16 bits, would cut to this one; and places that 32 bits would cut. */
static void try_wide(u8 kind, usize n) {
    u32 too_large = wide(kind);
    struct bolsterweft_payload p = bolsterweft_one_frame(too_large, capture, n);
    expect(kind, WIDE, refused(bolsterweft_search(too_large, capture, n, 0), 2), capture, n);
    expect(kind, WIDE, p.refusal == 2 && !p.payload_start && !p.payload_length, capture, n);
    expect(kind, WIDE, refused(bolsterweft_search(260, capture, n, any() % 9), 2), capture, n);
    expect(kind, WIDE, refused(bolsterweft_search(65540, capture, n, any() % 9), 2), capture, n);
    expect(kind, WIDE, refused(bolsterweft_search(kind, capture, n, 0x100000001u), 3), capture, n);
    expect(kind, WIDE, refused(bolsterweft_search(kind, capture, n, ~(usize)0 - any() % 3), 3), capture, n);
    expect(kind, WIDE, refused_verdict(bolsterweft_why(too_large, capture, n, 0), 2), capture, n);
    expect(kind, WIDE, refused_verdict(bolsterweft_why(kind, capture, n, 0x100000000u), 3), capture, n);
    expect(kind, WIDE, refused_verdict(bolsterweft_why(kind, capture, n, ~(usize)0 - any() % 3), 3), capture, n);
}

static void try_capture(u8 kind) {
    usize n = fill_capture(capture, kind), place = 0;
    for (;;) {
        struct bolsterweft_found r = bolsterweft_search(kind, capture, n, place), c = search_in_c(kind, capture, n, place);
        expect(kind, ALL, same(r, c), capture, n);
        if (r.refusal || c.refusal)
            break;
        frames_found++;
        struct bolsterweft_payload whole = bolsterweft_one_frame(kind, capture + c.start, c.length);
        expect(kind, PAYLOAD, !whole.refusal && whole.payload_start + c.start == r.payload_start && whole.payload_length == r.payload_length, capture, n);
        try_one_frame(kind, capture + c.start, c.length);
        try_one_frame(kind, capture + c.start, c.start + c.length < n ? c.length + 1 : c.length - 1);
        place = c.start + c.length;
    }
    for (int k = 0; k < 4; k++) {
        place = any() % (n + 1);
        expect(kind, ANYWHERE, same(bolsterweft_search(kind, capture, n, place), search_in_c(kind, capture, n, place)), capture, n);
    }
    u32 any_kind = any() % 2 ? unknown_kind() : (u32)(any() % 8);
    place = n + any() % 3;
    expect(kind, REFUSED, same(bolsterweft_search(any_kind, capture, n, place), search_in_c(any_kind, capture, n, place)), capture, n);
    expect(kind, REFUSED, same_verdict(bolsterweft_why(any_kind, capture, n, place), why_in_c(any_kind, capture, n, place)), capture, n);
    try_wide(kind, n);
    try_places(kind, n);
}

/* Prints how often each verdict came. Whether each that the kind can have came, and no other. */
static int all_verdicts(u8 kind) {
    int right = 1;
    printf("%s:", kinds[kind]);
    for (u32 test = 0; test < TESTS_IN_C; test++) {
        int missing = can_fail(kind, test) != (verdicts[kind][test] > 0);
        printf("%s %s %lu%s", test ? "," : "", tests[test], verdicts[kind][test], missing ? " (WRONG)" : "");
        right &= !missing;
    }
    printf("\n");
    return right;
}

int main(int count, char **words) {
    unsigned passed = 0, failed = 0;
    begin(count, words);
    for (int k = 0; k < CAPTURES; k++)
        for (u8 kind = 1; kind <= 5; kind++)
            try_capture(kind);
    printf("%lu frames found\n", frames_found);
    for (u8 kind = 1; kind <= 5; kind++) {
        for (int p = 0; p < PROPERTIES; p++)
            *(tried[kind][p] && !wrong[kind][p] ? &passed : &failed) += 1;
        *(all_verdicts(kind) ? &passed : &failed) += 1;
    }
    printf("%u passed, %u failed\n", passed, failed);
    return failed ? 1 : 0;
}
