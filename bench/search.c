/* The search for all frames of a buffer, one after the other, against two searches in C by the same rules: a straightforward one, which tests
   each place, and an expert's. Rows of the job `expert` are against the expert's, all others against the straightforward one. */
#include "../tests/longest.h"
#include "../tests/trials.h"
#include "expert.h"
#include "table.h"

static u8 b[FULL];
static usize size;
static u8 kind;

/* All frames of the buffer, one search after the other: how many, and where the last one ends. */
struct all {
    usize frames;
    usize end;
};

#define IN_C(name, length)                                                                                                 \
    static __attribute__((noinline)) struct bolsterweft_found name(const u8 *s, usize n, usize place) {                    \
        for (usize i = place; i < n; i++) {                                                                                \
            usize k = length(s + i, n - i);                                                                                \
            if (k)                                                                                                         \
                return (struct bolsterweft_found){0, i, k, 0, 0};                                                                \
        }                                                                                                                  \
        return (struct bolsterweft_found){1, 0, 0, 0, 0};                                                                        \
    }
IN_C(c_nikobus, nikobus_length)
IN_C(c_command, command_length)
IN_C(c_response, response_length)
IN_C(c_nibe, nibe_length)
IN_C(c_homiq, homiq_length)

static struct bolsterweft_found in_c(u32 which, const u8 *s, usize n, usize place) {
    switch (which) {
    case 1:
        return c_nikobus(s, n, place);
    case 2:
        return c_command(s, n, place);
    case 3:
        return c_response(s, n, place);
    case 4:
        return c_nibe(s, n, place);
    default:
        return c_homiq(s, n, place);
    }
}

typedef struct bolsterweft_found search(u32 which, const u8 *s, usize n, usize place);

static struct all all_frames(search *find, const u8 *s) {
    struct all a = {0, 0};
    for (;;) {
        struct bolsterweft_found f = find(kind, s, size, a.end);
        if (f.refusal)
            return a;
        a.frames++;
        a.end = f.start + f.length;
    }
}

static struct all by_proof, by_c;

static void ours(void) { by_proof = all_frames(bolsterweft_search, b); }
static void theirs(void) { by_c = all_frames(in_c, b); }
static void experts(void) { by_c = all_frames(by_expert, b); }
static int same(void) { return by_proof.frames == by_c.frames && by_proof.end == by_c.end; }

/* The buffer is filled with copies of a few bytes, and `noisy` bytes of noise before each. A shorter one than `least` would not hold what they
   claim. */
static u8 copied[2048];
static usize copied_length, noisy, least;

static usize make(usize n) {
    usize every = noisy + copied_length;
    if (n < copied_length || n < least)
        return 0;
    state = 1; /* the same noise in each run */
    for (usize i = 0; i < n; i++)
        b[i] = i % every < noisy ? (u8)any() : copied[i % every - noisy];
    return size = n;
}

static int compare_with(const char *name, const struct job *job, const char *what, double most) {
    char input[80];
    snprintf(input, sizeof input, "%s: %s", kind_names[kind], what);
    return row(name, input, most, job);
}

static int compare(const char *what, double most) {
    static const struct job job = {make, ours, theirs, same, 0};
    return compare_with("search", &job, what, most);
}

static int compare_expert(const char *what, double most) {
    static const struct job job = {make, ours, experts, same, 0};
    return compare_with("expert", &job, what, most);
}

static void copy(const u8 *s, usize n) {
    memcpy(copied, s, n);
    copied_length = n;
}

/* Nest's longest claim is 1,024 bytes: 00 04. */
static const u8 heads[][8] = {{0}, "$FE", {0xD5, 0xAA, 0x96, 0, 0, 0, 4}, {0xD5, 0xD5, 0xAA, 0x96, 0, 0, 0, 4}, {0xC0, 0x6C, 0xFF}, "<;A;1;"};
static const usize sizes[] = {0, 3, 7, 8, 3, 6};

static usize shortest(u8 *f, u8 which) {
    switch (which) {
    case 1:
        return made_link(f, 3, 11, 0);
    case 2:
    case 3:
        return made_nest(f, which, 4, 11, 0);
    case 4:
        return made_nibe(f, 0x69, 2, 11, 0);
    default:
        return made_homiq(f, "I.3;1;0H;0;42;s", 0);
    }
}

/* The worst capture: two Nest heads in every ten bytes, which claim 918 and 1,024 bytes. Each claim costs a CRC over its bytes, so that the
   search costs 195 times as many bytes of CRC as over good frames, and no capture more (docs/API.md, Worst cases). */
static const u8 overlapping[] = {0xD5, 0xAA, 0x96, 0xD5, 0xAA, 0x96, 3, 0, 0, 4};

/* Good frames of the longest size, over as many bytes. */
static u8 good[FULL];
static usize good_length;

static void ours_of_good(void) { by_c = all_frames(bolsterweft_search, good); }
static int found_them(void) { return by_proof.frames == 0 && by_c.frames == size / good_length; }

static int rows_worst(void) {
    static const struct job job = {make, ours, ours_of_good, found_them, 0};
    int bad = 0;
    kind = BOLSTERWEFT_NEST_COMMAND;
    copied_length = longest(copied, kind, 0);
    least = FULL;
    make(FULL);
    memcpy(good, b, FULL);
    good_length = copied_length;
    copy(overlapping, sizeof overlapping);
    bad += compare("overlapping heads, the worst", 1.25);
    bad += compare_expert("overlapping heads, the worst", 1.25);
    bad += compare_with("worst", &job, "overlapping heads, to good frames", 220);
    least = 0;
    return bad;
}

/* One of some 25 bytes. */
static usize middle(u8 *f, u8 which) {
    switch (which) {
    case 1:
        return made_link(f, 8, 11, 0);
    case 2:
    case 3:
        return made_nest(f, which, which == 2 ? 16 : 15, 11, 0);
    case 4:
        return made_nibe(f, 0x68, 21, 11, 0);
    default:
        return made_homiq(f, "I.3;1;0H;0;42;s", 0);
    }
}

/* Frames with noise before each of them. Above 1.5 are Nest and Homiq. (A guess: with so much noise between two frames, the processor no longer
   begins the second one's check while it works out the first one's.) */
static int in_noise(usize noise) {
    noisy = noise;
    copied_length = middle(copied, kind);
    int bad = compare_expert("frames in noise", 1.5);
    noisy = 0;
    return bad;
}

/* Noise, and nothing else. */
static int noise_alone(int compare_rival(const char *what, double most), double most) {
    copied_length = 0;
    noisy = FULL;
    int bad = compare_rival("noise", most);
    noisy = 0;
    return bad;
}

static int rows_straightforward(void) {
    static const u8 marks[] = {0, '$', 0xD5, 0xD5, 0xC0, '<'}, zero = 0;
    int bad = 0;
    copy(&zero, 1);
    bad += compare("zeros", 1.0);
    bad += noise_alone(compare, 1.0);
    copy(&marks[kind], 1);
    bad += compare("start bytes only", 1.25);
    /* Homiq claims no length: its heads are cut off in the third field */
    copy(heads[kind], sizes[kind]);
    least = longest(b, kind, 0);
    bad += compare(kind == 5 ? "heads" : "heads that claim the most", kind == 5 ? 0 : 1.25);
    least = 0;
    copied_length = longest(copied, kind, 1);
    bad += compare("the longest, its check wrong", 1.25);
    copied_length = longest(copied, kind, 0);
    bad += compare("the longest good frames", 1.25);
    copied_length = shortest(copied, kind);
    bad += compare("short good frames", 0);
    return bad;
}

/* Zeros have no bound: `memchr` of the C library chooses the widest vectors that the processor has, and the kit compiles for every x86-64. */
static int rows_expert(void) {
    static const u8 zero = 0;
    int bad = 0;
    copy(&zero, 1);
    bad += compare_expert("zeros", 0);
    bad += noise_alone(compare_expert, 2.0);
    bad += in_noise(400);
    copied_length = shortest(copied, kind);
    bad += compare_expert("short frames, back to back", 1.25);
    if (kind != BOLSTERWEFT_HOMIQ) { /* its short ones have 24 bytes */
        copied_length = middle(copied, kind);
        bad += compare_expert("middle frames, back to back", 1.25);
    }
    copied_length = longest(copied, kind, 0);
    bad += compare_expert("the longest frames, back to back", 1.25);
    copy(heads[kind], sizes[kind]);
    least = longest(b, kind, 0);
    bad += compare_expert(kind == 5 ? "heads" : "heads that claim the most", kind == 5 ? 0 : 1.25);
    least = 0;
    return bad;
}

int main(void) {
    int bad = 0;
    make_tables();
    for (kind = 1; kind <= 5; kind++) {
        bad += rows_straightforward();
        bad += rows_expert();
    }
    bad += rows_worst();
    return bad ? 1 : 0;
}
