/* One table for all benchmarks. A row is a job on one sort of input: the time of the proved code at 64 KiB as a ratio to straightforward C
   by the same rules, compiled by the same compiler, in the same run; and how the cost grows, the proved code's time for a byte at 64 KiB
   to that at 1 KiB. The two take turns, so that what else the machine does falls on both; the least time of each counts. */
#ifndef TABLE_H
#define TABLE_H

#include "../tests/prelude.h"

enum { SMALL = 1024, FULL = 65536 };

struct timespec {
    long seconds;
    long nanoseconds;
};
int clock_gettime(int clock, struct timespec *now);

/* microseconds */
static double now(void) {
    struct timespec t;
    clock_gettime(1, &t); /* CLOCK_MONOTONIC */
    return (double)t.seconds * 1e6 + (double)t.nanoseconds / 1e3;
}

/* What is timed: `make` makes an input of at most `size` bytes and answers how many it has, 0 if it can make none so short; `ours` and
   `theirs` do the job on it; `same` says whether they came to the same. */
struct job {
    usize (*make)(usize size);
    void (*ours)(void);
    void (*theirs)(void);
    int (*same)(void);
    double growth; /* the most that the cost may grow; 0: no bound */
};

/* The time of one call, out of enough calls that the clock is not too coarse for them. */
static double timed(void call(void), int calls) {
    double from = now();
    for (int i = 0; i < calls; i++)
        call();
    return (now() - from) / calls;
}

static int calls_for(void call(void)) {
    double one = timed(call, 1);
    return one < 20 ? (int)(20 / (one + 0.1)) + 1 : 1;
}

struct times {
    usize bytes;
    double ours, theirs;
    int same;
};

static struct times measured(const struct job *j, usize size) {
    struct times t = {j->make(size), 1e12, 1e12, 1};
    if (!t.bytes)
        return t;
    int a = calls_for(j->ours), b = calls_for(j->theirs);
    double until = now() + 2e5;
    for (int turn = 0; turn < 7 || now() < until; turn++) {
        double x = timed(j->ours, a), y = timed(j->theirs, b);
        t.ours = x < t.ours ? x : t.ours;
        t.theirs = y < t.theirs ? y : t.theirs;
    }
    t.same = j->same();
    return t;
}

/* How the cost of a byte grows; 0 if no input is so short. */
static double growth(const struct times *small, const struct times *full) {
    return small->bytes ? full->ours / (double)full->bytes / (small->ours / (double)small->bytes) : 0;
}

/* Prints a row and answers whether it is bad: the two differ, or the ratio is above `most` (0: no bound), or the cost grows too much. */
static int row(const char *what, const char *input, double most, const struct job *j) {
    struct times small = measured(j, SMALL), full = measured(j, FULL);
    double ratio = full.ours / full.theirs, grows = growth(&small, &full);
    int same = small.same && full.same, over = (most > 0 && ratio > most) || (j->growth > 0 && grows > j->growth);
    printf("%-10s %-44s %6zu %10.1f %10.1f %6.2f ", what, input, full.bytes, full.ours, full.theirs, ratio);
    most > 0 ? printf("%8.2f ", most) : printf("%8s ", "-");
    small.bytes ? printf("%7.2f", grows) : printf("%7s", "-");
    printf("%s%s\n", same ? "" : "  THE TWO DIFFER", over ? "  ABOVE" : "");
    return !same || over;
}

static const char *const kind_names[] = {"All kinds", "Nikobus", "Nest command", "Nest response", "Nibe", "Homiq"};

#endif
