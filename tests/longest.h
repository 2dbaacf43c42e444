/* The longest frame of a kind, for the tests and the benchmarks; answers its length. */
#ifndef LONGEST_H
#define LONGEST_H

#include "frames_made.h"

static usize longest(u8 *f, u8 kind, int spoilt) {
    switch (kind) {
    case 1:
        return made_link(f, 122, 11, spoilt);
    case 2:
    case 3:
        return made_nest(f, kind, 1024, 11, spoilt);
    case 4:
        return made_nibe(f, 0x68, 255, 11, spoilt);
    default:
        return made_homiq(f, "ABCDEFGH;0123456789ABCDEF;WXYZ;wxyz;511;s", spoilt);
    }
}

/* The same, but of Homiq one of those whose fields are the longest: their CRC, and so the frame, has more or fewer digits. */
static inline usize one_of_the_longest(u8 *f, u8 kind, u8 which) {
    char fields[] = "ABCDEFGH;0123456789ABCDEF;WXYZ;wxyz;511;s";
    fields[0] = (char)('A' + which % 26);
    return kind == 5 ? made_homiq(f, fields, 0) : longest(f, kind, 0);
}

#endif
