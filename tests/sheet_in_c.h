/* The register sheet of document 02, K2, in plain C, written from the document: its lines, read byte by byte; the first fault; the map. The
   calls are those of bolsterweft.h. */
#ifndef SHEET_IN_C_H
#define SHEET_IN_C_H

#include "../include/bolsterweft.h"
#include "prelude.h"

enum { SHEET_LINES = 500, SHEET_REGISTERS = 65536 };

/* A line: its register, and its type's byte in a map. */
struct sheet_line {
    u32 register_number;
    u8 byte;
};

/* The digits of a number below `most`, without leading zeros; -1 if they are not such digits. */
static inline i32 sheet_number(const u8 *s, usize n, i32 most) {
    i32 value = 0;
    if (n == 0 || (n > 1 && s[0] == '0'))
        return -1;
    for (usize i = 0; i < n; i++) {
        if (s[i] < '0' || '9' < s[i])
            return -1;
        value = value * 10 + (s[i] - '0');
        if (value >= most)
            return -1;
    }
    return value;
}

/* The number of the type: u8 s8 u16 s16 u32 s32 are 0 to 5; -1 if it is none of them. */
static inline i32 sheet_type(const u8 *s, usize n) {
    i32 sign;
    if (n < 2 || (s[0] != 'u' && s[0] != 's'))
        return -1;
    sign = s[0] == 's';
    if (n == 2 && s[1] == '8')
        return sign;
    if (n == 3 && s[1] == '1' && s[2] == '6')
        return 2 + sign;
    if (n == 3 && s[1] == '3' && s[2] == '2')
        return 4 + sign;
    return -1;
}

/* The test that the line of n bytes fails; 0 if it passes those of its form and its fields. */
static inline u32 sheet_fields(const u8 *s, usize n, struct sheet_line *line) {
    usize commas[2], count = 0;
    i32 number, type, decimals;
    for (usize i = 0; i < n; i++)
        if (s[i] == ',') {
            if (count < 2)
                commas[count] = i;
            count++;
        }
    if (count != 2)
        return 1;
    number = sheet_number(s, commas[0], SHEET_REGISTERS);
    if (number < 0)
        return 2;
    type = sheet_type(s + commas[0] + 1, commas[1] - commas[0] - 1);
    if (type < 0)
        return 3;
    decimals = sheet_number(s + commas[1] + 1, n - commas[1] - 1, 4);
    if (decimals < 0)
        return 4;
    line->register_number = (u32)number;
    line->byte = (u8)(1 + 4 * type + decimals);
    return 0;
}

/* The first line that is wrong, and the test that it fails; zeros if none is, and then the lines are there, `count` of them. */
static inline struct bolsterweft_fault sheet_read(const u8 *text, usize n, struct sheet_line *lines, usize *count) {
    usize at = 0, number = 0;
    while (at < n) {
        usize end = at;
        struct sheet_line line;
        u32 test;
        while (end < n && text[end] != '\n')
            end++;
        test = sheet_fields(text + at, end - at, &line);
        if (!test && number > 0 && line.register_number <= lines[number - 1].register_number)
            test = 5;
        if (!test && number == SHEET_LINES)
            test = 6;
        if (!test && end == n)
            test = 7;
        if (test)
            return (struct bolsterweft_fault){0, test, number + 1};
        lines[number++] = line;
        at = end + 1;
    }
    *count = number;
    return (struct bolsterweft_fault){0, 0, 0};
}

static inline struct bolsterweft_fault sheet_fault_in_c(const u8 *text, usize n) {
    struct sheet_line lines[SHEET_LINES];
    usize count;
    return sheet_read(text, n, lines, &count);
}

static inline struct bolsterweft_count sheet_map_in_c(const u8 *text, usize n, u8 *map, usize m) {
    struct sheet_line lines[SHEET_LINES];
    usize count;
    if (sheet_read(text, n, lines, &count).test)
        return (struct bolsterweft_count){10, 0};
    if (m < SHEET_REGISTERS)
        return (struct bolsterweft_count){4, 0};
    memset(map, 0, SHEET_REGISTERS);
    for (usize i = 0; i < count; i++)
        map[lines[i].register_number] = lines[i].byte;
    return (struct bolsterweft_count){0, SHEET_REGISTERS};
}

#endif
