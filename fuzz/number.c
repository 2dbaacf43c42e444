/* Numbers against those in plain C. The input is a raw number in eight bytes, the decimals or the width and the sign in eight, and then a
   text, which is also the bytes that are read. */
#include "../tests/numbers_in_c.h"
#include "fenced.h"

static void try_text(i64 raw, u32 decimals, usize m) {
    u8 in_c[16], *room = fenced(0, m, SOME);
    struct bolsterweft_count c = text_in_c(raw, decimals, in_c, m);
    agree_written(bolsterweft_text(raw, decimals, room, m), room, c, in_c, m, "the text");
}

static void try_value(i64 raw, u32 width, u32 is_signed, usize m) {
    u8 in_c[16], *room = fenced(0, m, SOME);
    struct bolsterweft_count c = value_in_c(raw, width, is_signed, in_c, m);
    agree_written(bolsterweft_value(raw, width, is_signed, room, m), room, c, in_c, m, "the bytes");
}

static void try_floats(i64 raw, i32 temperature, u32 humidity) {
    struct bolsterweft_fit f = bolsterweft_fits(raw), cf = fits_in_c(raw);
    struct bolsterweft_panel_value v = bolsterweft_panel(raw), cv = panel_in_c(raw);
    struct bolsterweft_climate p = bolsterweft_climate(temperature, humidity), cp = climate_in_c(temperature, humidity);
    agree(f.refusal == cf.refusal && f.fits == cf.fits, "fits");
    agree(v.refusal == cv.refusal && v.size == cv.size && v.single == cv.single && v.wide == cv.wide, "the panel's float");
    agree(p.refusal == cp.refusal && p.temperature == cp.temperature && p.humidity == cp.humidity, "the climate's floats");
}

static void try_number(i64 raw, u32 first, u32 second) {
    for (usize m = 0; m < 16; m++) {
        try_text(raw, first, m);
        try_text(raw, first % 4, m);
        try_value(raw, first, second, m);
        try_value(raw, 1u << first % 3, second % 2, m);
    }
    try_floats(raw, (i32)first, second);
    try_floats(raw, (i32)first >> 15, second >> 15);
}

static void try_read(const u8 *text, usize n, u32 first, u32 second) {
    struct bolsterweft_reading r = bolsterweft_number(text, n), c = number_in_c(text, n);
    agree(r.refusal == c.refusal && r.raw == c.raw && r.decimals == c.decimals, "a text read");
    struct bolsterweft_raw v = bolsterweft_value_read(text, n, first, second), cv = value_read_in_c(text, n, first, second);
    agree(v.refusal == cv.refusal && v.raw == cv.raw, "bytes read");
    v = bolsterweft_value_read(text, n, (u32)n, second);
    cv = value_read_in_c(text, n, (u32)n, second);
    agree(v.refusal == cv.refusal && v.raw == cv.raw, "as many bytes read");
}

int LLVMFuzzerTestOneInput(const u8 *data, usize size) {
    i64 raw;
    u32 first, second;
    if (size < 16)
        return 0;
    memcpy(&raw, data, 8);
    memcpy(&first, data + 8, 4);
    memcpy(&second, data + 12, 4);
    for (fence = 0; fence < SIDES; fence++) {
        try_number(raw, first, second);
        try_number((i32)raw, first, second);
        try_number((u32)raw, first, second);
        try_read(fenced_copy(1, data + 16, size - 16), size - 16, first, second);
    }
    return 0;
}
