/* The calls of bolsterweft.h in plain C, in place of the archive, but for `bolsterweft_encode`: for tests/host_wrong, which puts mistakes
   into them. */
#include "book_in_c.h"
#include "numbers_in_c.h"
#include "sheet_in_c.h"

u32 bolsterweft_version(void) { return BOLSTERWEFT_VERSION; }

struct bolsterweft_found bolsterweft_search(u32 kind, const u8 *s, usize n, usize place) { return search_in_c(kind, s, n, place); }

struct bolsterweft_verdict bolsterweft_why(u32 kind, const u8 *s, usize n, usize place) {
    struct bolsterweft_verdict w = why_in_c(kind, s, n, place);
    return w;
}

struct bolsterweft_payload bolsterweft_one_frame(u32 kind, const u8 *f, usize n) {
    struct bolsterweft_payload p = one_frame_in_c(kind, f, n);
    return p;
}

struct bolsterweft_count bolsterweft_acknowledge(const u8 *f, usize n, u8 *room, usize m) {
    struct bolsterweft_count c = acknowledge_in_c(f, n, room, m);
    return c;
}

struct bolsterweft_count bolsterweft_line(u32 kind, const u8 *f, usize n, usize at, u8 *room, usize m) {
    struct bolsterweft_count c = line_in_c(kind, f, n, at, room, m);
    return c;
}

struct bolsterweft_listed bolsterweft_line_next(u32 kind, const u8 *s, usize n, usize place, u8 *room, usize m) {
    struct bolsterweft_listed l = line_next_in_c(kind, s, n, place, room, m);
    return l;
}

struct bolsterweft_count bolsterweft_list(const u8 *input, usize n, u8 *room, usize m) {
    struct bolsterweft_count c = list_call_in_c(input, n, room, m);
    return c;
}

struct bolsterweft_count bolsterweft_line_with(u32 kind, const u8 *f, usize n, usize at, const u8 *map, usize k, u8 *room, usize m) {
    return line_by_map_in_c(kind, f, n, at, (struct map){map, k}, room, m);
}

struct bolsterweft_listed bolsterweft_line_next_with(u32 kind, const u8 *s, usize n, usize place, const u8 *map, usize k, u8 *room, usize m) {
    return next_by_map_in_c(kind, s, n, place, (struct map){map, k}, room, m);
}

struct bolsterweft_count bolsterweft_list_with(const u8 *input, usize n, const u8 *map, usize k, u8 *room, usize m) {
    return list_call_by_map_in_c(input, n, (struct map){map, k}, room, m);
}

struct bolsterweft_count bolsterweft_sheet_map(const u8 *text, usize n, u8 *map, usize m) {
    struct bolsterweft_count c = sheet_map_in_c(text, n, map, m);
    return c;
}

struct bolsterweft_fault bolsterweft_sheet_fault(const u8 *text, usize n) { return sheet_fault_in_c(text, n); }

struct bolsterweft_count bolsterweft_text(i64 raw, u32 decimals, u8 *room, usize m) { return text_in_c(raw, decimals, room, m); }

struct bolsterweft_reading bolsterweft_number(const u8 *text, usize n) { return number_in_c(text, n); }

struct bolsterweft_count bolsterweft_value(i64 raw, u32 width, u32 is_signed, u8 *room, usize m) {
    return value_in_c(raw, width, is_signed, room, m);
}

struct bolsterweft_raw bolsterweft_value_read(const u8 *s, usize n, u32 width, u32 is_signed) { return value_read_in_c(s, n, width, is_signed); }

struct bolsterweft_fit bolsterweft_fits(i64 raw) { return fits_in_c(raw); }

struct bolsterweft_panel_value bolsterweft_panel(i64 raw) {
    struct bolsterweft_panel_value v = panel_in_c(raw);
    return v;
}

struct bolsterweft_climate bolsterweft_climate(i32 temperature, u32 humidity) { return climate_in_c(temperature, humidity); }

struct bolsterweft_entries bolsterweft_book_open(const u8 *s, usize n) { return book_open_in_c(s, n); }

struct bolsterweft_entry bolsterweft_book_entry(const u8 *s, usize n, u32 number) { return book_entry_in_c(s, n, number); }

struct bolsterweft_count bolsterweft_book_line(const u8 *s, usize n, u32 number, u8 *room, usize m) {
    return book_line_in_c(s, n, number, room, m);
}

struct bolsterweft_count bolsterweft_book_line_with(const u8 *s, usize n, u32 number, const u8 *map, usize k, u8 *room, usize m) {
    return book_line_by_map_in_c(s, n, number, (struct map){map, k}, room, m);
}

struct bolsterweft_count bolsterweft_book_list(const u8 *s, usize n, u8 *room, usize m) { return book_list_in_c(s, n, room, m); }

struct bolsterweft_count bolsterweft_book_list_with(const u8 *s, usize n, const u8 *map, usize k, u8 *room, usize m) {
    return book_list_by_map_in_c(s, n, (struct map){map, k}, room, m);
}

struct bolsterweft_count bolsterweft_book_add(const u8 *s, usize n, u32 kind, const u8 *f, usize k, u8 *room, usize m) {
    struct bolsterweft_count c = book_add_in_c(s, n, kind, f, k, room, m);
    return c;
}
