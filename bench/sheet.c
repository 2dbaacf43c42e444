/* Opening a register sheet: it is read into a map, against a sheet in C by the same rules. The maps are compared byte for byte. */
#include "../tests/sheet_in_c.h"
#include "table.h"

static u8 sheet[BOLSTERWEFT_SHEET_MOST], proved[BOLSTERWEFT_MAP_ROOM], in_c[BOLSTERWEFT_MAP_ROOM];
static usize size;
static struct bolsterweft_count by_proof, by_c;

static void ours(void) { by_proof = bolsterweft_sheet_map(sheet, size, proved, sizeof proved); }
static void theirs(void) { by_c = sheet_map_in_c(sheet, size, in_c, sizeof in_c); }
static int same(void) { return !by_proof.refusal && !by_c.refusal && memcmp(proved, in_c, sizeof in_c) == 0; }

/* Which registers the lines have: the first, and how far each is from the one before. */
static u32 first, apart;

/* Lines of all types and decimals in turn: 500, or as many as the bytes hold. */
static usize make(usize n) {
    static const char *const types[] = {"u8", "s8", "u16", "s16", "u32", "s32"};
    char line[16];
    size = 0;
    for (u32 i = 0; i < BOLSTERWEFT_SHEET_LINES_MOST; i++) {
        usize k = (usize)snprintf(line, sizeof line, "%u,%s,%u\n", (unsigned)(first + apart * i), types[i % 6], (unsigned)(i / 6 % 4));
        if (n < size + k)
            break;
        memcpy(sheet + size, line, k);
        size += k;
    }
    return size;
}

static int compare(const char *what, u32 from, u32 by) {
    static const struct job job = {make, ours, theirs, same, 0};
    first = from;
    apart = by;
    return row("sheet", what, 2, &job);
}

int main(void) {
    int bad = compare("opening a sheet of 500 lines", 40004, 51);
    return bad + compare("the same, registers 0 to 499", 0, 1) ? 1 : 0;
}
