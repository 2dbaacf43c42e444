/* The book: adding the entry that makes a book full, and listing the full book, against a book in C by the same rules. Both open it first,
   and C tests no frame a second time. What they write is compared byte for byte. */
#include "../tests/books_made.h"
#include "table.h"

static u8 proved[LINES_ROOM], in_c[LINES_ROOM];

/* A book, the entry that is added to it, and the book that is then full. */
static u8 book[MOST_BYTES], full[MOST_BYTES];
static usize size, full_size;
static struct piece last;

static u8 kind;
static void (*make_piece)(struct piece *e, u8 kind);

static usize make(usize bytes) {
    static struct draft draft;
    make_piece(&last, kind);
    if (bytes < last.length + 100)
        return 0;
    begin_draft(&draft);
    nearly_fill(&draft, bytes, make_piece, kind, &last);
    size = bind_draft(&draft, book);
    put_piece(&draft, &last);
    return full_size = bind_draft(&draft, full);
}

static struct bolsterweft_count by_proof, by_c;

static void add_ours(void) { by_proof = bolsterweft_book_add(book, size, last.kind, last.frame, last.length, proved, sizeof proved); }
static void add_theirs(void) { by_c = book_add_in_c(book, size, last.kind, last.frame, last.length, in_c, sizeof in_c); }
static void list_ours(void) { by_proof = bolsterweft_book_list(full, full_size, proved, sizeof proved); }

static void list_theirs(void) {
    struct bolsterweft_entries o = book_open_in_c(full, full_size);
    by_c = (struct bolsterweft_count){o.refusal, o.refusal ? 0 : (usize)(put_book_lines(in_c, full, o.count, no_map) - in_c)};
}

static int same(void) {
    return !by_proof.refusal && !by_c.refusal && by_proof.length == by_c.length && memcmp(proved, in_c, by_c.length) == 0;
}

/* Two rows: a book that is filled with such frames. */
static int compare(const char *what, void of(struct piece *e, u8 kind), double most_adding, double most_listing) {
    static const struct job adding = {make, add_ours, add_theirs, same, 1.5}, listing = {make, list_ours, list_theirs, same, 0};
    char input[80];
    make_piece = of;
    snprintf(input, sizeof input, "%s: %s", kind_names[kind], what);
    return row("book, add", input, most_adding, &adding) + row("book, list", input, most_listing, &listing);
}

/* Short frames. Above 1.25 are Nibe's and Homiq's, alone and among the others. Homiq's: our test of its fields takes longer than C's, and what an
   entry says is tested again for its line. What keeps Nibe's above has not been found. */
static int compare_short(void) {
    static const double adding[] = {1.25, 1.25, 1.25, 1.25, 1.35, 1.35}, listing[] = {1.5, 1.3, 1.25, 1.3, 1.5, 1.5};
    return compare("short frames, all messages", make_message, adding[kind], listing[kind]);
}

/* The kinds in turn, with frames of middle length: books of every size have them in the same parts. */
static void make_in_turn(struct piece *e, u8 any_kind) {
    static u8 turn;
    (void)any_kind;
    e->kind = turn % 5 + 1;
    turn++;
    switch (e->kind) {
    case 1:
        e->length = made_link(e->frame, 30, turn, 0);
        break;
    case 2:
    case 3:
        e->length = made_nest(e->frame, e->kind, 60, turn, 0);
        break;
    case 4:
        e->length = made_nibe(e->frame, 0x68, 60, turn, 0);
        break;
    default:
        e->length = longest(e->frame, 5, 0);
    }
}

int main(void) {
    int bad = 0;
    state = 1; /* the same messages in each run */
    for (kind = 0; kind <= 5; kind++) {
        bad += compare_short();
        bad += compare("the longest frames", make_longest, 1.25, 1.25);
    }
    kind = 0;
    bad += compare("middle frames, in turn", make_in_turn, 1.25, 1.25);
    return bad ? 1 : 0;
}
