/* Refused calls from C: every number that a function of best_quote_book.h can give is reached, in the
   order of its refusals, and what was lent is compared byte for byte with a copy. It exits with 1 if a
   number is not the one that the manual gives, or a byte has changed. */
#include <inttypes.h>
#include <stdio.h>
#include <string.h>

#include "best_quote_book.h"

/* All that a test lends, and how much of it. */
struct lent {
    bqb_head head;
    uint32_t columns[BQB_COLUMN_CELLS], positions[BQB_PLACES], lower_ends[BQB_PLACES], upper_ends[BQB_PLACES];
    bqb_watch watches[BQB_WATCHES + 1];
    uint8_t out[BQB_CHANGE_BYTES];
    uint8_t text[BQB_TEXT_BYTES];
    uint32_t cells[BQB_DUE_CELLS];
    bqb_frame frame;
    uint32_t passes, live, held;
};
struct lengths {
    size_t columns, positions, lower_ends, upper_ends, watches, out, cells;
};

static struct lent now, before;
static const struct lengths whole = {10, 5, 5, 5, BQB_WATCH_CELLS, BQB_CHANGE_BYTES, BQB_DUE_CELLS};
static struct lengths lent;
static size_t count, listed;
static unsigned calls, wrong;
static const uint32_t quote[3] = {4, 4, 4};

#define TABLES                                                                                     \
    now.columns, lent.columns, now.positions, lent.positions, now.lower_ends, lent.lower_ends,     \
        now.upper_ends, lent.upper_ends
#define WATCHES now.watches, lent.watches
#define OUT now.out, lent.out, &count
#define CELLS now.cells, lent.cells, &count
#define LIST now.cells, lent.cells, &listed

/* The calls on a book that stands, each with arguments that can be refused. */
enum function { OPEN, QUOTE, BOTH, PREVIEW, LOOK, PAST, WATCH, END, PAIR, UNPAIR, DUE, AUDIT, FUNCTIONS };
static const char *const names[FUNCTIONS] = {"open", "quote", "quote_look", "preview", "look", "past", "set_watch", "end_watch", "set_pair", "end_pair", "due", "audit"};

static uint32_t call(enum function f, uint32_t a, uint32_t b, uint32_t c) {
    switch (f) {
    case OPEN: return bqb_open(a, b, c, &now.head, TABLES, WATCHES);
    case QUOTE: return bqb_quote(&now.head, quote, a, TABLES, WATCHES, OUT);
    case BOTH: return bqb_quote_look(&now.head, quote, a, b, TABLES, WATCHES, OUT, LIST);
    case PREVIEW: return bqb_preview(&now.head, quote, a, TABLES, WATCHES, OUT, &now.live, &now.held);
    case LOOK: return bqb_look(&now.head, a, TABLES, CELLS);
    case PAST: return bqb_past(&now.head, a, b, TABLES, CELLS);
    case WATCH: return bqb_set_watch(&now.head, b, a, TABLES, WATCHES, OUT);
    case END: return bqb_end_watch(&now.head, b, a, TABLES, WATCHES);
    case PAIR: return bqb_set_pair(&now.head, a, b, TABLES, WATCHES, OUT);
    case UNPAIR: return bqb_end_pair(&now.head, TABLES, WATCHES);
    case DUE: return bqb_due(&now.head, TABLES, CELLS);
    default: return bqb_audit(&now.head, TABLES, &now.passes);
    }
}

/* Judges the answer of a call, and complains of a wrong one, of a count that is not 0, and of a byte that has changed. */
static void judge(const char *what, uint32_t got, uint32_t want) {
    calls++;
    if (got != want || count != 0 || listed != 0 || memcmp(&now, &before, sizeof now) != 0) {
        wrong++;
        fprintf(stderr, "refused_calls: %s: %" PRIu32 ", not %" PRIu32 "; counts %zu, %zu; %s\n", what, got, want, count, listed,
                memcmp(&now, &before, sizeof now) ? "what was lent has changed" : "nothing has changed");
    }
}

/* Makes a call that is refused: where it hands back a count that is 0, a preview the head's own rows, an audit no verdict. */
static void refused(uint32_t want, enum function f, uint32_t a, uint32_t b, uint32_t c) {
    count = f == OPEN || f == END || f == UNPAIR || f == AUDIT ? 0 : 9;
    listed = f == BOTH ? 9 : 0;
    before = now;
    if (f == PREVIEW) before.live = now.head.live, before.held = now.head.held;
    if (f == AUDIT) before.passes = 0;
    judge(names[f], call(f, a, b, c), want);
}

static void accepted(enum function f, uint32_t a, uint32_t b, uint32_t c) {
    uint32_t number = call(f, a, b, c);
    if (number != BQB_ACCEPTED) {
        wrong++;
        fprintf(stderr, "refused_calls: %s is refused: %" PRIu32 "\n", names[f], number);
    }
}

/* A book of two columns and a memory of 5 with four quotes and desk one's watch of 2, in buffers that hold anything else. */
static void begin(void) {
    memset(&now, 0xa5, sizeof now);
    lent = whole;
    accepted(OPEN, 2, 5, 0);
    for (int i = 0; i < 4; i++) accepted(QUOTE, 2, 0, 0);
    accepted(WATCH, 2, 1, 0);
}

/* A call that is good but for what is broken: with these arguments it would be accepted. */
static void broken(uint32_t want, enum function f) {
    static const uint32_t good[FUNCTIONS][3] = {{2, 5, 0}, {2}, {2, 2}, {2}, {2}, {1, 2}, {3, 1}, {2, 1}, {2, 3}, {0}, {0}, {0}};
    refused(want, f, good[f][0], good[f][1], good[f][2]);
}

/* Everything that makes a head's settings bad, a loan short, and a book torn, said to every call that judges it. */
static void settings_and_loans(void) {
    for (enum function f = OPEN; f < FUNCTIONS; f++) {
        int records = f != LOOK && f != PAST && f != DUE && f != AUDIT;
        if (f != OPEN) {
            begin(), now.head.dimensions = 7, broken(BQB_SETTINGS, f);
            begin(), now.head.capacity = 1025, broken(BQB_SETTINGS, f);
            begin(), now.head.directions = 4, lent.columns = 0, broken(BQB_SETTINGS, f);
        }
        begin(), lent.columns = 9, broken(BQB_SHORT_LOAN, f);
        begin(), lent.positions = 4, broken(BQB_SHORT_LOAN, f);
        begin(), lent.lower_ends = 4, broken(BQB_SHORT_LOAN, f);
        begin(), lent.upper_ends = 4, now.head.held = 6, broken(BQB_SHORT_LOAN, f);
        if (records) {
            begin(), lent.watches = BQB_WATCH_CELLS - 1, broken(BQB_SHORT_LOAN, f);
            begin(), lent.watches = 0, now.head.directions = f == OPEN ? 0 : 8, broken(f == OPEN ? BQB_SHORT_LOAN : BQB_SETTINGS, f);
        }
    }
    begin(), refused(BQB_SETTINGS, OPEN, 0, 5, 0);
    begin(), lent.watches = 2, refused(BQB_SETTINGS, OPEN, 2, 5, 4);
    begin(), refused(BQB_SETTINGS, OPEN, 2, 1025, 0);
}

static void torn(void) {
    for (enum function f = QUOTE; f < AUDIT; f++) {
        begin(), now.head.held = 6, broken(BQB_TORN, f);
        begin(), now.head.live = 2, broken(BQB_TORN, f);
        begin(), now.head.newest = 16777216, broken(BQB_TORN, f);
        begin(), now.head.n1 = 1, broken(BQB_TORN, f);
        begin(), now.positions[1] = 1, broken(BQB_TORN, f);
        begin(), now.lower_ends[2] = 3, broken(BQB_TORN, f);
        begin(), now.upper_ends[0] = 5, broken(BQB_TORN, f);
        if (f == LOOK || f == PAST || f == DUE) continue;
        begin(), now.watches[0].desk = 3, broken(BQB_TORN, f);
        begin(), now.watches[0].n = 6, broken(BQB_TORN, f);
        begin(), now.watches[7].n = 1, broken(BQB_TORN, f);
    }
}

/* What each call refuses of its own, the earlier refusal where two apply. */
static void own_refusals(void) {
    for (enum function f = QUOTE; f <= PREVIEW; f++) {
        begin(), lent.out = 0, refused(BQB_COLUMN_COUNT, f, 3, 0, 0);
        begin(), lent.out = BQB_CHANGE_BYTES - 1, refused(BQB_SHORT_OUTPUT, f, 2, 0, 0);
        begin(), accepted(OPEN, 1, 1, 0);
        now.head.newest = now.positions[0] = 16777215, now.head.live = now.head.held = 1;
        lent.out = 0, refused(BQB_TAPE_FULL, f, 1, 0, 0);
    }
    begin(), lent.cells = 0;
    refused(BQB_WINDOW_SIZE, BOTH, 2, 0, 0), refused(BQB_WINDOW_SIZE, BOTH, 2, 6, 0), refused(BQB_SHORT_OUTPUT, BOTH, 2, 5, 0);
    refused(BQB_WINDOW_SIZE, LOOK, 0, 0, 0), refused(BQB_WINDOW_SIZE, LOOK, 6, 0, 0), refused(BQB_SHORT_OUTPUT, LOOK, 5, 0, 0);
    refused(BQB_WINDOW_SIZE, PAST, 0, 2, 0), refused(BQB_WINDOW_SIZE, PAST, 7, 6, 0);
    refused(BQB_WINDOW_ORDER, PAST, 3, 2, 0), refused(BQB_SHORT_OUTPUT, PAST, 1, 2, 0);
    begin(), lent.out = 0;
    refused(BQB_WINDOW_SIZE, WATCH, 0, 1, 0), refused(BQB_WINDOW_SIZE, WATCH, 6, 2, 0);
    refused(BQB_ALREADY_WATCHED, WATCH, 2, 1, 0), refused(BQB_SHORT_OUTPUT, WATCH, 2, 2, 0);
    refused(BQB_WINDOW_SIZE, PAIR, 1, 2, 0), refused(BQB_WINDOW_SIZE, PAIR, 7, 6, 0);
    refused(BQB_WINDOW_ORDER, PAIR, 4, 3, 0), refused(BQB_SHORT_OUTPUT, PAIR, 2, 3, 0);
    refused(BQB_WINDOW_SIZE, END, 6, 1, 0), refused(BQB_NOT_WATCHED, END, 2, 2, 0);
    refused(BQB_NOT_WATCHED, END, 3, 1, 0), refused(BQB_NOT_WATCHED, UNPAIR, 0, 0, 0);
    begin();
    for (uint32_t n = 1; n <= 5; n++) if (n != 2) accepted(WATCH, n, 1, 0);
    for (uint32_t n = 1; n <= 3; n++) accepted(WATCH, n, 2, 0);
    lent.out = 0, refused(BQB_ALREADY_WATCHED, WATCH, 3, 2, 0), refused(BQB_NO_FREE_RECORD, WATCH, 4, 2, 0);
    begin(), accepted(PAIR, 2, 3, 0), lent.out = 0, refused(BQB_NO_FREE_RECORD, PAIR, 2, 3, 0);
    lent.cells = 1, refused(BQB_SHORT_OUTPUT, DUE, 0, 0, 0);
}

/* The reader leaves place and frame, the writer the output. */
static void frames(void) {
    static const uint8_t tape[] = {16, 5, 0, 7, 2, 1};
    static const struct { size_t place; uint32_t want; } reads[] = {{7, BQB_CUT}, {3, BQB_UNKNOWN_KIND}, {4, BQB_CUT}, {5, BQB_CUT}};
    static const struct { bqb_frame frame; size_t room; uint32_t want; } writes[] = {
        {{0, {0}}, 0, BQB_UNKNOWN_KIND}, {{7, {0}}, 25, BQB_UNKNOWN_KIND}, {{256 + 16, {5}}, 25, BQB_UNKNOWN_KIND},
        {{BQB_LOOK, {65536}}, 25, BQB_UNKNOWN_KIND}, {{BQB_PAST, {1, 65536}}, 25, BQB_UNKNOWN_KIND}, {{BQB_JOINS, {65536, 1}}, 25, BQB_UNKNOWN_KIND},
        {{BQB_OPEN, {256, 5, 0}}, 25, BQB_UNKNOWN_KIND}, {{BQB_OPEN, {2, 65536, 0}}, 25, BQB_UNKNOWN_KIND}, {{BQB_OPEN, {2, 5, 256}}, 25, BQB_UNKNOWN_KIND},
        {{6, {1, 2, 3, 4, 5, 6}}, 24, BQB_SHORT_OUTPUT}, {{BQB_END_PAIR, {0}}, 0, BQB_SHORT_OUTPUT}};
    for (size_t i = 0; i < sizeof reads / sizeof *reads; i++) {
        size_t place = reads[i].place;
        before = now, count = 0;
        uint32_t got = bqb_read(tape, sizeof tape, &place, &now.frame);
        judge("read", place == reads[i].place ? got : 99, reads[i].want);
    }
    for (size_t i = 0; i < sizeof writes / sizeof *writes; i++) {
        now.frame = writes[i].frame, before = now, count = 9;
        judge("write", bqb_write(&now.frame, now.out, writes[i].room, &count), writes[i].want);
    }
}

/* A frame of a tape that is played: its line is laid into the text, and what cannot be read leaves the place. */
static void played(uint32_t want, size_t place, const uint8_t *tape, size_t length) {
    bqb_turn turn = {place, 9, 9};
    char line[8];
    int printed = snprintf(line, sizeof line, "R %" PRIu32 "\n", want);
    before = now, count = 0;
    uint32_t got = bqb_play(tape, length, &turn, &now.head, TABLES, now.watches, now.out, now.text);
    int read = want != BQB_CUT && want != BQB_UNKNOWN_KIND;
    if (turn.place != (read ? length : place) || turn.over != !read || turn.count != (size_t)printed || memcmp(now.text, line, turn.count) != 0) got = 99;
    memcpy(before.text, line, (size_t)printed);
    judge("play", got, want);
}

#define PLAYED(want, place, ...) played(want, place, (const uint8_t[]){__VA_ARGS__}, sizeof(const uint8_t[]){__VA_ARGS__})

static void tapes(void) {
    begin();
    PLAYED(BQB_CUT, 2, 22), PLAYED(BQB_UNKNOWN_KIND, 0, 7), PLAYED(BQB_CUT, 0, 16, 5);
    PLAYED(BQB_OUT_OF_PLACE, 0, 48, 2, 5, 0, 0), PLAYED(BQB_OUT_OF_PLACE, 0, 40, 0, 0, 0, 0);
    PLAYED(BQB_COLUMN_COUNT, 0, 1, 9, 0, 0, 0), PLAYED(BQB_WINDOW_SIZE, 0, 16, 6, 0);
    PLAYED(BQB_WINDOW_ORDER, 0, 23, 3, 0, 2, 0), PLAYED(BQB_ALREADY_WATCHED, 0, 17, 2, 0);
    PLAYED(BQB_NOT_WATCHED, 0, 20, 2, 0), accepted(PAIR, 2, 3, 0);
    PLAYED(BQB_NO_FREE_RECORD, 0, 21, 2, 0, 3, 0), now.positions[1] = 1, PLAYED(BQB_TORN, 0, 16, 2, 0);
    begin(), lent.columns = 9, PLAYED(BQB_SHORT_LOAN, 0, 16, 2, 0), accepted(OPEN, 1, 1, 0);
    now.head.newest = now.positions[0] = 16777215, now.head.live = now.head.held = 1, PLAYED(BQB_TAPE_FULL, 0, 1, 9, 0, 0, 0);
    memset(&now.head, 0, sizeof now.head);
    PLAYED(BQB_OUT_OF_PLACE, 0, 16, 2, 0), PLAYED(BQB_SETTINGS, 0, 48, 7, 5, 0, 0), PLAYED(BQB_SHORT_LOAN, 0, 48, 2, 5, 0, 0);
}

int main(void) {
    settings_and_loans();
    torn();
    own_refusals();
    frames();
    tapes();
    printf("%u refused calls, %u wrong\n", calls, wrong);
    return wrong != 0;
}
