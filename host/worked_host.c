/* A worked C host: checks and compares frames and prints what the calls answer. It exits with 1 if an answer is not the one that the
   text of the format gives, or if an answer of the comparison never comes. */
#include <inttypes.h>
#include <stdio.h>
#include <string.h>

#include "best_quote.h"

static unsigned answers, wrong;
static unsigned compared[104]; /* how often the comparison gave each answer */

/* Counts an answer and complains of the first wrong ones. */
static void expect(const char *what, uint32_t got, uint32_t want) {
    answers++;
    if (got != want && wrong++ < 20) {
        fprintf(stderr, "worked_host: %s: %" PRIu32 ", not %" PRIu32 "\n", what, got, want);
    }
}

/* The same, with a line of print. */
static void say(const char *what, uint32_t got, uint32_t want) {
    printf("%-58s %3" PRIu32 "\n", what, got);
    expect(what, got, want);
}

/* The same of a comparison, whose answers are counted. */
static void expect_compared(const char *what, uint32_t got, uint32_t want) {
    expect(what, got, want);
    if (got < sizeof compared / sizeof *compared) compared[got]++;
}

/* Writes the quote frame of count columns into frame and gives its length. */
static size_t quote(uint8_t *frame, uint8_t count, const uint32_t *columns) {
    frame[0] = count;
    for (size_t i = 0; i < count; i++) {
        for (size_t b = 0; b < 4; b++) {
            frame[1 + 4 * i + b] = (uint8_t)(columns[i] >> (8 * b));
        }
    }
    return 1 + 4 * (size_t)count;
}

/* The body length that the format gives each kind, 255 for an unknown one. */
static size_t body_length(int kind) {
    if (1 <= kind && kind <= 6) return 4 * (size_t)kind;
    if (16 <= kind && kind <= 20) return 2;
    if (32 <= kind && kind <= 35) return 6;
    if (kind == 22) return 0;
    if (kind == 21 || kind == 23 || kind == 36 || kind == 37 || kind == 40 || kind == 48) return 4;
    return 255;
}

/* Every kind with every length from 0 to 64. */
static void check_every_kind(void) {
    uint8_t bytes[64];
    memset(bytes, 0xff, sizeof bytes);
    for (int kind = 0; kind < 256; kind++) {
        bytes[0] = (uint8_t)kind;
        size_t body = body_length(kind);
        for (size_t length = 0; length <= sizeof bytes; length++) {
            uint32_t want = BQB_WHOLE;
            if (length == 0) {
                want = BQB_CUT;
            } else if (body == 255) {
                want = BQB_UNKNOWN_KIND;
            } else if (length < 1 + body) {
                want = BQB_CUT;
            }
            expect("every kind at every length to 64", bqb_check_frame(bytes, length), want);
        }
    }
}

/* Whether the frame of length bytes is cut: no byte at all, or a known kind whose body runs past the end. */
static int is_cut(const uint8_t *frame, size_t length) {
    return length == 0 || (body_length(frame[0]) != 255 && length < 1 + body_length(frame[0]));
}

/* Whether quote p is better than quote q in column i. */
static int is_better(unsigned directions, uint8_t i, const uint32_t *p, const uint32_t *q) {
    return directions >> i & 1 ? p[i] > q[i] : p[i] < q[i];
}

/* Whether quote p is no worse than quote q in every column and better in at least one. */
static int beats(uint8_t count, unsigned directions, const uint32_t *p, const uint32_t *q) {
    int no_worse = 1, some_better = 0;
    for (uint8_t i = 0; i < count; i++) {
        no_worse = no_worse && !is_better(directions, i, q, p);
        some_better = some_better || is_better(directions, i, p, q);
    }
    return no_worse && some_better;
}

/* What the comparison of two whole quotes of count columns answers. */
static uint32_t standing(uint8_t count, unsigned directions, const uint32_t *p, const uint32_t *q) {
    if (directions >> count) return BQB_DIRECTIONS;
    if (beats(count, directions, p, q)) return BQB_FIRST_BETTER;
    if (beats(count, directions, q, p)) return BQB_SECOND_BETTER;
    return memcmp(p, q, count * sizeof *p) == 0 ? BQB_EQUAL : BQB_NEITHER;
}

/* How many bytes a frame of this kind has: with an unknown kind its first byte is all that can be said of it. */
static size_t frame_length(int kind) {
    return body_length(kind) == 255 ? 1 : 1 + body_length(kind);
}

/* What the comparison of two frames answers whose columns are alike. */
static uint32_t alike(const uint8_t *a, size_t n, const uint8_t *b, size_t m, unsigned directions) {
    if (is_cut(a, n) || is_cut(b, m)) return BQB_CUT;
    if (a[0] != b[0] || a[0] < 1 || a[0] > 6) return BQB_KINDS;
    return directions >> a[0] ? BQB_DIRECTIONS : BQB_EQUAL;
}

/* A pair of kinds, each frame with every length up to the whole frame, with directions that fit every number of columns, some and none. */
static void compare_every_cut(const uint8_t *a, const uint8_t *b) {
    const uint8_t directions[] = {0, 8, 255};
    for (size_t n = 0; n <= frame_length(a[0]); n++) {
        for (size_t m = 0; m <= frame_length(b[0]); m++) {
            for (size_t i = 0; i < sizeof directions; i++) {
                uint8_t bits = directions[i];
                expect_compared("every cut", bqb_compare_quotes(a, n, b, m, bits), alike(a, n, b, m, bits));
            }
        }
    }
}

/* Every pair of kinds: every cut, and two frames with bytes behind them with every directions byte. */
static void compare_every_pair_of_kinds(void) {
    uint8_t a[64], b[64];
    memset(a, 0xff, sizeof a);
    memset(b, 0xff, sizeof b);
    for (unsigned pair = 0; pair < 256 * 256; pair++) {
        a[0] = (uint8_t)(pair / 256);
        b[0] = (uint8_t)(pair % 256);
        compare_every_cut(a, b);
        for (unsigned directions = 0; directions < 256; directions++) {
            uint32_t got = bqb_compare_quotes(a, sizeof a, b, sizeof b, (uint8_t)directions);
            expect_compared("every pair of kinds", got, alike(a, sizeof a, b, sizeof b, directions));
        }
    }
}

/* Every directions byte with every way in which the columns of two quotes can stand to each other: lower, equal or higher. */
static void compare_every_pattern(uint8_t count) {
    const uint32_t values[6][3] = {{200, 300, 400},
                                   {0, 1, 4294967295u},
                                   {2147483647u, 2147483648u, 2147483649u},
                                   {255, 256, 257},
                                   {65535, 65536, 16777216},
                                   {4294967293u, 4294967294u, 4294967295u}};
    uint8_t a[32], b[32];
    uint32_t p[6], q[6];
    unsigned patterns = 1;
    for (uint8_t i = 0; i < count; i++, patterns *= 3) q[i] = values[i][1];
    size_t m = quote(b, count, q);
    for (unsigned pattern = 0; pattern < patterns; pattern++) {
        unsigned left = pattern;
        for (uint8_t i = 0; i < count; i++, left /= 3) p[i] = values[i][left % 3];
        size_t n = quote(a, count, p);
        for (unsigned directions = 0; directions < 256; directions++) {
            uint8_t bits = (uint8_t)directions;
            expect_compared("every pattern", bqb_compare_quotes(a, n, b, m, bits), standing(count, directions, p, q));
            expect_compared("every pattern, swapped", bqb_compare_quotes(b, m, a, n, bits), standing(count, directions, q, p));
        }
    }
}

/* Says how often each answer of the comparison came, and complains of one that did not. */
static void count_answers(void) {
    const uint32_t each[] = {BQB_CUT, BQB_DIRECTIONS, BQB_KINDS, BQB_FIRST_BETTER, BQB_SECOND_BETTER, BQB_EQUAL, BQB_NEITHER};
    for (size_t i = 0; i < sizeof each / sizeof *each; i++) {
        printf("the comparison answered %3" PRIu32 " %u times\n", each[i], compared[each[i]]);
        if (compared[each[i]] == 0) {
            wrong++;
            fprintf(stderr, "worked_host: the comparison never answered %" PRIu32 "\n", each[i]);
        }
    }
}

static void check_frames(void) {
    const uint8_t empty[1] = {0};
    const uint8_t look[] = {16, 5, 0};
    const uint8_t open[] = {48, 2, 5, 0, 0};
    const uint8_t unknown[] = {7, 0, 0, 0, 0};
    say("an empty slice is cut", bqb_check_frame(empty, 0), BQB_CUT);
    say("kind 0 is unknown", bqb_check_frame(empty, 1), BQB_UNKNOWN_KIND);
    say("kind 7 is unknown, however short", bqb_check_frame(unknown, 1), BQB_UNKNOWN_KIND);
    say("look 5", bqb_check_frame(look, sizeof look), BQB_WHOLE);
    say("look 5 without its last byte", bqb_check_frame(look, 2), BQB_CUT);
    say("open 2, 5, 0", bqb_check_frame(open, sizeof open), BQB_WHOLE);
    say("open 2, 5, 0 without its last byte", bqb_check_frame(open, 4), BQB_CUT);
}

static void compare_frames(void) {
    uint8_t a[32], b[32], c[32];
    const uint8_t look[] = {16, 5, 0};
    const uint8_t unknown[] = {7};
    size_t n = quote(a, 2, (const uint32_t[]){4, 4});
    size_t m = quote(b, 2, (const uint32_t[]){5, 5});
    size_t k = quote(c, 1, (const uint32_t[]){0});
    say("(4,4) against (5,5), lower is better", bqb_compare_quotes(a, n, b, m, 0), BQB_FIRST_BETTER);
    say("(5,5) against (4,4), lower is better", bqb_compare_quotes(b, m, a, n, 0), BQB_SECOND_BETTER);
    say("(4,4) against (4,4)", bqb_compare_quotes(a, n, a, n, 0), BQB_EQUAL);
    say("(5,5) against (4,4), higher is better", bqb_compare_quotes(b, m, a, n, 3), BQB_FIRST_BETTER);
    say("(5,5) against (4,4), higher in the second column", bqb_compare_quotes(b, m, a, n, 2), BQB_NEITHER);
    say("bytes behind a whole frame are ignored", bqb_compare_quotes(a, sizeof a, b, m, 0), BQB_FIRST_BETTER);
    say("the first frame is cut", bqb_compare_quotes(a, n - 1, b, m, 0), BQB_CUT);
    say("the second frame is empty", bqb_compare_quotes(a, n, b, 0, 0), BQB_CUT);
    say("the second is cut and the kinds differ", bqb_compare_quotes(a, n, look, 2, 0), BQB_CUT);
    say("two and one column", bqb_compare_quotes(a, n, c, k, 0), BQB_KINDS);
    say("a quote and a look", bqb_compare_quotes(a, n, look, sizeof look, 0), BQB_KINDS);
    say("two looks", bqb_compare_quotes(look, sizeof look, look, sizeof look, 0), BQB_KINDS);
    say("an unknown kind is not cut", bqb_compare_quotes(unknown, 1, unknown, 1, 0), BQB_KINDS);
    say("different kinds come before a direction bit", bqb_compare_quotes(a, n, c, k, 255), BQB_KINDS);
    say("a direction bit at the number of columns", bqb_compare_quotes(a, n, b, m, 4), BQB_DIRECTIONS);
    say("a direction bit far above", bqb_compare_quotes(a, n, b, m, 128), BQB_DIRECTIONS);
    n = quote(a, 1, (const uint32_t[]){0});
    m = quote(b, 1, (const uint32_t[]){4294967295u});
    say("0 against the largest, lower is better", bqb_compare_quotes(a, n, b, m, 0), BQB_FIRST_BETTER);
    say("0 against the largest, higher is better", bqb_compare_quotes(a, n, b, m, 1), BQB_SECOND_BETTER);
    n = quote(a, 6, (const uint32_t[]){1, 2, 3, 4, 5, 6});
    m = quote(b, 6, (const uint32_t[]){1, 2, 3, 4, 5, 5});
    say("six columns, the last higher, bit 5 set", bqb_compare_quotes(a, n, b, m, 32), BQB_FIRST_BETTER);
    say("six columns, the last higher, bit 5 clear", bqb_compare_quotes(a, n, b, m, 31), BQB_SECOND_BETTER);
}

int main(void) {
    check_frames();
    compare_frames();
    check_every_kind();
    compare_every_pair_of_kinds();
    for (uint8_t count = 1; count <= 6; count++) compare_every_pattern(count);
    count_answers();
    printf("%u answers, %u wrong\n", answers, wrong);
    return wrong != 0;
}
