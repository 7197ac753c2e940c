/* A panel: plays the tape on standard input on a book of the library, and prints a line for each frame
   with the changes that it brings behind it, as the tape printer does. It is where a supplier may begin:
   everything that a host keeps of a book is in `struct book`, every call is made in one place, and every
   answer is judged.

   usage: panel < TAPE            each frame is read, and its call made and printed here
          panel --play < TAPE     the library plays each frame and lays its lines                     */
#define _POSIX_C_SOURCE 200809L

#include <inttypes.h>
#include <stdio.h>
#include <string.h>
#include <unistd.h>

#include "best_quote_book.h"

/* All that a host keeps of a book, each buffer as long as always suffices. */
struct book {
    bqb_head head;
    uint32_t columns[BQB_COLUMN_CELLS];
    uint32_t positions[BQB_PLACES];
    uint32_t lower_ends[BQB_PLACES];
    uint32_t upper_ends[BQB_PLACES];
    bqb_watch watches[BQB_WATCHES];
    int opened;
    /* what the last call wrote: frames of changes, and positions; and how many bytes and cells */
    uint8_t changes[BQB_CHANGE_BYTES];
    uint32_t list[BQB_LIST_CELLS];
    size_t count, listed;
};

/* The tables of a book, and its records, as the calls take them: each buffer and its length in cells. */
#define TABLES(b)                                                                                  \
    (b)->columns, BQB_COLUMN_CELLS, (b)->positions, BQB_PLACES, (b)->lower_ends, BQB_PLACES,       \
        (b)->upper_ends, BQB_PLACES
#define WATCHES(b) (b)->watches, BQB_WATCH_CELLS
#define CHANGES(b) (b)->changes, BQB_CHANGE_BYTES, &(b)->count
#define LIST(b) (b)->list, BQB_LIST_CELLS, &(b)->listed

/* What has come of the tape, where the last frame begins, and where the next one does. */
struct tape {
    uint8_t bytes[1 << 16];
    size_t length;
    size_t start;
    size_t place;
};

/* Prints a sign and so many numbers as one line. */
static void print_line(const char *sign, const uint32_t *numbers, size_t count) {
    fputs(sign, stdout);
    for (size_t i = 0; i < count; i++) printf(" %" PRIu32, numbers[i]);
    putchar('\n');
}

/* Prints the changes that a call wrote: they are frames, read as those of a tape are. */
static void print_changes(const struct book *book) {
    bqb_frame change;
    size_t place = 0;
    while (bqb_read(book->changes, book->count, &place, &change) == BQB_ACCEPTED && change.kind != 0) {
        switch (change.kind) {
        case BQB_LEAVES: print_line("-", change.values, 2); break;
        case BQB_JOINS: print_line("+", change.values, 2); break;
        case BQB_LEAVES_2: print_line("-2", change.values, 2); break;
        case BQB_JOINS_2: print_line("+2", change.values, 2); break;
        case BQB_PAIR_LEAVES: print_line("--", change.values, 1); break;
        case BQB_PAIR_JOINS: print_line("++", change.values, 1); break;
        }
    }
}

/* Prints the lines of an accepted quote: its position, the live rows and the changes. */
static void print_quote(const struct book *book) {
    print_line("Q", (const uint32_t[]){book->head.newest, book->head.live}, 2);
    print_changes(book);
}

/* Takes the quote of so many columns, and prints its lines. */
static uint32_t take_quote(struct book *book, const uint32_t *columns, size_t count) {
    uint32_t number = bqb_quote(&book->head, columns, count, TABLES(book), WATCHES(book), CHANGES(book));
    if (number == BQB_ACCEPTED) print_quote(book);
    return number;
}

/* Prints the line of a list: the numbers that it was asked with, then its positions. */
static void print_list(const struct book *book, const char *sign, const uint32_t *asked, size_t count) {
    fputs(sign, stdout);
    for (size_t i = 0; i < count; i++) printf(" %" PRIu32, asked[i]);
    print_line("", book->list, book->listed);
}

/* Looks at the list of n, or at the past list of n1 and n2. */
static uint32_t look(struct book *book, const bqb_frame *frame) {
    const uint32_t *n = frame->values;
    if (frame->kind == BQB_LOOK) {
        uint32_t number = bqb_look(&book->head, n[0], TABLES(book), LIST(book));
        if (number == BQB_ACCEPTED) print_list(book, "L", n, 1);
        return number;
    }
    uint32_t number = bqb_past(&book->head, n[0], n[1], TABLES(book), LIST(book));
    if (number == BQB_ACCEPTED) print_list(book, "P", n, 2);
    return number;
}

/* Takes a quote and the look at n that stands behind it by one call, and prints the lines of both; 0 where either is refused, and then nothing has
   happened. */
static int quote_and_look(struct book *book, const bqb_frame *quote, const bqb_frame *look) {
    const uint32_t *n = look->values;
    uint32_t number = bqb_quote_look(&book->head, quote->values, quote->kind, n[0], TABLES(book), WATCHES(book), CHANGES(book), LIST(book));
    if (number != BQB_ACCEPTED) return 0;
    print_quote(book);
    print_list(book, "L", n, 1);
    return 1;
}

/* Sets a desk's watch of n, and prints its list as joins. */
static uint32_t set_watch(struct book *book, uint32_t desk, const uint32_t *n) {
    uint32_t number = bqb_set_watch(&book->head, desk, n[0], TABLES(book), WATCHES(book), CHANGES(book));
    if (number == BQB_ACCEPTED) {
        print_line(desk == 2 ? "W2" : "W", n, 1);
        print_changes(book);
    }
    return number;
}

/* Ends a desk's watch of n. */
static uint32_t end_watch(struct book *book, uint32_t desk, const uint32_t *n) {
    uint32_t number = bqb_end_watch(&book->head, desk, n[0], TABLES(book), WATCHES(book));
    if (number == BQB_ACCEPTED) print_line(desk == 2 ? "U2" : "U", n, 1);
    return number;
}

/* Sets the watch of the pair n1 and n2, and prints its past list as joins. */
static uint32_t set_pair(struct book *book, const uint32_t *n) {
    uint32_t number = bqb_set_pair(&book->head, n[0], n[1], TABLES(book), WATCHES(book), CHANGES(book));
    if (number == BQB_ACCEPTED) {
        print_line("B", n, 2);
        print_changes(book);
    }
    return number;
}

/* Ends the watch of the pair. */
static uint32_t end_pair(struct book *book) {
    uint32_t number = bqb_end_pair(&book->head, TABLES(book), WATCHES(book));
    if (number == BQB_ACCEPTED) print_line("E", NULL, 0);
    return number;
}

/* Begins the book. A tape has one accepted opening. */
static uint32_t open_book(struct book *book, const uint32_t *settings) {
    uint32_t number = bqb_open(settings[0], settings[1], settings[2], &book->head, TABLES(book), WATCHES(book));
    if (number == BQB_ACCEPTED) {
        book->opened = 1;
        print_line("O", settings, 3);
    }
    return number;
}

/* Makes the call that a frame asks for, prints what it brings, and gives its number. */
static uint32_t make_call(struct book *book, const bqb_frame *frame) {
    if (book->opened != (frame->kind != BQB_OPEN)) return BQB_OUT_OF_PLACE;
    switch (frame->kind) {
    case 1: case 2: case 3: case 4: case 5: case 6: return take_quote(book, frame->values, frame->kind);
    case BQB_LOOK: case BQB_PAST: return look(book, frame);
    case BQB_WATCH: return set_watch(book, 1, frame->values);
    case BQB_WATCH_2: return set_watch(book, 2, frame->values);
    case BQB_END_WATCH: return end_watch(book, 1, frame->values);
    case BQB_END_WATCH_2: return end_watch(book, 2, frame->values);
    case BQB_PAIR: return set_pair(book, frame->values);
    case BQB_END_PAIR: return end_pair(book);
    case BQB_OPEN: return open_book(book, frame->values);
    default: return BQB_OUT_OF_PLACE; /* a change, or a venue's stamp */
    }
}

/* Drops what was read of the tape and waits for more of it; what was printed is seen first. Gives 0 at the end. */
static int read_more(struct tape *tape) {
    fflush(stdout);
    memmove(tape->bytes, tape->bytes + tape->place, tape->length - tape->place);
    tape->length -= tape->place;
    tape->start = tape->place = 0;
    ssize_t got = read(STDIN_FILENO, tape->bytes + tape->length, sizeof tape->bytes - tape->length);
    if (got < 0) perror("panel: standard input");
    tape->length += got > 0 ? (size_t)got : 0;
    return got > 0;
}

/* Reads the next frame, as soon as it has come whole; kind 0 at the end of the tape. */
static uint32_t next_frame(struct tape *tape, bqb_frame *frame) {
    for (;;) {
        frame->kind = 0;
        tape->start = tape->place;
        uint32_t number = bqb_read(tape->bytes, tape->length, &tape->place, frame);
        if (number == BQB_UNKNOWN_KIND || frame->kind != 0 || !read_more(tape)) return number;
    }
}

/* Whether a quote and the look directly behind it, where one has come, were taken by one call; the tape goes on behind the look then. */
static int in_one(struct book *book, struct tape *tape, const bqb_frame *frame) {
    bqb_frame next;
    size_t place = tape->place;
    if (!book->opened || frame->kind > 6) return 0;
    if (bqb_read(tape->bytes, tape->length, &place, &next) != BQB_ACCEPTED || next.kind != BQB_LOOK) return 0;
    if (!quote_and_look(book, frame, &next)) return 0;
    tape->place = place;
    return 1;
}

/* Plays a tape call by call: after 1 or 2 nothing more can be read, after any other refusal it goes on. */
static void print_tape(struct book *book, struct tape *tape) {
    bqb_frame frame;
    uint32_t number = next_frame(tape, &frame);
    for (; number == BQB_ACCEPTED && frame.kind != 0; number = next_frame(tape, &frame)) {
        if (in_one(book, tape, &frame)) continue;
        uint32_t refusal = make_call(book, &frame);
        if (refusal != BQB_ACCEPTED) print_line("R", &refusal, 1);
    }
    if (number != BQB_ACCEPTED) print_line("R", &number, 1);
}

/* Plays a tape by the library's own player, which is given each frame once it has come whole. */
static void play_tape(struct book *book, struct tape *tape) {
    static uint8_t text[BQB_TEXT_BYTES];
    bqb_turn turn = {0, 0, 0};
    while (!turn.over) {
        bqb_frame frame;
        next_frame(tape, &frame);
        turn.place = tape->start;
        bqb_play(tape->bytes, tape->length, &turn, &book->head, TABLES(book), book->watches, book->changes, text);
        fwrite(text, 1, turn.count, stdout);
    }
}

int main(int count, char **words) {
    static struct book book;
    static struct tape tape;
    if (count > 2 || (count == 2 && strcmp(words[1], "--play") != 0)) {
        fputs("usage: panel [--play] < TAPE\n", stderr);
        return 2;
    }
    if (count == 2) play_tape(&book, &tape);
    else print_tape(&book, &tape);
    return fflush(stdout) != 0;
}
