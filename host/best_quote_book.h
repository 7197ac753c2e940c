/* The best-quote book for a C host: the calls on a book, the reader and the writer of frames, and
   the player of a tape.

   Link with libbest_quote_book.a, which `make host` writes under build/ and `make install` puts
   beside this header (x86-64 Linux): `cc panel.c $(pkg-config --cflags --libs best_quote_book)`.
   host/panel.c is a worked example. The check and the comparison of quote frames for a screen have
   a library and a manual of their own, best_quote.h.

   A QUOTE has d columns, d from 1 to 6, each a number from 0 to 4294967295. Directions is one byte:
   bit i, worth 2 to the power i, stands for column i, counted from 0; set means higher is better,
   clear means lower is better. A quote BEATS another if it is no worse in every column and better
   in at least one; of two quotes that are equal in every column the later beats the earlier.
   Accepted quotes have the positions 1, 2, 3 and so on; M is the newest, 0 at the opening. N, the
   memory, is from 1 to 1024. The LIST of n, n from 1 to N: the positions among the last n quotes
   that no other of those n beats, rising. The PAST list of n1 and n2: the positions among the last
   n2 quotes, without the last n1 - 1, that no other of those beats.

   WHAT A HOST KEEPS. A book is what the host lends: a head, four tables of cells and eight watch
   records. The library keeps nothing between two calls, allocates nothing, prints nothing and has
   no state of its own, so

   - the host owns every buffer. A call uses what it is lent until it returns and not after;
   - no pointer may be null, not even where its length is 0: point at any cell then;
   - buffers of one call must not overlap, and each is as long as its length says. Lengths are in
     cells of the buffer's type, never in bytes: a list of eight records is 16 cells. Where no
     length is asked the prototype names how many cells there are;
   - any number of threads may make calls at once on different books. Two threads must not make
     calls on one book at once, unless neither call writes to it (const in the prototype says what a
     call only reads) and their outputs differ;
   - a head may hold anything: one that no call left is refused with 3 or 12, or taken for what it
     says. The same is so of tables and records. A book can be saved and lent again: bqb_audit says
     whether a saved book is one that quotes leave.

   WHAT A CALL ANSWERS. Every function returns BQB_ACCEPTED, 0, or the number of its refusal: the
   first that applies, in the order that stands with the function, and in no other case. A refused
   call leaves everything lent as it was, the reading place included; the count that it hands back
   is 0. Nothing past the count is touched in an output, no cell of a table past N places (columns:
   N * d cells), no record past the eighth. */
#ifndef BEST_QUOTE_BOOK_H
#define BEST_QUOTE_BOOK_H

#include <stddef.h>
#include <stdint.h>

#ifdef __cplusplus
extern "C" {
#endif

/* ---- The refusals */

#define BQB_ACCEPTED 0u

/* What the tape's writer can cause. */
#define BQB_UNKNOWN_KIND 1u /* the frame's kind is unknown; a frame to be written has no such kind,
                               or a value that does not fit its field */
#define BQB_CUT 2u          /* the frame runs past the end of the tape, or the place is beyond it */
#define BQB_SETTINGS 3u     /* d, N or the directions are outside their ranges */
#define BQB_COLUMN_COUNT 4u /* the quote's number of columns is not d */
#define BQB_WINDOW_SIZE 5u  /* n is 0 or above N; of a past look: n1 is 0 or n2 above N; of a pair:
                               n1 is below 2 or n2 above N */
#define BQB_TAPE_FULL 6u    /* M is already 16777215 */
#define BQB_OUT_OF_PLACE 7u /* on a tape that is played: an opening after an accepted one, any other
                               frame before one, or a kind that is for watchers or for venues */
#define BQB_WINDOW_ORDER 14u /* of a past look or a pair: n1 is above n2 */

/* What a watcher can cause. */
#define BQB_ALREADY_WATCHED 8u /* the desk watches this n */
#define BQB_NO_FREE_RECORD 9u  /* the desk has 3 watches or more, and those that the two desks have
                                  above 3 each come to 2; of a pair: one stands */
#define BQB_NOT_WATCHED 10u    /* the desk does not watch this n; of the pair's end: none stands */

/* What the host can cause. */
#define BQB_SHORT_LOAN 11u   /* a table is shorter than N asks, or there are fewer than eight records */
#define BQB_TORN 12u         /* a torn book: counts, positions, ends, watches or the pair are out of
                                their order or range */
#define BQB_SHORT_OUTPUT 13u /* the output is shorter than the answer; of a call that writes changes:
                                it is below BQB_CHANGE_BYTES, however few it fills */

/* ---- Lengths that always suffice, in cells of the buffer's type */

#define BQB_PLACES 1024u        /* positions, lower ends, upper ends: N of them are used */
#define BQB_COLUMN_CELLS 6144u  /* columns: N * d of them are used */
#define BQB_WATCHES 8u          /* watch records */
#define BQB_WATCH_CELLS 16u     /* the same as a length: two cells each */
#define BQB_CHANGE_BYTES 62520u /* the changes of any call, and what such a call asks for */
#define BQB_LIST_CELLS 1024u    /* the positions of any list */
#define BQB_DUE_CELLS 2048u     /* what is due: two cells for each row */
#define BQB_FRAME_BYTES 25u     /* one frame */
#define BQB_TEXT_BYTES 234564u  /* the lines of one frame of a tape */

/* ---- What is lent */

/* The head of a book: eight cells, in this order. All zeros before the first opening. */
typedef struct {
    uint32_t dimensions; /* d */
    uint32_t capacity;   /* N */
    uint32_t directions;
    uint32_t newest;     /* M */
    uint32_t live;       /* how many rows are live: those that no younger quote beats */
    uint32_t held;       /* how many rows are held: one for each of the last N quotes */
    uint32_t n1, n2;     /* the pair that is watched; 0 and 0 where none is */
} bqb_head;

/* A watch record: two cells. Desk one's watches come first, then desk two's, each rising by n, then
   empty records with 0 and 0. Desk 1 is desk one, desk 2 desk two. */
typedef struct {
    uint32_t n;
    uint32_t desk;
} bqb_watch;

/* The kinds of frames, with the values of each in the order of its body. n, n1, n2 and N have two
   bytes on a tape, d and the directions one, all others four. Kinds 1 to 6 are quotes with that many
   columns. */
#define BQB_LOOK 16u       /* n */
#define BQB_WATCH 17u      /* n: desk one */
#define BQB_END_WATCH 18u  /* n: desk one */
#define BQB_WATCH_2 19u    /* n: desk two */
#define BQB_END_WATCH_2 20u /* n: desk two */
#define BQB_PAIR 21u       /* n1, n2 */
#define BQB_END_PAIR 22u   /* no value */
#define BQB_PAST 23u       /* n1, n2 */
#define BQB_LEAVES 32u     /* n, position: a change for desk one's watch of n */
#define BQB_JOINS 33u      /* n, position */
#define BQB_LEAVES_2 34u   /* n, position: a change for desk two's watch of n */
#define BQB_JOINS_2 35u    /* n, position */
#define BQB_PAIR_LEAVES 36u /* position: a change for the pair */
#define BQB_PAIR_JOINS 37u /* position */
#define BQB_STAMP 40u      /* milliseconds of the day, on a venue's tape */
#define BQB_OPEN 48u       /* d, N, directions */

/* A frame: its kind and six values, zeros behind those that the kind has. A quote's are its columns. */
typedef struct {
    uint32_t kind;
    uint32_t values[6];
} bqb_frame;

/* Where a player stands on a tape: the place, how many bytes of text the last frame printed, and 1
   once the tape is over. All zeros before the first frame. */
typedef struct {
    size_t place;
    size_t count;
    size_t over;
} bqb_turn;

/* The tables, as most calls take them: columns (row by row, d cells each), positions, lower ends and
   upper ends, a place for each row held, oldest first, each with its length. An opening sets the
   first N places of each to 0. What the ends are is no matter for a host: it lends what it was left. */

/* ---- The calls */

/* Begins a new book with these settings: *head is the head for the next call, the N places of the
   tables are 0 and the eight records empty. A refused opening leaves *head too, so that the book
   before it goes on. Refusals: BQB_SETTINGS, BQB_SHORT_LOAN. */
uint32_t bqb_open(uint32_t dimensions, uint32_t capacity, uint32_t directions, bqb_head *head,
                  uint32_t *columns, size_t columns_len, uint32_t *positions, size_t positions_len,
                  uint32_t *lower_ends, size_t lower_ends_len, uint32_t *upper_ends,
                  size_t upper_ends_len, bqb_watch *watches, size_t watch_cells);

/* Takes a quote of quote_len columns: it gets the position head->newest + 1. *head is the head for the
   next call. The changes that it brings are written to out as frames, *count bytes: desk one's
   watches by rising n, then desk two's, of each first the leaves (32, 34), then the joins (33, 35), by
   rising position; then those of the pair (36, 37). Whoever applies them holds the watched lists.
   Refusals: BQB_SETTINGS, BQB_SHORT_LOAN, BQB_TORN, BQB_COLUMN_COUNT, BQB_TAPE_FULL,
   BQB_SHORT_OUTPUT. */
uint32_t bqb_quote(bqb_head *head, const uint32_t *quote, size_t quote_len, uint32_t *columns,
                   size_t columns_len, uint32_t *positions, size_t positions_len,
                   uint32_t *lower_ends, size_t lower_ends_len, uint32_t *upper_ends,
                   size_t upper_ends_len, const bqb_watch *watches, size_t watch_cells,
                   uint8_t *out, size_t out_len, size_t *count);

/* Takes a quote as bqb_quote does and, on the book after it, writes the list of n into cells, *listed
   positions, as bqb_look does: both, or neither where either is refused, and then *count and *listed
   are 0. BQB_LIST_CELLS cells suffice, and so do n. Refusals: those of the quote, then BQB_WINDOW_SIZE,
   and BQB_SHORT_OUTPUT where the list is longer than the cells. */
uint32_t bqb_quote_look(bqb_head *head, const uint32_t *quote, size_t quote_len, uint32_t n,
                        uint32_t *columns, size_t columns_len, uint32_t *positions,
                        size_t positions_len, uint32_t *lower_ends, size_t lower_ends_len,
                        uint32_t *upper_ends, size_t upper_ends_len, const bqb_watch *watches,
                        size_t watch_cells, uint8_t *out, size_t out_len, size_t *count,
                        uint32_t *cells, size_t cells_len, size_t *listed);

/* Previews a quote: answers and writes what the quote would, and changes nothing else. *live and *held
   are the rows that it would leave live and held, those of *head where it is refused. Refusals: those
   of the quote. */
uint32_t bqb_preview(const bqb_head *head, const uint32_t *quote, size_t quote_len,
                     const uint32_t *columns, size_t columns_len, const uint32_t *positions,
                     size_t positions_len, const uint32_t *lower_ends, size_t lower_ends_len,
                     const uint32_t *upper_ends, size_t upper_ends_len,
                     const bqb_watch *watches, size_t watch_cells, uint8_t *out,
                     size_t out_len, size_t *count, uint32_t *live, uint32_t *held);

/* Writes the list of n into cells, *count positions. Refusals: BQB_SETTINGS, BQB_SHORT_LOAN, BQB_TORN,
   BQB_WINDOW_SIZE, BQB_SHORT_OUTPUT. */
uint32_t bqb_look(const bqb_head *head, uint32_t n, const uint32_t *columns, size_t columns_len,
                  const uint32_t *positions, size_t positions_len, const uint32_t *lower_ends,
                  size_t lower_ends_len, const uint32_t *upper_ends, size_t upper_ends_len,
                  uint32_t *cells, size_t cells_len, size_t *count);

/* Writes the past list of n1 and n2 into cells, *count positions; none where it closed before the first
   quote. Refusals: BQB_SETTINGS, BQB_SHORT_LOAN, BQB_TORN, BQB_WINDOW_SIZE, BQB_WINDOW_ORDER,
   BQB_SHORT_OUTPUT. */
uint32_t bqb_past(const bqb_head *head, uint32_t n1, uint32_t n2, const uint32_t *columns,
                  size_t columns_len, const uint32_t *positions, size_t positions_len,
                  const uint32_t *lower_ends, size_t lower_ends_len, const uint32_t *upper_ends,
                  size_t upper_ends_len, uint32_t *cells, size_t cells_len, size_t *count);

/* Sets a desk's watch of n: desk two's for desk 2, desk one's for any other number. A join (33, 35) for
   each position of its list is written to out, *count bytes. Refusals: BQB_SETTINGS, BQB_SHORT_LOAN,
   BQB_TORN, BQB_WINDOW_SIZE, BQB_ALREADY_WATCHED, BQB_NO_FREE_RECORD, BQB_SHORT_OUTPUT. */
uint32_t bqb_set_watch(const bqb_head *head, uint32_t desk, uint32_t n, const uint32_t *columns,
                   size_t columns_len, const uint32_t *positions, size_t positions_len,
                   const uint32_t *lower_ends, size_t lower_ends_len, const uint32_t *upper_ends,
                   size_t upper_ends_len, bqb_watch *watches, size_t watch_cells,
                   uint8_t *out, size_t out_len, size_t *count);

/* Ends a desk's watch of n; the desk is read as by bqb_set_watch. Refusals: BQB_SETTINGS, BQB_SHORT_LOAN,
   BQB_TORN, BQB_WINDOW_SIZE, BQB_NOT_WATCHED. */
uint32_t bqb_end_watch(const bqb_head *head, uint32_t desk, uint32_t n, const uint32_t *columns,
                 size_t columns_len, const uint32_t *positions, size_t positions_len,
                 const uint32_t *lower_ends, size_t lower_ends_len, const uint32_t *upper_ends,
                 size_t upper_ends_len, bqb_watch *watches, size_t watch_cells);

/* Sets the watch of the pair n1, n2, of which there is one in a book: *head has it from then on. A join
   (37) for each position of its past list is written to out, *count bytes. Refusals: BQB_SETTINGS,
   BQB_SHORT_LOAN, BQB_TORN, BQB_WINDOW_SIZE, BQB_WINDOW_ORDER, BQB_NO_FREE_RECORD,
   BQB_SHORT_OUTPUT. */
uint32_t bqb_set_pair(bqb_head *head, uint32_t n1, uint32_t n2, const uint32_t *columns,
                  size_t columns_len, const uint32_t *positions, size_t positions_len,
                  const uint32_t *lower_ends, size_t lower_ends_len, const uint32_t *upper_ends,
                  size_t upper_ends_len, const bqb_watch *watches, size_t watch_cells,
                  uint8_t *out, size_t out_len, size_t *count);

/* Ends the watch of the pair: *head has 0 and 0 for it. Refusals: BQB_SETTINGS, BQB_SHORT_LOAN,
   BQB_TORN, BQB_NOT_WATCHED. */
uint32_t bqb_end_pair(bqb_head *head, const uint32_t *columns, size_t columns_len,
                    const uint32_t *positions, size_t positions_len, const uint32_t *lower_ends,
                    size_t lower_ends_len, const uint32_t *upper_ends, size_t upper_ends_len,
                    const bqb_watch *watches, size_t watch_cells);

/* Writes of each row that is due for the head's pair, oldest first, two cells: its position, and after
   how many more quotes it joins the past list. *count is the number of rows; none where no pair is
   watched. Refusals: BQB_SETTINGS, BQB_SHORT_LOAN, BQB_TORN, BQB_SHORT_OUTPUT. */
uint32_t bqb_due(const bqb_head *head, const uint32_t *columns, size_t columns_len,
                 const uint32_t *positions, size_t positions_len, const uint32_t *lower_ends,
                 size_t lower_ends_len, const uint32_t *upper_ends, size_t upper_ends_len,
                 uint32_t *cells, size_t cells_len, size_t *count);

/* The audit of a saved book: *passes is 1 exactly if some M quotes, fed to an opening with this head's
   settings, leave exactly this M, these counts and these N places of each table; else 0. Watches and
   pair are no part of it. Refusals: BQB_SETTINGS, BQB_SHORT_LOAN. */
uint32_t bqb_audit(const bqb_head *head, const uint32_t *columns, size_t columns_len,
                   const uint32_t *positions, size_t positions_len, const uint32_t *lower_ends,
                   size_t lower_ends_len, const uint32_t *upper_ends, size_t upper_ends_len,
                   uint32_t *passes);

/* ---- Frames and tapes */

/* Reads the frame at *place of a tape into *frame and moves *place past it. At the end of the tape,
   *place equal to its length, it is accepted with a kind of 0, which no frame has, and *place stays.
   Values are judged by the call that they are handed to. Refusals: BQB_CUT (the place is beyond the
   end), BQB_UNKNOWN_KIND, BQB_CUT. More of a tape may follow: after a BQB_CUT inside it read more and
   ask again. */
uint32_t bqb_read(const uint8_t *tape, size_t tape_len, size_t *place, bqb_frame *frame);

/* Writes a frame to out, *count bytes. Refusals: BQB_UNKNOWN_KIND, BQB_SHORT_OUTPUT. */
uint32_t bqb_write(const bqb_frame *frame, uint8_t *out, size_t out_len, size_t *count);

/* Plays the frame at turn->place of a tape: reads it, makes its call on the book, and lays its lines
   into text, as the tape printer prints them; text is not ended by a 0. turn->place is then behind
   the frame, turn->count the bytes of text, and turn->over is 1 at the end of the tape (no text) and
   after BQB_UNKNOWN_KIND or BQB_CUT, behind which nothing can be read. The number is the frame's
   own, as its line `R number` says it: a frame that is read and refused moves the place and has
   text. bytes has the changes as frames. Refusals: those of bqb_read, then BQB_OUT_OF_PLACE, then
   those of the call. Exactly so many cells must be lent: watches[BQB_WATCHES],
   bytes[BQB_CHANGE_BYTES], text[BQB_TEXT_BYTES]. */
uint32_t bqb_play(const uint8_t *tape, size_t tape_len, bqb_turn *turn, bqb_head *head,
                  uint32_t *columns, size_t columns_len, uint32_t *positions, size_t positions_len,
                  uint32_t *lower_ends, size_t lower_ends_len, uint32_t *upper_ends,
                  size_t upper_ends_len, bqb_watch *watches, uint8_t *bytes, uint8_t *text);

#ifdef __cplusplus
}
#endif

#endif
