/* The best-quote book for a C host: the check of a frame and the comparison of two quote frames.

   Link with libbest_quote.a, which `make install` puts beside this header, or with what it is a copy
   of, crates/host/out/libhost.a, which `make host` leaves (x86-64 Linux).

   Both functions are pure: they read the bytes they are given, keep nothing, write nothing and
   allocate nothing. Any number of threads may call them at once. The caller owns every buffer; a
   buffer must stay unchanged while the call runs and may be freed when it returns. A pointer must
   not be null, not even where its length is 0: point at any byte then.

   A frame is one byte of kind and a body whose length the kind fixes. Bytes behind a whole frame
   are ignored. A frame whose body runs past the end is cut; so is an empty slice.

     kind     body bytes   meaning
     1 to 6   4 * kind     a quote with that many columns, each little-endian, 0 to 4294967295
     16       2            look: the list of n
     17       2            desk one: watch n
     18       2            desk one: end the watch of n
     19       2            desk two: watch n
     20       2            desk two: end the watch of n
     21       4            watch the pair n1 (2), n2 (2)
     22       0            end the watch of the pair
     23       4            past look: the past list of n1 (2), n2 (2)
     32       6            change for desk one: n (2), position (4) leaves
     33       6            change for desk one: n (2), position (4) joins
     34       6            change for desk two: n (2), position (4) leaves
     35       6            change for desk two: n (2), position (4) joins
     36       4            change of the pair: position (4) leaves
     37       4            change of the pair: position (4) joins
     40       4            stamp of a venue's tape: milliseconds of the day (4)
     48       4            open: d (1), N (2), directions (1)                                    */
#ifndef BEST_QUOTE_H
#define BEST_QUOTE_H

#include <stddef.h>
#include <stdint.h>

/* What bqb_check_frame answers. */
#define BQB_WHOLE 0u        /* a whole frame stands at the start of the bytes */
#define BQB_UNKNOWN_KIND 1u /* there is a first byte and it is no kind of the table */
#define BQB_CUT 2u          /* no byte at all, or a known kind whose body runs past the end */

/* What bqb_compare_quotes answers; BQB_CUT is one of its refusals.

   For a host that tested 100 and 101: the comparison had two answers, 100 for 'the first beats the
   second' (BQB_BEATS) and 101 for 'it does not' (BQB_BEATS_NOT). It now has four. 100 means what it
   meant and is BQB_FIRST_BETTER. 101 means something else: the second is better. What was 101
   is now 101, 102 or 103, so a test `answer == 101` for 'does not beat' has to become
   `answer >= BQB_SECOND_BETTER`; refusals are below 100, as before. The two old names are gone, so
   that code which used them does not compile until it was looked at. */
#define BQB_DIRECTIONS 3u      /* a direction bit at the number of columns or above is set */
#define BQB_KINDS 4u           /* the kinds differ, or are not quotes of 1 to 6 columns */
#define BQB_FIRST_BETTER 100u  /* the first is no worse in every column and better in at least one */
#define BQB_SECOND_BETTER 101u /* the second is no worse in every column and better in at least one */
#define BQB_EQUAL 102u         /* the two are equal in every column */
#define BQB_NEITHER 103u       /* each is better in some column */

/* Checks that a whole frame stands at the start of frame: BQB_WHOLE, BQB_UNKNOWN_KIND or BQB_CUT. */
uint32_t bqb_check_frame(const uint8_t *frame, size_t frame_len);

/* Compares two quote frames. Bit i of directions, worth 2 to the power i, stands for column i,
   counted from 0: set means higher is better, clear means lower is better. The answer speaks of
   the columns alone: that in a book the later of two equal quotes beats the earlier is for the
   caller to apply. Refusals, the first that applies: BQB_CUT (either frame is cut), BQB_KINDS,
   BQB_DIRECTIONS. */
uint32_t bqb_compare_quotes(const uint8_t *first, size_t first_len, const uint8_t *second,
                            size_t second_len, uint8_t directions);

#endif
