/* Rutlark: the best k poses of a pose set, exactly, and proved to be.
 *
 * The static library exports the functions below and needs nothing but memset of the C library. What each one returns and
 * writes is proved to be what its definition says, for every input (docs/CONTRACTS.md). C checks nothing of what a caller
 * passes, so a caller answers for this:
 *   - A slice is a pointer and then its number of elements, `x` and `x_len`. The pointer is aligned for its type and not null,
 *     also where the number is 0, and as many elements may be read there, or written where it is not const.
 *   - What is written (not const) overlaps nothing else that is passed to the same call.
 *   - No other thread writes what a call reads, or reads or writes what it writes, while the call runs.
 * No size is assumed: a slice that is too short is refused by a number, and what lies behind the sizes named below is neither
 * looked at nor changed.
 *
 * No function allocates, has a global, or keeps a pointer: all are reentrant and may run in any number of threads at once.
 * A call needs less than 8 KiB of stack. It always ends.
 *
 * m is the number of lists (1 to 8), n the number of items (1 to 1,024), k the number of places asked for (1 to n). In both list
 * slices list i, position p stands at (i - 1) * n + p - 1. Items count from 0, lists and positions from 1.
 */
#ifndef RUTLARK_H
#define RUTLARK_H

#include <stddef.h>
#include <stdint.h>

#define RUTLARK_VERSION_MAJOR 0
#define RUTLARK_VERSION_MINOR 1
#define RUTLARK_VERSION_PATCH 0

/* The greatest numbers of lists and items, and so of entries. */
#define RUTLARK_MOST_LISTS 8
#define RUTLARK_MOST_ITEMS 1024
#define RUTLARK_MOST_ENTRIES (RUTLARK_MOST_LISTS * RUTLARK_MOST_ITEMS)

#ifdef __cplusplus
extern "C" {
#endif

/* Why a call is refused. A search tests 1 to 6 in this order, then 7, 8, 9 list by list and position by position. */
enum rutlark_number {
    RUTLARK_ACCEPTED = 0,
    RUTLARK_WRONG_SIZE = 1,      /* m is not 1..8 or n not 1..1,024 */
    RUTLARK_WRONG_K = 2,         /* k is 0 or above n */
    RUTLARK_WRONG_RULE = 3,      /* rule above 2 */
    RUTLARK_WRONG_WEIGHTS = 4,   /* weights are not 2m bytes (big-endian pairs), or one is above 1,000 */
    RUTLARK_SHORT_LISTS = 5,     /* a list slice is shorter than m x n */
    RUTLARK_NO_ROOM = 6,         /* a slice to be written is too short: under k (shortlist) or m x n (tally, work, a read's two) */
    RUTLARK_ITEM_BEYOND = 7,     /* an item is n or more */
    RUTLARK_ITEM_TWICE = 8,      /* an item stood earlier in this list */
    RUTLARK_SCORE_RISES = 9,     /* a score is above the one before it in this list */
    RUTLARK_SHORT_HEAD = 10,     /* a record has too few bytes for its fixed head */
    RUTLARK_WRONG_LENGTH = 11,   /* lists: length differs from the bytes after it; a query: length runs past the input */
    RUTLARK_WRONG_VERSION = 12,  /* record version is not 1 */
    RUTLARK_WRONG_COUNTS = 13    /* record length doesn't fit its own counts */
};

/* How an item's overall score is made of its local scores, each times its list's weight. */
enum rutlark_rule {
    RUTLARK_SUM = 0,
    RUTLARK_SMALLEST = 1,
    RUTLARK_LARGEST = 2
};

/* Where each number stands in the `told` of a search; the list check's has the first three. */
enum rutlark_told {
    RUTLARK_NUMBER = 0,          /* 0, or the number of the refusal */
    RUTLARK_LIST = 1,            /* the list of a refusal by 7, 8 or 9, from 1; else 0 */
    RUTLARK_POSITION = 2,        /* its position, from 1; else 0 */
    RUTLARK_ROWS = 3,            /* rows, or rounds of BPA2; 0 where refused, as the three counts are */
    RUTLARK_SORTED = 4,          /* sorted accesses */
    RUTLARK_DIRECT = 5,          /* direct accesses */
    RUTLARK_RANDOM = 6           /* random accesses */
};

/* The four searches. They take and give the same, and differ in the accesses that they make.
 *   Read:     items and scores, m x n entries each; weights, 2m bytes: for each list a big-endian pair, at most 1,000.
 *   Written:  picks, lows, highs: k places each, the items found in their order with the bounds of each one's score (TA, BPA
 *             and BPA2: low and high are the score itself); tally: m x n bytes, how often each position was visited; work: m x n
 *             numbers, at (i - 1) * n + d the position of item d in list i; told: seven numbers, always all of them.
 *             Refused by 1 to 6, all slices stay as lent. Refused by 7 to 9, the first m x n entries of work are 0 and the
 *             other slices stay as lent. Places beyond the sizes named stay as lent.
 *   Returned: told[RUTLARK_NUMBER].
 */
uint32_t rutlark_ta(size_t m, size_t n, const uint16_t *items, size_t items_len, const uint16_t *scores, size_t scores_len,
                    uint8_t rule, size_t k, const uint8_t *weights, size_t weights_len, uint16_t *picks, size_t picks_len,
                    uint32_t *lows, size_t lows_len, uint32_t *highs, size_t highs_len, uint8_t *tally, size_t tally_len,
                    uint16_t *work, size_t work_len, uint32_t told[7]);

uint32_t rutlark_bpa(size_t m, size_t n, const uint16_t *items, size_t items_len, const uint16_t *scores, size_t scores_len,
                     uint8_t rule, size_t k, const uint8_t *weights, size_t weights_len, uint16_t *picks, size_t picks_len,
                     uint32_t *lows, size_t lows_len, uint32_t *highs, size_t highs_len, uint8_t *tally, size_t tally_len,
                     uint16_t *work, size_t work_len, uint32_t told[7]);

uint32_t rutlark_bpa2(size_t m, size_t n, const uint16_t *items, size_t items_len, const uint16_t *scores, size_t scores_len,
                      uint8_t rule, size_t k, const uint8_t *weights, size_t weights_len, uint16_t *picks, size_t picks_len,
                      uint32_t *lows, size_t lows_len, uint32_t *highs, size_t highs_len, uint8_t *tally, size_t tally_len,
                      uint16_t *work, size_t work_len, uint32_t told[7]);

uint32_t rutlark_nra(size_t m, size_t n, const uint16_t *items, size_t items_len, const uint16_t *scores, size_t scores_len,
                     uint8_t rule, size_t k, const uint8_t *weights, size_t weights_len, uint16_t *picks, size_t picks_len,
                     uint32_t *lows, size_t lows_len, uint32_t *highs, size_t highs_len, uint8_t *tally, size_t tally_len,
                     uint16_t *work, size_t work_len, uint32_t told[7]);

/* The list check by itself: tests 1, 5 and 6, then 7 to 9.
 *   Read:     items and scores, m x n entries each.
 *   Written:  work, m x n numbers, as a search leaves it; told: number, list, position, always all three.
 *   Returned: told[RUTLARK_NUMBER].
 */
uint32_t rutlark_check_lists(size_t m, size_t n, const uint16_t *items, size_t items_len, const uint16_t *scores,
                             size_t scores_len, uint16_t *work, size_t work_len, uint32_t told[3]);

/* The read of the query record at the start of bytes; other records may follow it. Tests 10, 12, 13, 11.
 *   Written:  told: number, rule, k, count of weights, bytes taken. Refused, the number alone, with all else 0.
 *             rule is one byte as the record has it, and goes to a search as a uint8_t.
 *   Returned: the number.
 */
uint32_t rutlark_read_query(const uint8_t *bytes, size_t bytes_len, size_t told[5]);

/* The read of the list record that bytes is. Tests 10, 11, 12, 1, 13, 6.
 *   Written:  items and scores, m x n entries each; told: number, m, n. Refused, both slices stay as lent and told is the
 *             number alone, with all else 0. Items, order and weight sizes are left to the search.
 *   Returned: the number.
 */
uint32_t rutlark_read_lists(const uint8_t *bytes, size_t bytes_len, uint16_t *items, size_t items_len, uint16_t *scores,
                            size_t scores_len, size_t told[3]);

/* The weights that a query is to be searched with: its own, or where it has none the house weights of the lists. They are a
 * part of the one record or the other, and nothing is copied.
 *   Read:     query, a query record that others may follow, and lists, a list record.
 *   Written:  told: 0 where the part is in query and 1 where it is in lists, where it starts, how many bytes it is. All 0 where
 *             either record is one that its read refuses (6 apart).
 *   Returned: how many bytes it is. The weights are (told[0] ? lists : query) + told[1], told[2].
 */
size_t rutlark_chosen_weights(const uint8_t *query, size_t query_len, const uint8_t *lists, size_t lists_len,
                              size_t told[3]);

#ifdef __cplusplus
}
#endif

#endif
