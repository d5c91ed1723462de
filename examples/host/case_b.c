/* Case B through the four searches, from the two records to the previewer's lines, and then a call that is refused. */
#include <rutlark.h>
#include <stdio.h>

static const uint8_t query[] = {0, 0, 0, 5, 1, 0, 0, 4, 0};

static const uint8_t lists[] = {
    0, 0, 0, 0x46, 1, 3, 0, 5, 0, 1, 0, 1, 0, 1,
    0, 0, 0, 0x1E, 0, 1, 0, 0x1C, 0, 2, 0, 0x1B, 0, 3, 0, 0x0A, 0, 4, 0, 0x05,
    0, 1, 0, 0x1D, 0, 2, 0, 0x1A, 0, 0, 0, 0x19, 0, 4, 0, 0x0C, 0, 3, 0, 0x08,
    0, 2, 0, 0x1E, 0, 0, 0, 0x1B, 0, 1, 0, 0x18, 0, 3, 0, 0x09, 0, 4, 0, 0x03};

/* The four searches are of one type. */
typedef uint32_t search(size_t, size_t, const uint16_t *, size_t, const uint16_t *, size_t, uint8_t, size_t, const uint8_t *,
                        size_t, uint16_t *, size_t, uint32_t *, size_t, uint32_t *, size_t, uint8_t *, size_t, uint16_t *,
                        size_t, uint32_t[7]);

enum { MOST = 15 };

int main(void) {
    static const char *const names[] = {"TA", "BPA", "BPA2", "NRA"};
    static search *const searches[] = {rutlark_ta, rutlark_bpa, rutlark_bpa2, rutlark_nra};
    uint16_t items[MOST], scores[MOST], picks[MOST], work[MOST];
    uint32_t lows[MOST], highs[MOST], told[7];
    uint8_t tally[MOST];
    size_t asked[5], sizes[3], part[3];

    if (rutlark_read_query(query, sizeof query, asked) != RUTLARK_ACCEPTED) {
        return 1;
    }
    if (rutlark_read_lists(lists, sizeof lists, items, MOST, scores, MOST, sizes) != RUTLARK_ACCEPTED) {
        return 1;
    }
    rutlark_chosen_weights(query, sizeof query, lists, sizeof lists, part);
    const uint8_t *const weights = (part[0] ? lists : query) + part[1];
    const uint8_t rule = (uint8_t)asked[1];
    const size_t k = asked[2], m = sizes[1], n = sizes[2];

    for (int s = 0; s < 4; s++) {
        if (searches[s](m, n, items, MOST, scores, MOST, rule, k, weights, part[2], picks, MOST, lows, MOST, highs, MOST, tally,
                        MOST, work, MOST, told) != RUTLARK_ACCEPTED) {
            return 1;
        }
        printf("%s %u %u %u %u", names[s], (unsigned)told[RUTLARK_ROWS], (unsigned)told[RUTLARK_SORTED],
               (unsigned)told[RUTLARK_DIRECT], (unsigned)told[RUTLARK_RANDOM]);
        for (size_t i = 0; i < k; i++) {
            printf(" %u:%u:%u", (unsigned)picks[i], (unsigned)lows[i], (unsigned)highs[i]);
        }
        printf("\n");
    }

    /* List 2 has its first item once more at position 2. */
    items[n + 1] = items[n];
    if (rutlark_ta(m, n, items, MOST, scores, MOST, rule, k, weights, part[2], picks, MOST, lows, MOST, highs, MOST, tally,
                   MOST, work, MOST, told) != RUTLARK_ITEM_TWICE) {
        return 1;
    }
    printf("REFUSED %u %u %u\n", (unsigned)told[RUTLARK_NUMBER], (unsigned)told[RUTLARK_LIST],
           (unsigned)told[RUTLARK_POSITION]);
    return 0;
}
