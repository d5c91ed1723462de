/* Calls one function, of the proved library or of its twins in safe Rust, on the pose set that stands on standard input.
 *
 *   driver K calls FUNCTION N    makes N calls
 *   driver K time FUNCTION       prints the least nanoseconds that a call took, as the mean of many calls in a row
 *   driver K same                makes each call by the proved function and by its twins; names the first that differ in any byte
 *
 * The set is m and n (8 bytes each), then the items and the scores, list by list (2 bytes each), low byte first. The rule is the sum,
 * every weight 1. Status 1 where two differ, 2 where it is called wrongly. C99 without headers.
 */
typedef __SIZE_TYPE__ size_t;
typedef __UINT8_TYPE__ uint8_t;
typedef __UINT16_TYPE__ uint16_t;
typedef __UINT32_TYPE__ uint32_t;
typedef __UINT64_TYPE__ uint64_t;

/* Of the C library on Linux. */
struct moment {
    long seconds, nanoseconds;
};
extern int clock_gettime(int clock, struct moment *now);
extern long read(int file, void *to, size_t size);
extern int printf(const char *form, ...);
extern int strcmp(const char *a, const char *b);
extern int memcmp(const void *a, const void *b, size_t size);
extern void *memset(void *at, int byte, size_t size);
extern int atoi(const char *text);
enum { MONOTONIC = 1 };

typedef uint32_t search(size_t m, size_t n, const uint16_t *items, size_t items_len, const uint16_t *scores, size_t scores_len,
                        uint8_t rule, size_t k, const uint8_t *weights, size_t weights_len, uint16_t *picks, size_t picks_len,
                        uint32_t *lows, size_t lows_len, uint32_t *highs, size_t highs_len, uint8_t *tally, size_t tally_len,
                        uint16_t *work, size_t work_len, uint32_t *told);
typedef uint32_t check(size_t m, size_t n, const uint16_t *items, size_t items_len, const uint16_t *scores, size_t scores_len,
                       uint16_t *work, size_t work_len, uint32_t *told);
extern search rutlark_ta, rutlark_bpa, rutlark_bpa2, rutlark_nra;
extern search plain_ta, plain_bpa, plain_bpa2, plain_nra, plain_nra_recomputed, plain_nra_where_asked, plain_scan;
extern check rutlark_check_lists, plain_check_lists;

enum { MOST_LISTS = 8, MOST_ITEMS = 1024, MOST = MOST_LISTS * MOST_ITEMS };

struct function {
    const char *name;
    search *search;
    check *check;
};
static const struct function functions[] = {
    {"rutlark_check_lists", 0, rutlark_check_lists},
    {"plain_check_lists", 0, plain_check_lists},
    {"rutlark_ta", rutlark_ta, 0},
    {"plain_ta", plain_ta, 0},
    {"rutlark_bpa", rutlark_bpa, 0},
    {"plain_bpa", plain_bpa, 0},
    {"rutlark_bpa2", rutlark_bpa2, 0},
    {"plain_bpa2", plain_bpa2, 0},
    {"rutlark_nra", rutlark_nra, 0},
    {"plain_nra", plain_nra, 0},
    /* NRA once more, and what has no proved twin. */
    {"plain_nra_recomputed", plain_nra_recomputed, 0},
    {"plain_nra_where_asked", plain_nra_where_asked, 0},
    {"plain_scan", plain_scan, 0},
};
enum { TWINS = 5, NRA = 8, FUNCTIONS = sizeof functions / sizeof *functions, SCAN = FUNCTIONS - 1 };

static size_t m, n, k;
static uint16_t items[MOST], scores[MOST];
static uint8_t weights[2 * MOST_LISTS];

/* All that a call writes. */
struct written {
    uint32_t told[7], lows[MOST_ITEMS], highs[MOST_ITEMS];
    uint16_t picks[MOST_ITEMS], work[MOST];
    uint8_t tally[MOST];
};
static struct written one, other;

static uint32_t call(const struct function *f, struct written *to)
{
    if (f->check)
        return f->check(m, n, items, m * n, scores, m * n, to->work, m * n, to->told);
    return f->search(m, n, items, m * n, scores, m * n, 0, k, weights, 2 * m, to->picks, k, to->lows, k, to->highs, k, to->tally, m * n,
                     to->work, m * n, to->told);
}

static int read_whole(void *to, size_t size)
{
    uint8_t *at = to;
    while (size > 0) {
        long got = read(0, at, size);
        if (got <= 0)
            return 0;
        at += got;
        size -= got;
    }
    return 1;
}

static int read_set(void)
{
    uint64_t sizes[2];
    if (!read_whole(sizes, sizeof sizes) || sizes[0] > MOST_LISTS || sizes[1] > MOST_ITEMS)
        return 0;
    m = sizes[0];
    n = sizes[1];
    for (size_t i = 0; i < m; i++)
        weights[2 * i + 1] = 1;
    return read_whole(items, 2 * m * n) && read_whole(scores, 2 * m * n);
}

static int differ(const struct function *a, const struct function *b)
{
    memset(&one, 0xA5, sizeof one);
    memset(&other, 0xA5, sizeof other);
    if (call(a, &one) == call(b, &other) && !memcmp(&one, &other, sizeof one))
        return 0;
    printf("%s and %s differ\n", a->name, b->name);
    return 1;
}

static int same(void)
{
    for (int i = 0; i < TWINS; i++)
        if (differ(&functions[2 * i], &functions[2 * i + 1]))
            return 1;
    for (int i = 2 * TWINS; i < SCAN; i++)
        if (differ(&functions[NRA], &functions[i]))
            return 1;
    return 0;
}

static double seconds_of(const struct function *f, int calls)
{
    struct moment from, to;
    clock_gettime(MONOTONIC, &from);
    for (int i = 0; i < calls; i++)
        call(f, &one);
    clock_gettime(MONOTONIC, &to);
    return (to.seconds - from.seconds) + 1e-9 * (to.nanoseconds - from.nanoseconds);
}

static void time(const struct function *f)
{
    enum { RUNS = 20 };
    const double run = 0.001;
    int calls = 1;
    while (seconds_of(f, calls) < run)
        calls *= 2;
    double least = seconds_of(f, calls);
    for (int i = 1; i < RUNS; i++) {
        double now = seconds_of(f, calls);
        if (now < least)
            least = now;
    }
    printf("%.0f\n", 1e9 * least / calls);
}

int main(int count, char **words)
{
    if (count < 3 || !read_set())
        return 2;
    k = atoi(words[1]);
    if (!strcmp(words[2], "same"))
        return same();
    for (int i = 0; i < FUNCTIONS; i++) {
        if (count < 4 || strcmp(words[3], functions[i].name))
            continue;
        if (!strcmp(words[2], "time"))
            time(&functions[i]);
        for (int calls = count < 5 ? 0 : atoi(words[4]); calls > 0; calls--)
            call(&functions[i], &one);
        return 0;
    }
    return 2;
}
