/* Makes the calls that stand on standard input, with the proved and compiled library, and writes what each one returned and
 * every byte of every slice that it was lent, written or not. `reference compare` sends the calls and judges the answers; this
 * program knows nothing of what is right.
 *
 * Each slice is lent out of memory of its own between two inaccessible parts, flush against the one or the other: a read or write
 * outside the slice on that side ends the program. On the open side lies a pattern, and the answer says whether it stayed.
 *
 * A call, numbers low byte first: function (1 byte), rule (1), for each slice a bit that is set where its end lies flush (2),
 * m, n, k (8 each); then each slice in the order of the function's arguments, the array of told numbers last: its length in bytes
 * (4) and what it holds.
 * An answer: what was returned (8 bytes), for each slice a bit that is set where the pattern beside it changed (8), and the bytes
 * of all slices in the same order, without lengths.
 *
 * Status 0 where the input ends after a call, 2 where it is no sequence of calls. C99 without headers: a compiler for another
 * machine may have none. With WRONG_HIGHS, WRITES_BEHIND or READS_BEHIND defined it has a fault that must be caught.
 */
typedef __SIZE_TYPE__ size_t;
typedef __UINT8_TYPE__ uint8_t;
typedef __UINT16_TYPE__ uint16_t;
typedef __UINT32_TYPE__ uint32_t;
typedef __UINT64_TYPE__ uint64_t;

/* Of the C library on Linux. */
extern void *mmap(void *at, size_t size, int access, int flags, int file, long offset);
extern int mprotect(void *at, size_t size, int access);
extern long read(int file, void *to, size_t size);
extern long write(int file, const void *from, size_t size);
extern void _exit(int status);
enum { NO_ACCESS = 0, READ_AND_WRITE = 3, PRIVATE_AND_ANONYMOUS = 0x22 };

/* Of the library. */
typedef uint32_t search(size_t m, size_t n, const uint16_t *items, size_t items_len, const uint16_t *scores, size_t scores_len,
                        uint8_t rule, size_t k, const uint8_t *weights, size_t weights_len, uint16_t *picks, size_t picks_len,
                        uint32_t *lows, size_t lows_len, uint32_t *highs, size_t highs_len, uint8_t *tally, size_t tally_len,
                        uint16_t *work, size_t work_len, uint32_t *told);
extern search rutlark_ta, rutlark_bpa, rutlark_bpa2, rutlark_nra;
extern uint32_t rutlark_check_lists(size_t m, size_t n, const uint16_t *items, size_t items_len, const uint16_t *scores,
                                    size_t scores_len, uint16_t *work, size_t work_len, uint32_t *told);
extern uint32_t rutlark_read_query(const uint8_t *bytes, size_t bytes_len, size_t *told);
extern uint32_t rutlark_read_lists(const uint8_t *bytes, size_t bytes_len, uint16_t *items, size_t items_len, uint16_t *scores,
                                   size_t scores_len, size_t *told);
extern size_t rutlark_chosen_weights(const uint8_t *query, size_t query_len, const uint8_t *lists, size_t lists_len,
                                     size_t *told);

enum { TA, BPA, BPA2, NRA, CHECK_LISTS, READ_QUERY, READ_LISTS, CHOSEN_WEIGHTS, FUNCTIONS };
enum { MOST_SLICES = 9 };

/* The bytes of an element of each slice, a digit each, and of the array of told numbers as a whole. */
static const char *const elements[FUNCTIONS] = {"221244124", "221244124", "221244124", "221244124", "2224", "18", "1228", "118"};
static const uint32_t told_bytes[FUNCTIONS] = {28, 28, 28, 28, 12, 40, 24, 24};

/* Each slice has a room; rooms and the closed parts around them are whole pages on every machine. */
enum { ROOM = 1 << 16, BESIDE = 64 };
static const uint8_t PATTERN = 0xA5;
static uint8_t *rooms[MOST_SLICES];

struct slice {
    void *at;
    size_t len;   /* in elements */
    size_t bytes;
    uint8_t *beside;
};

struct call {
    uint8_t function, rule;
    size_t m, n, k;
    unsigned count;
    struct slice slices[MOST_SLICES];
};

static uint8_t input[1 << 16], output[1 << 16];
static size_t input_at, input_end, output_end;

static void flush(void)
{
    size_t at = 0;
    while (at < output_end) {
        long wrote = write(1, output + at, output_end - at);
        if (wrote <= 0)
            _exit(2);
        at += (size_t)wrote;
    }
    output_end = 0;
}

static void give(const void *from, size_t size)
{
    const uint8_t *bytes = from;
    while (size > 0) {
        size_t part = sizeof output - output_end;
        if (part > size)
            part = size;
        __builtin_memcpy(output + output_end, bytes, part);
        output_end += part;
        bytes += part;
        size -= part;
        if (output_end == sizeof output)
            flush();
    }
}

/* Whether there is a byte to take. All answers are out before the program waits for calls. */
static int more(void)
{
    if (input_at == input_end) {
        long got;
        flush();
        got = read(0, input, sizeof input);
        if (got < 0)
            _exit(2);
        input_at = 0;
        input_end = (size_t)got;
    }
    return input_at < input_end;
}

static void take(void *to, size_t size)
{
    uint8_t *bytes = to;
    while (size > 0) {
        size_t part;
        if (!more())
            _exit(2);
        part = input_end - input_at;
        if (part > size)
            part = size;
        __builtin_memcpy(bytes, input + input_at, part);
        input_at += part;
        bytes += part;
        size -= part;
    }
}

static void make_rooms(void)
{
    int i;
    for (i = 0; i < MOST_SLICES; i++) {
        uint8_t *at = mmap(0, 3 * (size_t)ROOM, NO_ACCESS, PRIVATE_AND_ANONYMOUS, -1, 0);
        if (at == (uint8_t *)-1 || mprotect(at + ROOM, ROOM, READ_AND_WRITE) != 0)
            _exit(2);
        rooms[i] = at + ROOM;
    }
}

static struct slice take_slice(uint8_t *room, size_t element, int at_end)
{
    struct slice slice;
    uint32_t bytes;
    uint8_t *at;
    take(&bytes, sizeof bytes);
    if (bytes > ROOM - BESIDE || bytes % element != 0)
        _exit(2);
    at = at_end ? room + ROOM - bytes : room;
    take(at, bytes);
    slice.at = at;
    slice.bytes = bytes;
    slice.len = bytes / element;
    slice.beside = at_end ? at - BESIDE : at + bytes;
    __builtin_memset(slice.beside, PATTERN, BESIDE);
    return slice;
}

static struct call take_call(void)
{
    struct call call;
    uint8_t which[2];
    uint16_t at_ends;
    unsigned i;
    take(which, sizeof which);
    take(&at_ends, sizeof at_ends);
    take(&call.m, sizeof call.m);
    take(&call.n, sizeof call.n);
    take(&call.k, sizeof call.k);
    if (which[0] >= FUNCTIONS)
        _exit(2);
    call.function = which[0];
    call.rule = which[1];
    for (i = 0; elements[call.function][i] != 0; i++)
        call.slices[i] = take_slice(rooms[i], (size_t)(elements[call.function][i] - '0'), at_ends >> i & 1);
    call.count = i;
    if (call.slices[i - 1].bytes != told_bytes[call.function])
        _exit(2);
    return call;
}

static uint64_t searched(search *by, const struct call *call)
{
    const struct slice *s = call->slices;
    uint32_t number = by(call->m, call->n, s[0].at, s[0].len, s[1].at, s[1].len, call->rule, call->k, s[2].at, s[2].len, s[3].at,
                         s[3].len, s[4].at, s[4].len, s[5].at, s[5].len, s[6].at, s[6].len, s[7].at, s[7].len, s[8].at);
#ifdef WRONG_HIGHS
    if (number == 0 && call->k > 1)
        ((uint32_t *)s[5].at)[0] = ((uint32_t *)s[4].at)[1];
#endif
#ifdef WRITES_BEHIND
    if (number == 0)
        ((volatile uint8_t *)s[6].at)[s[6].len] = 1;
#endif
#ifdef READS_BEHIND
    if (number == 0)
        (void)((volatile uint8_t *)s[6].at)[s[6].len];
#endif
    return number;
}

static uint64_t made(const struct call *call)
{
    const struct slice *s = call->slices;
    switch (call->function) {
    case TA:
        return searched(rutlark_ta, call);
    case BPA:
        return searched(rutlark_bpa, call);
    case BPA2:
        return searched(rutlark_bpa2, call);
    case NRA:
        return searched(rutlark_nra, call);
    case CHECK_LISTS:
        return rutlark_check_lists(call->m, call->n, s[0].at, s[0].len, s[1].at, s[1].len, s[2].at, s[2].len, s[3].at);
    case READ_QUERY:
        return rutlark_read_query(s[0].at, s[0].len, s[1].at);
    case READ_LISTS:
        return rutlark_read_lists(s[0].at, s[0].len, s[1].at, s[1].len, s[2].at, s[2].len, s[3].at);
    default:
        return rutlark_chosen_weights(s[0].at, s[0].len, s[1].at, s[1].len, s[2].at);
    }
}

static int changed_beside(const struct slice *slice)
{
    int i;
    for (i = 0; i < BESIDE; i++)
        if (slice->beside[i] != PATTERN)
            return 1;
    return 0;
}

static void give_answer(const struct call *call, uint64_t returned)
{
    uint64_t changed = 0;
    unsigned i;
    for (i = 0; i < call->count; i++)
        changed |= (uint64_t)changed_beside(&call->slices[i]) << i;
    give(&returned, sizeof returned);
    give(&changed, sizeof changed);
    for (i = 0; i < call->count; i++)
        give(call->slices[i].at, call->slices[i].bytes);
}

int main(void)
{
    make_rooms();
    while (more()) {
        struct call call = take_call();
        give_answer(&call, made(&call));
    }
    return 0;
}
