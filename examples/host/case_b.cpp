// Case B through the four searches, from the two records to the previewer's lines, and then a call that is refused.
#include <rutlark.h>

#include <array>
#include <cstdint>
#include <cstdio>

namespace {

const std::array<std::uint8_t, 9> query = {{0, 0, 0, 5, 1, 0, 0, 4, 0}};

const std::array<std::uint8_t, 74> lists = {{
    0, 0, 0, 0x46, 1, 3, 0, 5, 0, 1, 0, 1, 0, 1,
    0, 0, 0, 0x1E, 0, 1, 0, 0x1C, 0, 2, 0, 0x1B, 0, 3, 0, 0x0A, 0, 4, 0, 0x05,
    0, 1, 0, 0x1D, 0, 2, 0, 0x1A, 0, 0, 0, 0x19, 0, 4, 0, 0x0C, 0, 3, 0, 0x08,
    0, 2, 0, 0x1E, 0, 0, 0, 0x1B, 0, 1, 0, 0x18, 0, 3, 0, 0x09, 0, 4, 0, 0x03}};

constexpr std::size_t most = 15;

// All that a search is lent, and what it leaves there.
struct Room {
    std::array<std::uint16_t, most> items, scores, picks, work;
    std::array<std::uint32_t, most> lows, highs;
    std::array<std::uint8_t, most> tally;
    std::array<std::uint32_t, 7> told;
};

struct Query {
    std::uint8_t rule;
    std::size_t k, m, n;
    const std::uint8_t *weights;
    std::size_t weights_len;
};

using Search = decltype(rutlark_ta);

std::uint32_t run(Search &search, const Query &q, Room &r) {
    return search(q.m, q.n, r.items.data(), r.items.size(), r.scores.data(), r.scores.size(), q.rule, q.k, q.weights,
                  q.weights_len, r.picks.data(), r.picks.size(), r.lows.data(), r.lows.size(), r.highs.data(), r.highs.size(),
                  r.tally.data(), r.tally.size(), r.work.data(), r.work.size(), r.told.data());
}

unsigned told(const Room &r, rutlark_told which) { return r.told[which]; }

bool print(const char *name, Search &search, const Query &q, Room &r) {
    if (run(search, q, r) != RUTLARK_ACCEPTED) {
        return false;
    }
    std::printf("%s %u %u %u %u", name, told(r, RUTLARK_ROWS), told(r, RUTLARK_SORTED), told(r, RUTLARK_DIRECT),
                told(r, RUTLARK_RANDOM));
    for (std::size_t i = 0; i < q.k; i++) {
        std::printf(" %u:%u:%u", unsigned{r.picks[i]}, unsigned{r.lows[i]}, unsigned{r.highs[i]});
    }
    std::printf("\n");
    return true;
}

}  // namespace

int main() {
    Room r;
    std::array<std::size_t, 5> asked;
    std::array<std::size_t, 3> sizes, part;
    if (rutlark_read_query(query.data(), query.size(), asked.data()) != RUTLARK_ACCEPTED) {
        return 1;
    }
    if (rutlark_read_lists(lists.data(), lists.size(), r.items.data(), most, r.scores.data(), most, sizes.data()) !=
        RUTLARK_ACCEPTED) {
        return 1;
    }
    rutlark_chosen_weights(query.data(), query.size(), lists.data(), lists.size(), part.data());
    const Query q = {static_cast<std::uint8_t>(asked[1]), asked[2], sizes[1], sizes[2],
                     (part[0] ? lists.data() : query.data()) + part[1], part[2]};
    if (!print("TA", rutlark_ta, q, r) || !print("BPA", rutlark_bpa, q, r) || !print("BPA2", rutlark_bpa2, q, r) ||
        !print("NRA", rutlark_nra, q, r)) {
        return 1;
    }
    r.items[q.n + 1] = r.items[q.n];  // list 2 has its first item once more at position 2
    if (run(rutlark_ta, q, r) != RUTLARK_ITEM_TWICE) {
        return 1;
    }
    std::printf("REFUSED %u %u %u\n", told(r, RUTLARK_NUMBER), told(r, RUTLARK_LIST), told(r, RUTLARK_POSITION));
    return 0;
}
