#!/usr/bin/env python3
"""The worked cases of document 01, computed by a program that shares nothing with the definitions.

Every search records its visits, access by access, and everything else (items met, best positions,
thresholds, counts, tally) is computed anew from that record after each row. This is slow and meant
to be: each function says one sentence of document 01 and keeps nothing for later.

Lists and positions count from one, items from zero, as in the document. A lent slice is an
ordinary Python list that the called function writes into.

    python3 reference/worked_rows.py

prints one block per case and search, then one block per refusal 1 to 9, and then checks the
statements that document 01 and VECTORS.md print. Exit status 1 names the first that does not hold.

    python3 reference/worked_rows.py --rows

prints each case and search as one line in the notation of the proved table, so that the table's
values can be held to this program's.
Records (refusals 10 to 13) and the previewer's program are not computed here.
"""

import sys
from dataclasses import dataclass

SEARCHES = ("TA", "BPA", "BPA2", "NRA")

# Written into every lent slice before a call, so that what stays as lent can be seen.
AS_LENT = 9


@dataclass
class Given:
    """What a search is given: the lent lists and the query. Weights are big-endian pairs of bytes."""

    m: int
    n: int
    items: list
    scores: list
    rule: int
    k: int
    weights: bytes


@dataclass
class Lent:
    """The slices a search writes."""

    shortlist_items: list
    shortlist_lows: list
    shortlist_highs: list
    tally: list
    work: list


@dataclass
class Answer:
    """What a search gives back beside the slices. A refusal has all numbers after position at 0."""

    number: int = 0
    list: int = 0
    position: int = 0
    rows: int = 0
    sorted: int = 0
    direct: int = 0
    random: int = 0


@dataclass(frozen=True)
class Visit:
    """One access: its kind ("sorted", "direct" or "random") and where it went."""

    kind: str
    list: int
    position: int


# ---------------------------------------------------------------- the lists and the query


def place(given, list_number, position):
    return (list_number - 1) * given.n + position - 1


def item_at(given, list_number, position):
    return given.items[place(given, list_number, position)]


def score_at(given, list_number, position):
    return given.scores[place(given, list_number, position)]


def all_lists(given):
    return range(1, given.m + 1)


def all_positions(given):
    return range(1, given.n + 1)


def position_of(given, list_number, item):
    for position in all_positions(given):
        if item_at(given, list_number, position) == item:
            return position
    raise AssertionError("every list holds every item once the list check has accepted")


def weights_of(given):
    pairs = range(0, len(given.weights), 2)
    return [int.from_bytes(given.weights[at:at + 2], "big") for at in pairs]


def overall(given, local_scores):
    """The rule over the m products, the local scores standing in list order."""
    products = [score * weight for score, weight in zip(local_scores, weights_of(given))]
    if given.rule == 0:
        return sum(products)
    if given.rule == 1:
        return min(products)
    return max(products)


def score_of(given, item):
    return overall(given, [score_at(given, i, position_of(given, i, item)) for i in all_lists(given)])


# ---------------------------------------------------------------- what the record of visits says


def items_met(given, visits):
    return {item_at(given, visit.list, visit.position) for visit in visits}


def is_visited(visits, list_number, position):
    return any(visit.list == list_number and visit.position == position for visit in visits)


def best_position(given, visits, list_number):
    """The largest b with all of 1 to b visited: the first gap ends it, however deep others went."""
    best = 0
    while best < given.n and is_visited(visits, list_number, best + 1):
        best += 1
    return best


def count_of(visits, kind):
    return sum(1 for visit in visits if visit.kind == kind)


def tally_of(given, visits):
    """How often each position was visited, list by list."""
    tally = []
    for i in all_lists(given):
        for p in all_positions(given):
            tally.append(sum(1 for visit in visits if visit.list == i and visit.position == p))
    return tally


# ---------------------------------------------------------------- TA, BPA and BPA2


def random_accesses(given, visits, found_in, item):
    """One in each other list, also for an item met before."""
    for i in all_lists(given):
        if i != found_in:
            visits.append(Visit("random", i, position_of(given, i, item)))


def row_with_random_accesses(given, visits, row):
    for i in all_lists(given):
        visits.append(Visit("sorted", i, row))
        random_accesses(given, visits, i, item_at(given, i, row))


def round_of_bpa2(given, visits):
    for i in all_lists(given):
        # Found here, inside the loop: the earlier lists of this round may have moved it.
        best = best_position(given, visits, i)
        if best == given.n:
            continue
        visits.append(Visit("direct", i, best + 1))
        random_accesses(given, visits, i, item_at(given, i, best + 1))


def threshold_at_row(given, row):
    return overall(given, [score_at(given, i, row) for i in all_lists(given)])


def threshold_at_best_positions(given, visits):
    bests = [best_position(given, visits, i) for i in all_lists(given)]
    return overall(given, [score_at(given, i, best) for i, best in zip(all_lists(given), bests)])


def met_by_score(given, visits):
    """(item, low, high) of all met items, by score falling, then item rising."""
    met = [(item, score_of(given, item), score_of(given, item)) for item in items_met(given, visits)]
    return sorted(met, key=lambda entry: (-entry[1], entry[0]))


def kth_best_reaches(given, visits, threshold):
    met = met_by_score(given, visits)
    return len(met) >= given.k and met[given.k - 1][1] >= threshold


def run_ta(given):
    visits = []
    for row in all_positions(given):
        row_with_random_accesses(given, visits, row)
        if kth_best_reaches(given, visits, threshold_at_row(given, row)):
            return row, visits, met_by_score(given, visits)[:given.k]
    raise AssertionError("TA stops at row n at the latest")


def run_bpa(given):
    visits = []
    for row in all_positions(given):
        row_with_random_accesses(given, visits, row)
        if kth_best_reaches(given, visits, threshold_at_best_positions(given, visits)):
            return row, visits, met_by_score(given, visits)[:given.k]
    raise AssertionError("BPA stops at row n at the latest")


def run_bpa2(given):
    visits = []
    for round_number in all_positions(given):
        round_of_bpa2(given, visits)
        if kth_best_reaches(given, visits, threshold_at_best_positions(given, visits)):
            return round_number, visits, met_by_score(given, visits)[:given.k]
    raise AssertionError("BPA2 stops at round n at the latest")


# ---------------------------------------------------------------- NRA


def low_and_high(given, visits, row, item):
    """Overall score with 0, and with the score at the row, for each local score not yet read."""
    for_low, for_high = [], []
    for i in all_lists(given):
        position = position_of(given, i, item)
        if is_visited(visits, i, position):
            for_low.append(score_at(given, i, position))
            for_high.append(score_at(given, i, position))
        else:
            for_low.append(0)
            for_high.append(score_at(given, i, row))
    return overall(given, for_low), overall(given, for_high)


def met_by_low(given, visits, row):
    """(item, low, high) of all met items, by low falling, then high falling, then item rising."""
    met = [(item, *low_and_high(given, visits, row, item)) for item in items_met(given, visits)]
    return sorted(met, key=lambda entry: (-entry[1], -entry[2], entry[0]))


def no_outsider_can_pass(given, visits, row):
    """The stop test of NRA. Going over the n items one by one considers the unmet ones as well, as
    long as there are any: for them nothing is read, so their high is the scores at the row."""
    kept = met_by_low(given, visits, row)[:given.k]
    if len(kept) < given.k:
        return False
    kept_items = [item for item, low, high in kept]
    lowest_low = min(low for item, low, high in kept)
    outside = [item for item in range(given.n) if item not in kept_items]
    return all(low_and_high(given, visits, row, item)[1] <= lowest_low for item in outside)


def run_nra(given):
    visits = []
    for row in all_positions(given):
        for i in all_lists(given):
            visits.append(Visit("sorted", i, row))
        if no_outsider_can_pass(given, visits, row):
            return row, visits, met_by_low(given, visits, row)[:given.k]
    raise AssertionError("NRA stops at row n at the latest")


def run(search_name, given):
    """Rows, the record of visits and the shortlist, for an input that no test refuses."""
    return {"TA": run_ta, "BPA": run_bpa, "BPA2": run_bpa2, "NRA": run_nra}[search_name](given)


# ---------------------------------------------------------------- the tests and the calls


def sizes_allowed(m, n):
    return 1 <= m <= 8 and 1 <= n <= 1024


def tests_1_to_6_of_a_search(given, lent):
    """The first number met, 0 for none."""
    size = given.m * given.n
    shortlist = (lent.shortlist_items, lent.shortlist_lows, lent.shortlist_highs)
    if not sizes_allowed(given.m, given.n):
        return 1
    if given.k == 0 or given.k > given.n:
        return 2
    if given.rule > 2:
        return 3
    if len(given.weights) != 2 * given.m or max(weights_of(given)) > 1000:
        return 4
    if len(given.items) < size or len(given.scores) < size:
        return 5
    if any(len(part) < given.k for part in shortlist) or len(lent.tally) < size or len(lent.work) < size:
        return 6
    return 0


def tests_7_to_9(m, n, items, scores):
    """(number, list, position) of the first fault in reading order, (0, 0, 0) for none."""
    for list_number in range(1, m + 1):
        start = (list_number - 1) * n
        for position in range(1, n + 1):
            here = start + position - 1
            if items[here] >= n:
                return 7, list_number, position
            if items[here] in items[start:here]:
                return 8, list_number, position
            if position > 1 and scores[here] > scores[here - 1]:
                return 9, list_number, position
    return 0, 0, 0


def list_check(m, n, items, scores, work):
    """The list check called by itself: (number, list, position), (0, 0, 0) when it accepts."""
    if not sizes_allowed(m, n):
        return 1, 0, 0
    if len(items) < m * n or len(scores) < m * n:
        return 5, 0, 0
    if len(work) < m * n:
        return 6, 0, 0
    refusal = tests_7_to_9(m, n, items, scores)
    for at in range(m * n):
        work[at] = 0
    if refusal == (0, 0, 0):
        for list_number in range(1, m + 1):
            for position in range(1, n + 1):
                item = items[(list_number - 1) * n + position - 1]
                work[(list_number - 1) * n + item] = position
    return refusal


def search(search_name, given, lent):
    """One call of a search: its answer, with the lent slices written or left as they were."""
    number = tests_1_to_6_of_a_search(given, lent)
    if number != 0:
        return Answer(number, 0, 0)
    refusal = list_check(given.m, given.n, given.items, given.scores, lent.work)
    if refusal != (0, 0, 0):
        return Answer(*refusal)
    rows, visits, shortlist = run(search_name, given)
    for at, (item, low, high) in enumerate(shortlist):
        lent.shortlist_items[at] = item
        lent.shortlist_lows[at] = low
        lent.shortlist_highs[at] = high
    for at, times in enumerate(tally_of(given, visits)):
        lent.tally[at] = times
    counts = [count_of(visits, kind) for kind in ("sorted", "direct", "random")]
    return Answer(0, 0, 0, rows, *counts)


# ---------------------------------------------------------------- the cases

LISTS_OF_B = ("0:30 1:28 2:27 3:10 4:5",
              "1:29 2:26 0:25 4:12 3:8",
              "2:30 0:27 1:24 3:9 4:3")
LISTS_OF_C = ("0:7",)
LISTS_OF_D = ("0:10 1:0",
              "1:10 0:0")
LISTS_OF_E = ("1:5 0:5",
              "1:5 0:5")
LISTS_OF_FIGURE_1 = ("0:30 3:28 8:27 2:26 6:25 7:23 4:17 5:14 1:11 9:10 10:0 11:0",
                     "1:28 5:27 6:25 4:24 8:23 0:21 7:20 2:14 3:13 11:12 9:0 10:0",
                     "2:30 4:29 7:28 3:25 1:24 5:19 10:15 0:14 8:12 6:11 9:0 11:0")
LISTS_OF_FIGURE_2 = ("0:30 3:28 8:27 2:26 6:25 7:24 9:17 5:14 1:11 4:10 10:0 11:0",
                     "1:28 5:27 6:25 4:24 8:23 0:22 11:20 2:14 3:13 7:12 9:0 10:0",
                     "2:30 4:29 7:28 3:27 1:26 5:25 10:15 0:13 8:12 6:11 9:0 11:0")
# After two rows items 0 and 1 have the same low and different highs: no set of document 01 shows NRA's second key.
LISTS_WITH_TIED_LOWS = ("0:10 2:5 1:0",
                        "1:10 2:3 0:0")
LISTS_OF_EXAMPLE_1 = ("1:95 0:92 4:89 2:88 3:87 5:86",
                      "2:95 3:90 5:88 1:87 0:87 4:85")


def weight_bytes(weights):
    return b"".join(weight.to_bytes(2, "big") for weight in weights)


def given_of(lists_as_text, rule, k, weight):
    """An input from lists written item:score, best first, with the same weight for every list."""
    entries = [entry.split(":") for text in lists_as_text for entry in text.split()]
    m = len(lists_as_text)
    items = [int(item) for item, score in entries]
    scores = [int(score) for item, score in entries]
    return Given(m, len(entries) // m, items, scores, rule, k, weight_bytes([weight] * m))


def case(name):
    """A fresh input each time, so that a damaged one never meets another case."""
    lists_rule_k_weight = {
        "A": (LISTS_OF_B, 0, 2, 1),
        "B": (LISTS_OF_B, 0, 4, 1),
        "C": (LISTS_OF_C, 0, 1, 3),
        "D": (LISTS_OF_D, 0, 2, 1),
        "E": (LISTS_OF_E, 0, 1, 1),
        "B rule 1 k 1": (LISTS_OF_B, 1, 1, 1),
        "B rule 2 k 1": (LISTS_OF_B, 2, 1, 1),
        "tied lows": (LISTS_WITH_TIED_LOWS, 0, 3, 1),
        "000 figure 1": (LISTS_OF_FIGURE_1, 0, 3, 1),
        "000 figure 2": (LISTS_OF_FIGURE_2, 0, 3, 1),
        "001 example 1": (LISTS_OF_EXAMPLE_1, 0, 2, 1),
    }
    return given_of(*lists_rule_k_weight[name])


CASES = ("A", "B", "C", "D", "E", "B rule 1 k 1", "B rule 2 k 1", "tied lows",
         "000 figure 1", "000 figure 2", "001 example 1")


def lend_for(given):
    """Slices two entries longer than needed, all as lent."""
    def lent_slice(length):
        return [AS_LENT] * (length + 2)

    size = given.m * given.n
    return Lent(lent_slice(given.k), lent_slice(given.k), lent_slice(given.k),
                lent_slice(size), lent_slice(size))


def damage(number, given, lent):
    """Makes one small change to case A that is refused by this number, and says it in words."""
    if number == 1:
        given.m = 9
        return "m is 9 instead of 3"
    if number == 2:
        given.k = 6
        return "k is 6 instead of 2, n being 5"
    if number == 3:
        given.rule = 3
        return "the rule is 3 instead of 0"
    if number == 4:
        given.weights = weight_bytes([1, 1001, 1])
        return "the weight of list 2 is 1001 instead of 1"
    if number == 5:
        given.scores.pop()
        return "the score slice has 14 entries instead of 15"
    if number == 6:
        lent.work = [AS_LENT] * 14
        return "the work slice has 14 entries instead of 17"
    if number == 7:
        given.items[place(given, 2, 3)] = 5
        return "list 2, position 3 holds item 5 instead of 0"
    if number == 8:
        given.items[place(given, 3, 2)] = 2
        return "list 3, position 2 holds item 2 again instead of 0"
    given.scores[place(given, 1, 4)] = 28
    return "list 1, position 4 has score 28 instead of 10, after a 27"


# ---------------------------------------------------------------- printing


def commas(numbers):
    return ",".join(str(number) for number in numbers)


def shortlist_text(given, lent):
    places = zip(lent.shortlist_items, lent.shortlist_lows, lent.shortlist_highs)
    return " ".join(f"{item}:{low}:{high}" for item, low, high in list(places)[:given.k])


def tally_text(given, lent):
    starts = [place(given, i, 1) for i in all_lists(given)]
    return " | ".join(commas(lent.tally[start:start + given.n]) for start in starts)


def print_case(name):
    for search_name in SEARCHES:
        given = case(name)
        lent = lend_for(given)
        answer = search(search_name, given, lent)
        print(f"case {name}, {search_name}: rows {answer.rows} sorted {answer.sorted} "
              f"direct {answer.direct} random {answer.random}")
        print(f"  shortlist {shortlist_text(given, lent)}")
        print(f"  tally {tally_text(given, lent)}")
    # The same after each of the four searches, which is checked below; so it is printed once.
    print(f"case {name}, work slice afterwards, two entries longer than needed")
    print(f"  work {commas(lent.work)}")


# How the proved table calls the cases.
NAMES_IN_THE_TABLE = {
    "A": "case_a", "B": "case_b", "C": "case_c", "D": "case_d", "E": "case_e",
    "B rule 1 k 1": "smallest_b", "B rule 2 k 1": "largest_b", "tied lows": "tied_lows",
    "000 figure 1": "figure1", "000 figure 2": "figure2", "001 example 1": "example1",
}


def chain(words):
    return "(" + " ∷ ".join([*words, "[]"]) + ")"


def row_text(name, search_name):
    """One row of the proved table: the search, the case, rows and counts, the shortlist, the tally."""
    given = case(name)
    lent = lend_for(given)
    answer = search(search_name, given, lent)
    places = zip(lent.shortlist_items[:given.k], lent.shortlist_lows, lent.shortlist_highs)
    shortlist = chain(f"exact {item} {low}" if low == high else f"between {item} {low} {high}"
                      for item, low, high in places)
    tally = chain(str(times) for times in lent.tally[:given.m * given.n])
    return (f"asked {search_name} {NAMES_IN_THE_TABLE[name]} "
            f"(gives {answer.rows} {answer.sorted} {answer.direct} {answer.random} {shortlist} {tally})")


def print_refusal(number):
    given = case("A")
    lent = lend_for(given)
    words = damage(number, given, lent)
    answer = search("TA", given, lent)
    print(f"refusal {number}, case A where {words}")
    print(f"  TA: refused {answer.number} {answer.list} {answer.position}")
    print(f"    work {commas(lent.work)}")
    if number in (1, 5, 6, 7, 8, 9):
        given = case("A")
        lent = lend_for(given)
        damage(number, given, lent)
        refusal = list_check(given.m, given.n, given.items, given.scores, lent.work)
        print("  list check: refused {} {} {}".format(*refusal))
        print(f"    work {commas(lent.work)}")


# ---------------------------------------------------------------- the statements of the documents

# The lines of the previewer's program, as document 01 (B) and VECTORS.md print them.
PRINTED_LINES = {
    "B": ("TA 5 15 0 30 2:83:83 0:82:82 1:81:81 3:27:27",
          "BPA 4 12 0 24 2:83:83 0:82:82 1:81:81 3:27:27",
          "BPA2 2 0 5 10 2:83:83 0:82:82 1:81:81 3:27:27",
          "NRA 5 15 0 0 2:83:83 0:82:82 1:81:81 3:27:27"),
    "000 figure 1": ("TA 6 18 0 36 7:71:71 2:70:70 4:70:70",
                     "BPA 3 9 0 18 7:71:71 2:70:70 4:70:70",
                     "BPA2 3 0 9 18 7:71:71 2:70:70 4:70:70",
                     "NRA 8 24 0 0 7:71:71 2:70:70 4:70:70"),
    "000 figure 2": ("TA 7 21 0 42 2:70:70 3:68:68 5:66:66",
                     "BPA 7 21 0 42 2:70:70 3:68:68 5:66:66",
                     "BPA2 4 0 12 24 2:70:70 3:68:68 5:66:66",
                     "NRA 9 27 0 0 2:70:70 3:68:68 5:66:66"),
    "001 example 1": ("TA 2 4 0 4 2:183:183 1:182:182",
                      "BPA 2 4 0 4 2:183:183 1:182:182",
                      "BPA2 2 0 4 4 2:183:183 1:182:182",
                      "NRA 4 8 0 0 2:183:183 1:182:182"),
}

# Case, search, rows and shortlist, as the lines of "Sets to try" say them.
SETS_TO_TRY = (
    ("A", "TA", 2, "2:83:83 0:82:82"),
    ("A", "BPA", 1, "2:83:83 0:82:82"),
    ("A", "BPA2", 1, "2:83:83 0:82:82"),
    ("A", "NRA", 3, "2:83:83 0:82:82"),
    ("D", "TA", 2, "0:10:10 1:10:10"),
    ("D", "BPA", 1, "0:10:10 1:10:10"),
    ("D", "BPA2", 1, "0:10:10 1:10:10"),
    ("D", "NRA", 1, "0:10:20 1:10:20"),
    ("E", "TA", 1, "1:10:10"),
    ("E", "BPA", 1, "1:10:10"),
    ("E", "BPA2", 1, "0:10:10"),
    ("E", "NRA", 1, "1:10:10"),
    ("C", "TA", 1, "0:21:21"),
    ("C", "BPA", 1, "0:21:21"),
    ("C", "BPA2", 1, "0:21:21"),
    ("C", "NRA", 1, "0:21:21"),
    ("B rule 1 k 1", "TA", 2, "2:26:26"),
    ("B rule 1 k 1", "BPA", 1, "2:26:26"),
    ("B rule 1 k 1", "BPA2", 1, "2:26:26"),
    ("B rule 1 k 1", "NRA", 3, "2:26:26"),
    ("B rule 2 k 1", "TA", 1, "0:30:30"),
)

# Query and list record of the cases that the documents also print in hex, spaces taken out.
PRINTED_RECORDS = {
    "B": "000000050100000400"
         "00000046010300050001000100010000001E0001001C0002001B0003000A00040005"
         "0001001D0002001A000000190004000C000300080002001E0000001B00010018000300090004"
         "0003",
    "000 figure 1": "000000050100000300"
        "0000009A0103000C0001000100010000001E0003001C0008001B0002001A0006001900070017"
        "000400110005000E0001000B0009000A000A0000000B00000001001C0005001B000600190004"
        "00180008001700000015000700140002000E0003000D000B000C00090000000A00000002001E"
        "0004001D0007001C000300190001001800050013000A000F0000000E0008000C0006000B0009"
        "0000000B0000",
    "000 figure 2": "000000050100000300"
        "0000009A0103000C0001000100010000001E0003001C0008001B0002001A0006001900070018"
        "000900110005000E0001000B0004000A000A0000000B00000001001C0005001B000600190004"
        "00180008001700000016000B00140002000E0003000D0007000C00090000000A00000002001E"
        "0004001D0007001C0003001B0001001A00050019000A000F0000000D0008000C0006000B0009"
        "0000000B0000",
    "001 example 1": "000000050100000200"
        "0000003801020006000100010001005F0000005C000400590002005800030057000500560002"
        "005F0003005A00050058000100570000005700040055",
}


def claim(statement, holds):
    if not holds:
        print(f"does not hold: {statement}")
        sys.exit(1)


def line_of(name, search_name):
    given = case(name)
    lent = lend_for(given)
    answer = search(search_name, given, lent)
    return (f"{search_name} {answer.rows} {answer.sorted} {answer.direct} {answer.random} "
            f"{shortlist_text(given, lent)}")


def records_of(name):
    """The query with c = 0 and the list record, in hex: ties the lists above to the printed input."""
    given = case(name)
    query = bytes([0, 0, 0, 5, 1, given.rule]) + given.k.to_bytes(2, "big") + bytes([0])
    body = bytes([1, given.m]) + given.n.to_bytes(2, "big") + given.weights
    for item, score in zip(given.items, given.scores):
        body += item.to_bytes(2, "big") + score.to_bytes(2, "big")
    return (query + len(body).to_bytes(4, "big") + body).hex().upper()


def check_printed_lines():
    for name, lines in PRINTED_LINES.items():
        claim(f"the lists of {name} are those of the printed records",
              records_of(name) == PRINTED_RECORDS[name])
        for search_name, line in zip(SEARCHES, lines):
            claim(f"{name}: {line}", line_of(name, search_name) == line)


def check_sets_to_try():
    for name, search_name, rows, shortlist in SETS_TO_TRY:
        fields = line_of(name, search_name).split(" ", 5)
        claim(f"{name}, {search_name}: rows {rows}, shortlist {shortlist}",
              fields[1] == str(rows) and fields[5] == shortlist)
    for search_name in SEARCHES:
        claim(f"C, {search_name}: one access", len(run(search_name, case("C"))[1]) == 1)
    met_in_e = items_met(case("E"), run("BPA2", case("E"))[1])
    claim("E: BPA2 has met both", met_in_e == {0, 1})


def check_notes_of_vectors():
    figure_1 = case("000 figure 1")
    claim("figure 1: TA's thresholds by row",
          [threshold_at_row(figure_1, row) for row in range(1, 11)]
          == [88, 84, 80, 75, 72, 63, 52, 42, 36, 33])
    visits, bests = [], []
    for row in (1, 2, 3):
        row_with_random_accesses(figure_1, visits, row)
        bests.append(tuple(best_position(figure_1, visits, i) for i in (1, 2, 3)))
    claim("figure 1: BPA's best positions by row", bests == [(1, 1, 1), (2, 2, 2), (9, 9, 6)])

    figure_2 = case("000 figure 2")
    claim("figure 2: BPA visits 63 times", len(run("BPA", figure_2)[1]) == 63)
    visits = run("BPA2", figure_2)[1]
    claim("figure 2: BPA2 visits 36 times", len(visits) == 36)
    for i in (1, 2, 3):
        direct = [visit.position for visit in visits if visit.kind == "direct" and visit.list == i]
        claim(f"figure 2: BPA2's direct accesses in list {i} at 1, 2, 3, 7", direct == [1, 2, 3, 7])


def check_what_is_given_back(name, search_name):
    """What document 01 says of every accepted call: tally, counts, work slice, places beyond."""
    given = case(name)
    lent = lend_for(given)
    answer = search(search_name, given, lent)
    size = given.m * given.n
    claim(f"{name}, {search_name}: accepted", answer.number == 0)
    claim(f"{name}, {search_name}: a tally entry is at most m", max(lent.tally[:size]) <= given.m)
    claim(f"{name}, {search_name}: the three counts add up to the tally's sum",
          answer.sorted + answer.direct + answer.random == sum(lent.tally[:size]))
    claim(f"{name}, {search_name}: the work slice has each item's position",
          lent.work[:size] == [position_of(given, i, item)
                               for i in all_lists(given) for item in range(given.n)])
    shortlist = (lent.shortlist_items, lent.shortlist_lows, lent.shortlist_highs)
    beyond = [part[given.k:] for part in shortlist] + [lent.tally[size:], lent.work[size:]]
    claim(f"{name}, {search_name}: places beyond stay as lent",
          all(part == [AS_LENT, AS_LENT] for part in beyond))


def check_easy_to_get_wrong():
    given = case("B")
    visits = [Visit("random", 1, position) for position in (1, 2, 4)]
    claim("with 1, 2 and 4 visited the best position is 2", best_position(given, visits, 1) == 2)
    for name in CASES:
        bpa, bpa2 = run("BPA", case(name))[1], run("BPA2", case(name))[1]
        claim(f"{name}: BPA2 visits no position twice", max(tally_of(case(name), bpa2)) <= 1)
        claim(f"{name}: BPA2 has no more accesses than BPA", len(bpa2) <= len(bpa))
    visited_in_e = [{(visit.list, visit.position) for visit in run(search_name, case("E"))[1]}
                    for search_name in ("BPA", "BPA2")]
    claim("E: BPA and BPA2 visit other positions", visited_in_e[0] != visited_in_e[1])
    claim("D: NRA stops before TA", run("NRA", case("D"))[0] < run("TA", case("D"))[0])


def check_refusals():
    """Number, list and position; shortlist and tally as lent; the work slice by the number."""
    where = {7: (2, 3), 8: (3, 2), 9: (1, 4)}
    for number in range(1, 10):
        given = case("A")
        lent, lent_alone = lend_for(given), lend_for(given)
        damage(number, given, lent)
        damage(number, case("A"), lent_alone)
        expected = (number, *where.get(number, (0, 0)))
        claim(f"refusal {number}: number, list, position, all else 0",
              search("TA", given, lent) == Answer(*expected))
        untouched = lend_for(case("A"))
        claim(f"refusal {number}: shortlist and tally stay as lent",
              lent.shortlist_items == untouched.shortlist_items
              and lent.shortlist_lows == untouched.shortlist_lows
              and lent.shortlist_highs == untouched.shortlist_highs
              and lent.tally == untouched.tally)
        work = [0] * 15 + [AS_LENT] * 2 if number >= 7 else [AS_LENT] * len(lent.work)
        claim(f"refusal {number}: the work slice afterwards", lent.work == work)
        if number in (1, 5, 6, 7, 8, 9):
            alone = list_check(given.m, given.n, given.items, given.scores, lent_alone.work)
            claim(f"refusal {number}: the list check answers as a search does", alone == expected)
            claim(f"refusal {number}: and leaves its work slice so", lent_alone.work == work)


def check_order_of_refusals():
    """Case A damaged in several ways at once: the first test met is the answer."""
    numbers_of_list_check = (1, 5, 6)
    for number in range(1, 7):
        given = case("A")
        lent = lend_for(given)
        for later in range(number, 10):
            damage(later, given, lent)
        claim(f"refusal {number} comes before all later ones",
              search("TA", given, lent) == Answer(number, 0, 0))
        if number in numbers_of_list_check:
            alone = list_check(given.m, given.n, given.items, given.scores, lent.work)
            claim(f"refusal {number} comes first in the list check too", alone == (number, 0, 0))
    given = case("A")
    for number in (7, 8, 9):
        damage(number, given, lend_for(given))
    claim("of 7 in list 2, 8 in list 3 and 9 in list 1, the 9 is met first",
          search("TA", given, lend_for(given)) == Answer(9, 1, 4))
    for item, number in ((5, 7), (0, 8), (3, 9)):
        given = case("A")
        given.items[place(given, 1, 4)] = item
        given.scores[place(given, 1, 4)] = 28
        claim(f"item {item} under a risen score at one position: {number} is met first",
              search("TA", given, lend_for(given)) == Answer(number, 1, 4))


def number_of_ta(given, lent=None):
    return search("TA", given, lent or lend_for(given)).number


def check_limits_of_the_input():
    """The limits of "Sets to try", each with the value that is allowed and its neighbour. Its list
    record of 7 and 8 bytes is left out with the other records."""
    for m, number in ((8, 0), (9, 1)):
        claim(f"m {m}", number_of_ta(given_of(["0:65535"] * m, 0, 1, 1000)) == number)
    claim("the greatest value is 524,280,000",
          score_of(given_of(["0:65535"] * 8, 0, 1, 1000), 0) == 524280000)
    for n, number in ((1024, 0), (1025, 1)):
        one_list = " ".join(f"{item}:7" for item in range(n))
        claim(f"n {n}", number_of_ta(given_of([one_list], 0, 1, 1)) == number)
    for k, number in ((0, 2), (5, 0), (6, 2)):
        claim(f"k {k}, n 5", number_of_ta(given_of(LISTS_OF_B, 0, k, 1)) == number)
    for weight, number in ((1000, 0), (1001, 4)):
        claim(f"weight {weight}", number_of_ta(given_of(LISTS_OF_B, 0, 2, weight)) == number)
    for score, number in ((30, 0), (31, 9)):
        given = case("B")
        given.scores[place(given, 1, 2)] = score
        claim(f"score {score} after 30", number_of_ta(given) == number)


def check_limits_of_the_slices():
    """Exactly as long as needed, and one less."""
    for short, number in ((0, 0), (1, 5)):
        for name in ("items", "scores"):
            given = case("A")
            setattr(given, name, getattr(given, name)[:15 - short])
            claim(f"{name}, {15 - short} entries", number_of_ta(given) == number)
    needed = {"shortlist_items": 2, "shortlist_lows": 2, "shortlist_highs": 2, "tally": 15, "work": 15}
    for short, number in ((0, 0), (1, 6)):
        for name, length in needed.items():
            lent = lend_for(case("A"))
            setattr(lent, name, [AS_LENT] * (length - short))
            claim(f"{name}, {length - short} entries", number_of_ta(case("A"), lent) == number)


def main():
    if sys.argv[1:] == ["--rows"]:
        for name in CASES:
            for search_name in SEARCHES:
                print(row_text(name, search_name))
        return
    for name in CASES:
        print_case(name)
    for number in range(1, 10):
        print_refusal(number)
    check_printed_lines()
    check_sets_to_try()
    check_notes_of_vectors()
    for name in CASES:
        for search_name in SEARCHES:
            check_what_is_given_back(name, search_name)
    check_easy_to_get_wrong()
    check_refusals()
    check_order_of_refusals()
    check_limits_of_the_input()
    check_limits_of_the_slices()
    print("all statements of the documents hold")


if __name__ == "__main__":
    main()
