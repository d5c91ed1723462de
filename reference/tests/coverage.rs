//! What the recorded cases must hold, whatever else they hold.

use rutlark_reference::cases::format::written;
use rutlark_reference::cases::{self, expected_of, Case, Recorded};
use rutlark_reference::records::read_query;
use std::collections::BTreeMap;

const SEARCHES: [&str; 4] = ["TA", "BPA", "BPA2", "NRA"];

fn by_title(recorded: &[Recorded]) -> BTreeMap<&str, &Case> {
    let titled = recorded.iter().map(|one| (one.title.as_str(), &one.case));
    titled.collect()
}

/// The number that the case's answer begins with, or follows REFUSED.
fn number_of(case: &Case) -> u32 {
    let text = expected_of(1, case);
    let answer = text.lines().nth(1).unwrap();
    let words: Vec<&str> = answer.split(' ').collect();
    match (case, words[0]) {
        (Case::Preview(_), "REFUSED") => words[1].parse().unwrap(),
        (Case::Preview(_), _) => 0,
        (_, number) => number.parse().unwrap(),
    }
}

/// A refused case with its number, and beside it one that just passes that test, with what it
/// gives: 0, or a number of a later test.
type Neighbours = (&'static str, u32, &'static str, u32);

fn assert_neighbours(entry: &str, rows: &[Neighbours]) {
    let recorded = cases::all();
    let titles = by_title(&recorded);
    let find = |title: &str| {
        let whole = format!("{entry}: {title}");
        let found = titles.get(whole.as_str());
        number_of(found.unwrap_or_else(|| panic!("no case is titled {whole}")))
    };
    for (refused, number, beside, then) in rows {
        assert_eq!(find(refused), *number, "{entry}: {refused}");
        assert_eq!(find(beside), *then, "{entry}: {beside}");
    }
}

const OF_A_SEARCH: [Neighbours; 26] = [
    ("C, m 0", 1, "C", 0),
    ("flat set, m 9, n 1", 1, "flat set, m 8, n 1", 0),
    ("C, n 0", 1, "C", 0),
    ("flat set, m 1, n 1025", 1, "flat set, m 1, n 1024", 0),
    ("A, k 0", 2, "A, k 1", 0),
    (
        "A, k n + 1 in slices for it",
        2,
        "A, k n in slices for it",
        0,
    ),
    ("A, rule 3", 3, "A, rule 2", 0),
    ("A, first weight 1,001", 4, "A, first weight 1,000", 0),
    ("A, middle weight 1,001", 4, "A, middle weight 1,000", 0),
    ("A, last weight 1,001", 4, "A, last weight 1,000", 0),
    ("A, weight bytes 2m - 1", 4, "A, as it is", 0),
    ("A, weight bytes 2m + 1", 4, "A, as it is", 0),
    ("A, items one less", 5, "A, items exact", 0),
    ("A, scores one less", 5, "A, scores exact", 0),
    ("A, picks one less", 6, "A, picks exact", 0),
    ("A, lows one less", 6, "A, lows exact", 0),
    ("A, highs one less", 6, "A, highs exact", 0),
    ("A, tally one less", 6, "A, tally exact", 0),
    ("A, work one less", 6, "A, work exact", 0),
    ("A, item n", 7, "A, as it is", 0),
    ("A, item n at the first place", 7, "A, as it is", 0),
    ("A, item n at the last place", 7, "A, as it is", 0),
    ("A, item twice at the first two places", 8, "A, as it is", 0),
    ("A, item twice at a list's ends", 8, "A, as it is", 0),
    (
        "A, score above the one before",
        9,
        "A, score equal to the one before",
        0,
    ),
    (
        "A, last score above the one before",
        9,
        "A, last score equal to the one before",
        0,
    ),
];

#[test]
fn each_refusal_of_a_search_has_its_neighbour() {
    for search in SEARCHES {
        assert_neighbours(search, &OF_A_SEARCH);
    }
}

#[test]
fn each_refusal_of_the_list_check_has_its_neighbour() {
    assert_neighbours(
        "list check",
        &[
            ("C, m 0", 1, "C", 0),
            ("flat set, m 9, n 1", 1, "flat set, m 8, n 1", 0),
            ("C, n 0", 1, "C", 0),
            ("flat set, m 1, n 1025", 1, "flat set, m 1, n 1024", 0),
            ("B, items one less", 5, "B, items exact", 0),
            ("B, scores one less", 5, "B, scores exact", 0),
            ("B, work one less", 6, "B, work exact", 0),
            ("B, item n at the last place", 7, "B", 0),
            ("B, item twice at a list's ends", 8, "B", 0),
            (
                "B, score above the one before",
                9,
                "B, score equal to the one before",
                0,
            ),
        ],
    );
}

#[test]
fn each_refusal_of_a_query_read_has_its_neighbour() {
    assert_neighbours(
        "query read",
        &[
            ("c 0, cut by one byte", 10, "c 0", 0),
            ("c 3, cut to 8 bytes", 10, "c 3, cut to 9 bytes", 11),
            ("version 0", 12, "c 3", 0),
            ("version 2", 12, "c 3", 0),
            ("length 10 for c 3", 13, "c 3", 0),
            ("length 12 for c 3", 13, "c 3", 0),
            ("c 2 for length 11", 13, "c 3", 0),
            ("c 4 for length 11", 13, "c 3", 0),
            ("length 514 for c 255", 13, "c 255", 0),
            ("length 516 for c 255", 13, "c 255", 0),
            ("c 3, cut to 14 bytes", 11, "c 3", 0),
            ("c 255, cut by one byte", 11, "c 255", 0),
        ],
    );
}

#[test]
fn each_refusal_of_a_lists_read_has_its_neighbour() {
    let eight = "B, cut to 8 bytes with their length";
    assert_neighbours(
        "lists read",
        &[
            ("B, cut to 7 bytes", 10, "B, cut to 8 bytes", 11),
            ("10 and 11", 10, eight, 13),
            ("B, length 69 for 70", 11, "B", 0),
            ("B, length 71 for 70", 11, "B", 0),
            ("B, cut to 73 bytes", 11, "B", 0),
            ("B, one byte after", 11, "B", 0),
            ("m 8, n 1,024, cut by one byte", 11, "m 8, n 1,024", 0),
            ("B, version 0", 12, "B", 0),
            ("B, version 2", 12, "B", 0),
            ("flat, m 0, n 5", 1, "flat, m 1, n 1", 0),
            ("flat, m 9, n 1", 1, "flat, m 8, n 1", 0),
            ("flat, m 3, n 0", 1, "flat, m 1, n 1", 0),
            (
                "flat, m 1, n 1025 into 1025",
                1,
                "flat, m 1, n 1024 into 1024",
                0,
            ),
            ("B, m 2 for 3", 13, "B", 0),
            ("B, n 4 for 5", 13, "B", 0),
            ("B, cut to 73 bytes with their length", 13, "B", 0),
            ("B, one byte after and counted", 13, "B", 0),
            (
                "B into 14 items and 15 scores",
                6,
                "B into 15 items and 15 scores",
                0,
            ),
            (
                "B into 15 items and 14 scores",
                6,
                "B into 15 items and 15 scores",
                0,
            ),
            (
                "flat, m 1, n 1024 into 1023",
                6,
                "flat, m 1, n 1024 into 1024",
                0,
            ),
        ],
    );
}

#[test]
fn each_refusal_of_the_previewer_has_its_neighbour() {
    let own = "own weights [1000, 0, 1000]";
    assert_neighbours(
        "preview",
        &[
            ("A, cut to 16 bytes", 10, "A, cut to 17 bytes", 11),
            ("lists, 7 bytes", 10, "lists, 8 bytes", 13),
            ("query, version 2", 12, "k 1 with n 5", 0),
            ("query, length 4", 13, "k 1 with n 5", 0),
            ("query, length 6", 13, "k 1 with n 5", 0),
            ("lists, length 69", 11, "k 1 with n 5", 0),
            ("lists, length 71", 11, "k 1 with n 5", 0),
            ("A, one byte after", 11, "A, house weights", 0),
            ("lists, version 2", 12, "k 1 with n 5", 0),
            ("lists, m 9, n 1", 1, "lists, m 8, n 1", 0),
            ("lists, m 1, n 1,025", 1, "lists, m 1, n 1,024", 0),
            ("lists, n 4 for 5", 13, "k 1 with n 5", 0),
            ("k 0 with n 5", 2, "k 1 with n 5", 0),
            ("k 6 with n 5", 2, "k 5 with n 5", 0),
            ("rule 3", 3, "rule 2", 0),
            ("own weights [1, 1, 1001]", 4, own, 0),
            (
                "c 0, m 3, house weights [1, 1001, 1]",
                4,
                "c 0, m 3, house weights [1000, 1000, 1000]",
                0,
            ),
            (
                "greatest records, 33312 bytes",
                11,
                "greatest records, 33311 bytes",
                4,
            ),
            (
                "item 1 at 31 in list 1, position 2",
                9,
                "item 1 at 30 in list 1, position 2",
                0,
            ),
        ],
    );
}

#[test]
fn the_printed_sets_run_under_every_search_and_in_the_previewer() {
    let recorded = cases::all();
    let titles = by_title(&recorded);
    for set in [
        "A",
        "B",
        "C",
        "D",
        "E",
        "B, rule 1, k 1",
        "B, rule 2, k 1",
        "000 figure 1",
        "000 figure 2",
        "001 example 1",
    ] {
        for search in SEARCHES {
            let title = format!("{search}: {set}");
            assert_eq!(number_of(titles[title.as_str()]), 0, "{title}");
        }
        for weights in ["house", "own"] {
            let title = format!("preview: {set}, {weights} weights");
            assert_eq!(number_of(titles[title.as_str()]), 0, "{title}");
        }
    }
}

fn previewed() -> Vec<Vec<u8>> {
    let inputs = cases::all().into_iter().filter_map(|one| match one.case {
        Case::Preview(input) => Some(input),
        _ => None,
    });
    inputs.collect()
}

#[test]
fn the_previewer_is_given_these_lengths() {
    let lengths: Vec<usize> = previewed().iter().map(Vec::len).collect();
    // Nothing, every cut of A's 83 bytes, and what stands around the number of bytes taken.
    for length in (0..=84).chain([33_311, 33_312, 33_313]) {
        assert!(lengths.contains(&length), "{length}");
    }
}

#[test]
fn the_previewer_is_given_these_weight_counts() {
    let counts: Vec<(u8, u8)> = previewed()
        .iter()
        .filter_map(|input| {
            let query = read_query(input);
            let m = input.get(query.bytes + 5)?;
            (query.number == 0).then_some((query.weight_count, *m))
        })
        .collect();
    for count in [
        (0, 3),
        (3, 3),
        (2, 3),
        (4, 3),
        (255, 3),
        (8, 8),
        (0, 8),
        (255, 8),
    ] {
        assert!(counts.contains(&count), "{count:?}");
    }
}

#[test]
fn each_read_is_given_every_cut_of_a_head_and_of_a_list() {
    let recorded = cases::all();
    let titles = by_title(&recorded);
    let given = |title: String| assert!(titles.contains_key(title.as_str()), "{title}");
    (0..15).for_each(|length| given(format!("query read: c 3, cut to {length} bytes")));
    (0..74).for_each(|length| given(format!("lists read: B, cut to {length} bytes")));
    (0..=8).for_each(|length| given(format!("chosen weights: lists, cut to {length}")));
    (0..=9).for_each(|length| given(format!("chosen weights: query, c 3, cut to {length} bytes")));
    for place in ["within list 1", "between the lists", "within list 2"] {
        given(format!("lists read: m 2, n 40, cut {place}"));
        given(format!(
            "lists read: m 2, n 40, cut {place}, its length fitting"
        ));
    }
}

#[test]
fn every_entry_is_given_m_8_with_n_1_024() {
    let recorded = cases::all();
    for entry in SEARCHES
        .iter()
        .chain(&["list check", "lists read", "preview"])
    {
        let prefix = format!("{entry}: m 8, n 1,024");
        let mut of_entry = recorded.iter().filter(|one| one.title.starts_with(&prefix));
        let accepted = of_entry.find(|one| number_of(&one.case) == 0);
        // 8,192 entries of four bytes.
        let large = accepted.is_some_and(|one| written(&one.case).len() > 32_768);
        assert!(large, "{entry}");
    }
}
