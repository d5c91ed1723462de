//! The sets that the specification and the worked vectors print, and a few beside them.

use super::sets::OwnedSet;

/// A set with its query. All lists have the same weight.
pub struct Worked {
    pub name: &'static str,
    pub set: OwnedSet,
    pub rule: u8,
    pub k: usize,
    pub weight: u16,
}

impl Worked {
    pub fn weights(&self) -> Vec<u16> {
        vec![self.weight; self.set.m]
    }
}

/// The lists of A and B.
pub fn set_b() -> OwnedSet {
    OwnedSet::from_text(&[
        "0:30 1:28 2:27 3:10 4:5",
        "1:29 2:26 0:25 4:12 3:8",
        "2:30 0:27 1:24 3:9 4:3",
    ])
}

pub fn set_c() -> OwnedSet {
    OwnedSet::from_text(&["0:7"])
}

pub fn set_d() -> OwnedSet {
    OwnedSet::from_text(&["0:10 1:0", "1:10 0:0"])
}

pub fn set_e() -> OwnedSet {
    OwnedSet::from_text(&["1:5 0:5", "1:5 0:5"])
}

/// Document 000, figure 1.
pub fn figure_1() -> OwnedSet {
    OwnedSet::from_text(&[
        "0:30 3:28 8:27 2:26 6:25 7:23 4:17 5:14 1:11 9:10 10:0 11:0",
        "1:28 5:27 6:25 4:24 8:23 0:21 7:20 2:14 3:13 11:12 9:0 10:0",
        "2:30 4:29 7:28 3:25 1:24 5:19 10:15 0:14 8:12 6:11 9:0 11:0",
    ])
}

/// Document 000, figure 2.
pub fn figure_2() -> OwnedSet {
    OwnedSet::from_text(&[
        "0:30 3:28 8:27 2:26 6:25 7:24 9:17 5:14 1:11 4:10 10:0 11:0",
        "1:28 5:27 6:25 4:24 8:23 0:22 11:20 2:14 3:13 7:12 9:0 10:0",
        "2:30 4:29 7:28 3:27 1:26 5:25 10:15 0:13 8:12 6:11 9:0 11:0",
    ])
}

/// Document 001, example 1, its scores times 100.
pub fn example_1() -> OwnedSet {
    OwnedSet::from_text(&[
        "1:95 0:92 4:89 2:88 3:87 5:86",
        "2:95 3:90 5:88 1:87 0:87 4:85",
    ])
}

/// After two rows items 0 and 1 have the same low and different highs: NRA's second key decides.
pub fn tied_lows() -> OwnedSet {
    OwnedSet::from_text(&["0:10 2:5 1:0", "1:10 2:3 0:0"])
}

/// NRA keeps 0 before 1 although 1 has the better score.
pub fn order_unlike_true_scores() -> OwnedSet {
    OwnedSet::from_text(&["0:10 1:9", "1:10 0:0"])
}

/// NRA reads two rows for one place and one row for two.
pub fn fewer_rows_for_more_places() -> OwnedSet {
    OwnedSet::from_text(&["0:2 1:2", "1:2 0:2"])
}

/// With k = 2 TA returns 0 and 1, BPA 0 and 2.
pub fn other_items_of_ta_and_bpa() -> OwnedSet {
    OwnedSet::from_text(&["0:2 1:2 2:1", "2:2 0:1 1:1"])
}

/// Name, set, rule, k and weight.
type Row = (&'static str, fn() -> OwnedSet, u8, usize, u16);

const ROWS: [Row; 18] = [
    ("A", set_b, 0, 2, 1),
    ("B", set_b, 0, 4, 1),
    ("C", set_c, 0, 1, 3),
    ("D", set_d, 0, 2, 1),
    ("E", set_e, 0, 1, 1),
    ("B, rule 1, k 1", set_b, 1, 1, 1),
    ("B, rule 2, k 1", set_b, 2, 1, 1),
    ("B, k of n", set_b, 0, 5, 1),
    ("B, all weights 0", set_b, 0, 2, 0),
    ("B, greatest weights", set_b, 0, 2, 1_000),
    ("000 figure 1", figure_1, 0, 3, 1),
    ("000 figure 2", figure_2, 0, 3, 1),
    ("001 example 1", example_1, 0, 2, 1),
    ("tied lows", tied_lows, 0, 3, 1),
    (
        "order unlike true scores",
        order_unlike_true_scores,
        0,
        2,
        1,
    ),
    (
        "two rows for one place",
        fewer_rows_for_more_places,
        0,
        1,
        1,
    ),
    (
        "one row for two places",
        fewer_rows_for_more_places,
        0,
        2,
        1,
    ),
    (
        "other items of TA and BPA",
        other_items_of_ta_and_bpa,
        0,
        2,
        1,
    ),
];

pub fn all() -> Vec<Worked> {
    ROWS.map(|(name, set, rule, k, weight)| Worked {
        name,
        set: set(),
        rule,
        k,
        weight,
    })
    .into()
}
