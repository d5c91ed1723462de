//! The recorded cases: calls with the answers that any right program gives. `format` says how both
//! files are written.

pub mod format;
pub mod generator;
mod of_list_check;
mod of_preview;
mod of_records;
mod of_searches;
mod run;
pub mod sets;
pub mod worked;

pub use run::{expected_of, ListsChecked, ListsFilled, Searched};

use sets::{weight_bytes, OwnedSet};

/// One call, with the lengths of the slices to lend.
#[derive(Clone, Debug, PartialEq, Eq)]
pub enum Case {
    Preview(Vec<u8>),
    Search(SearchCase),
    ListCheck(ListCheckCase),
    ReadQuery(Vec<u8>),
    ReadLists(ReadListsCase),
    ChosenWeights { query: Vec<u8>, lists: Vec<u8> },
}

/// m, n and k may be any numbers of 64 bits: none may be cut before its test sees it.
#[derive(Clone, Debug, PartialEq, Eq)]
pub struct SearchCase {
    /// 0 TA, 1 BPA, 2 BPA2, 3 NRA.
    pub which: u8,
    pub m: u64,
    pub n: u64,
    pub rule: u8,
    pub k: u64,
    pub weights: Vec<u8>,
    pub items: Vec<u16>,
    pub scores: Vec<u16>,
    pub picks: u16,
    pub lows: u16,
    pub highs: u16,
    pub tally: u16,
    pub work: u16,
}

#[derive(Clone, Debug, PartialEq, Eq)]
pub struct ListCheckCase {
    pub m: u64,
    pub n: u64,
    pub items: Vec<u16>,
    pub scores: Vec<u16>,
    pub work: u16,
}

#[derive(Clone, Debug, PartialEq, Eq)]
pub struct ReadListsCase {
    pub bytes: Vec<u8>,
    pub items: u16,
    pub scores: u16,
}

/// What stands in the list slices past m x n: taken for an entry, it would be refused.
const NOT_LOOKED_AT: u16 = 65_535;

impl SearchCase {
    /// Every slice longer than needed, each by a length of its own, so that what is read or
    /// written beyond its end shows.
    pub fn on(which: u8, set: &OwnedSet, rule: u8, k: usize, weights: &[u16]) -> SearchCase {
        let alone = ListCheckCase::on(set);
        SearchCase {
            which,
            m: alone.m,
            n: alone.n,
            rule,
            k: k as u64,
            weights: weight_bytes(weights),
            items: alone.items,
            scores: alone.scores,
            picks: k as u16 + 1,
            lows: k as u16 + 2,
            highs: k as u16 + 3,
            tally: (set.m * set.n) as u16 + 4,
            work: alone.work,
        }
    }

    /// The same call with every slice exactly as long as needed.
    pub fn in_exact_slices(mut self) -> SearchCase {
        let size = (self.m * self.n) as usize;
        self.items.truncate(size);
        self.scores.truncate(size);
        (self.picks, self.lows, self.highs) = (self.k as u16, self.k as u16, self.k as u16);
        (self.tally, self.work) = (size as u16, size as u16);
        self
    }
}

impl ListCheckCase {
    /// Slices longer than needed, as for a search.
    pub fn on(set: &OwnedSet) -> ListCheckCase {
        let longer = |entries: &[u16], by| [entries, &vec![NOT_LOOKED_AT; by]].concat();
        ListCheckCase {
            m: set.m as u64,
            n: set.n as u64,
            items: longer(&set.items, 2),
            scores: longer(&set.scores, 3),
            work: (set.m * set.n) as u16 + 5,
        }
    }
}

/// A case with a few words on what it shows.
pub struct Recorded {
    pub title: String,
    pub case: Case,
}

fn recorded(title: impl Into<String>, case: Case) -> Recorded {
    Recorded {
        title: title.into(),
        case,
    }
}

/// All recorded cases; case N of the files is entry N - 1.
pub fn all() -> Vec<Recorded> {
    let mut cases = of_searches::all();
    cases.extend(of_list_check::all());
    cases.extend(of_records::all());
    cases.extend(of_preview::all());
    cases
}

/// The binary file, `stdin`.
pub fn cases_file(recorded: &[Recorded]) -> Vec<u8> {
    recorded
        .iter()
        .flat_map(|one| format::written(&one.case))
        .collect()
}

/// The text file, `stdout`: what a program that runs the cases must print.
pub fn expected_file(recorded: &[Recorded]) -> String {
    recorded
        .iter()
        .enumerate()
        .map(|(at, one)| expected_of(at + 1, &one.case))
        .collect()
}
