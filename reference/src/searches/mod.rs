//! The four searches: their tests, their answer and what they leave in the lent slices.

mod accesses;
mod nra;
mod query;
mod scored;

use crate::lists::{check_lists, sizes_allowed, Checked, PoseSet};
use accesses::Accesses;
use query::{weights_from, Query};

const GREATEST_RULE: u8 = 2;
const GREATEST_WEIGHT: u32 = 1_000;

/// What a search gives back beside the slices. In a refusal all after the position is 0.
#[derive(Clone, Copy, Debug, Default, PartialEq, Eq)]
pub struct Answer {
    pub number: u32,
    pub list: u32,
    pub position: u32,
    pub rows: u32,
    pub sorted: u32,
    pub direct: u32,
    pub random: u32,
}

impl Answer {
    fn refused(refusal: Checked) -> Answer {
        Answer {
            number: refusal.number,
            list: refusal.list,
            position: refusal.position,
            ..Answer::default()
        }
    }
}

/// One place of the shortlist.
#[derive(Clone, Copy)]
struct Place {
    item: usize,
    low: u32,
    high: u32,
}

/// Where a search stopped, and what it kept.
struct Stopped {
    rows: usize,
    shortlist: Vec<Place>,
}

/// How one of the four goes from no access to its stop.
type Method = fn(&Query, &mut Accesses) -> Stopped;

struct Given<'a> {
    set: PoseSet<'a>,
    rule: u8,
    k: usize,
    weights: &'a [u8],
}

struct Lent<'a> {
    picks: &'a mut [u16],
    lows: &'a mut [u32],
    highs: &'a mut [u32],
    tally: &'a mut [u8],
    work: &'a mut [u16],
}

/// The form that all four entries have.
pub type Search = fn(
    usize,
    usize,
    &[u16],
    &[u16],
    u8,
    usize,
    &[u8],
    &mut [u16],
    &mut [u32],
    &mut [u32],
    &mut [u8],
    &mut [u16],
) -> Answer;

/// The searches by name, in the previewer's order.
pub const SEARCHES: [(&str, Search); 4] = [("TA", ta), ("BPA", bpa), ("BPA2", bpa2), ("NRA", nra)];

// The four entries differ in their method alone; the twelve arguments are those of every entry of
// the project, so that two programs can be called alike.
macro_rules! entry {
    ($name:ident, $method:path) => {
        #[allow(clippy::too_many_arguments)]
        pub fn $name(
            m: usize,
            n: usize,
            items: &[u16],
            scores: &[u16],
            rule: u8,
            k: usize,
            weights: &[u8],
            picks: &mut [u16],
            lows: &mut [u32],
            highs: &mut [u32],
            tally: &mut [u8],
            work: &mut [u16],
        ) -> Answer {
            let set = PoseSet {
                m,
                n,
                items,
                scores,
            };
            let given = Given {
                set,
                rule,
                k,
                weights,
            };
            let lent = Lent {
                picks,
                lows,
                highs,
                tally,
                work,
            };
            search($method, given, lent)
        }
    };
}

entry!(ta, scored::run_ta);
entry!(bpa, scored::run_bpa);
entry!(bpa2, scored::run_bpa2);
entry!(nra, nra::run_nra);

fn search(method: Method, given: Given, lent: Lent) -> Answer {
    let number = refusal_before_the_list_check(&given, &lent);
    if number != 0 {
        return Answer::refused(Checked::refused(number));
    }
    let set = given.set;
    let checked = check_lists(set.m, set.n, set.items, set.scores, lent.work);
    if checked.number != 0 {
        return Answer::refused(checked);
    }
    let query = Query {
        rule: given.rule,
        k: given.k,
        weights: weights_from(given.weights),
    };
    let mut accesses = Accesses::none_yet(set, lent.work);
    let stopped = method(&query, &mut accesses);
    write_shortlist(&stopped.shortlist, lent.picks, lent.lows, lent.highs);
    lent.tally[..accesses.tally.len()].copy_from_slice(&accesses.tally);
    Answer {
        rows: stopped.rows as u32,
        sorted: accesses.sorted,
        direct: accesses.direct,
        random: accesses.random,
        ..Answer::default()
    }
}

/// Tests 1 to 6 in their order: the first number met, 0 for none.
fn refusal_before_the_list_check(given: &Given, lent: &Lent) -> u32 {
    let PoseSet {
        m,
        n,
        items,
        scores,
    } = given.set;
    if !sizes_allowed(m, n) {
        return 1;
    }
    if given.k == 0 || given.k > n {
        return 2;
    }
    if given.rule > GREATEST_RULE {
        return 3;
    }
    if !weights_allowed(given.weights, m) {
        return 4;
    }
    if items.len() < m * n || scores.len() < m * n {
        return 5;
    }
    if !can_be_written(lent, given.k, m * n) {
        return 6;
    }
    0
}

fn weights_allowed(bytes: &[u8], m: usize) -> bool {
    bytes.len() == 2 * m
        && weights_from(bytes)
            .iter()
            .all(|&weight| weight <= GREATEST_WEIGHT)
}

fn can_be_written(lent: &Lent, k: usize, size: usize) -> bool {
    let shortlist_fits = lent.picks.len() >= k && lent.lows.len() >= k && lent.highs.len() >= k;
    shortlist_fits && lent.tally.len() >= size && lent.work.len() >= size
}

fn write_shortlist(shortlist: &[Place], picks: &mut [u16], lows: &mut [u32], highs: &mut [u32]) {
    for (at, place) in shortlist.iter().enumerate() {
        picks[at] = place.item as u16;
        lows[at] = place.low;
        highs[at] = place.high;
    }
}
