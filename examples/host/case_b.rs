//! Case B through the four searches, from the two records to the previewer's lines, and then a call that is refused.
mod rutlark;

use rutlark::{Given, Refused, Room, Search};

const QUERY: [u8; 9] = [0, 0, 0, 5, 1, 0, 0, 4, 0];

#[rustfmt::skip]
const LISTS: [u8; 74] = [
    0, 0, 0, 0x46, 1, 3, 0, 5, 0, 1, 0, 1, 0, 1,
    0, 0, 0, 0x1E, 0, 1, 0, 0x1C, 0, 2, 0, 0x1B, 0, 3, 0, 0x0A, 0, 4, 0, 0x05,
    0, 1, 0, 0x1D, 0, 2, 0, 0x1A, 0, 0, 0, 0x19, 0, 4, 0, 0x0C, 0, 3, 0, 0x08,
    0, 2, 0, 0x1E, 0, 0, 0, 0x1B, 0, 1, 0, 0x18, 0, 3, 0, 0x09, 0, 4, 0, 0x03,
];

const MOST: usize = 15;

fn main() {
    let (mut items, mut scores, mut picks, mut work) = ([0; MOST], [0; MOST], [0; MOST], [0; MOST]);
    let (mut lows, mut highs, mut tally) = ([0; MOST], [0; MOST], [0; MOST]);
    let query = rutlark::read_query(&QUERY).expect("the query is read");
    let (m, n) = rutlark::read_lists(&LISTS, &mut items, &mut scores).expect("the lists are read");
    rutlark::check_lists(m, n, &items, &scores, &mut work).expect("the lists are accepted");
    let weights = rutlark::chosen_weights(&QUERY, &LISTS);
    let mut run = |which, items: &[u16]| {
        let given = Given { m, n, items, scores: &scores, rule: query.rule, k: query.k, weights };
        let room =
            Room { picks: &mut picks, lows: &mut lows, highs: &mut highs, tally: &mut tally, work: &mut work };
        let counts = rutlark::search(which, given, room)?;
        let places: String =
            (0..query.k).map(|i| format!(" {}:{}:{}", picks[i], lows[i], highs[i])).collect();
        Ok::<_, Refused>((counts, places))
    };
    let names = [("TA", Search::Ta), ("BPA", Search::Bpa), ("BPA2", Search::Bpa2), ("NRA", Search::Nra)];
    for (name, which) in names {
        let (c, places) = run(which, &items).expect("the search is accepted");
        println!("{name} {} {} {} {}{places}", c.rows, c.sorted, c.direct, c.random);
    }
    let mut twice = items;
    twice[n + 1] = twice[n]; // list 2 has its first item once more at position 2
    let refused = run(Search::Ta, &twice).expect_err("the search is refused");
    println!("REFUSED {} {} {}", refused.number, refused.list, refused.position);
}
