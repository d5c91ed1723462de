//! NRA: sorted accesses only, so an item is known between a low and a high.

use super::accesses::Accesses;
use super::query::Query;
use super::{Place, Stopped};
use std::cmp::Reverse;

pub fn run_nra(query: &Query, accesses: &mut Accesses) -> Stopped {
    for row in accesses.set.positions() {
        for list in accesses.set.lists() {
            accesses.sorted_access(list, row);
        }
        let mut ranked = met_by_bounds(query, accesses, row);
        if no_item_outside_can_pass(query, accesses, row, &ranked) {
            ranked.truncate(query.k);
            return Stopped {
                rows: row,
                shortlist: ranked,
            };
        }
    }
    unreachable!("at row n every low and high is the score")
}

/// All met items by low falling, then high falling, then item rising. The first k are those kept.
fn met_by_bounds(query: &Query, accesses: &Accesses, row: usize) -> Vec<Place> {
    let mut met: Vec<Place> = accesses
        .items_met()
        .map(|item| bounds_of(query, accesses, row, item))
        .collect();
    met.sort_unstable_by_key(|place| (Reverse(place.low), Reverse(place.high), place.item));
    met
}

/// The stop test.
fn no_item_outside_can_pass(
    query: &Query,
    accesses: &Accesses,
    row: usize,
    ranked: &[Place],
) -> bool {
    if ranked.len() < query.k {
        return false;
    }
    let (kept, met_outside) = ranked.split_at(query.k);
    let lowest_low = kept[query.k - 1].low;
    let all_met = ranked.len() == accesses.set.n;
    let unmet_can_pass = !all_met && high_of_unmet(query, accesses, row) > lowest_low;
    let met_can_pass = met_outside.iter().any(|place| place.high > lowest_low);
    !unmet_can_pass && !met_can_pass
}

/// Nothing of an unmet item is read, so all of them have the same high.
fn high_of_unmet(query: &Query, accesses: &Accesses, row: usize) -> u32 {
    let set = accesses.set;
    query.overall(set.lists().map(|list| set.score_at(list, row)))
}

fn bounds_of(query: &Query, accesses: &Accesses, row: usize, item: usize) -> Place {
    Place {
        item,
        low: overall_score_with(query, accesses, item, |_| 0),
        high: overall_score_with(query, accesses, item, |list| {
            accesses.set.score_at(list, row)
        }),
    }
}

/// The overall score of an item, with something else for each local score not yet read.
fn overall_score_with(
    query: &Query,
    accesses: &Accesses,
    item: usize,
    for_unread: impl Fn(usize) -> u32,
) -> u32 {
    query.overall(accesses.set.lists().map(|list| {
        let position = accesses.position_of(list, item);
        if accesses.is_visited(list, position) {
            accesses.set.score_at(list, position)
        } else {
            for_unread(list)
        }
    }))
}
