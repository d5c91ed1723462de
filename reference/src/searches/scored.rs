//! TA, BPA and BPA2: an item met is known with its whole score.

use super::accesses::Accesses;
use super::query::Query;
use super::{Place, Stopped};
use std::cmp::Reverse;

pub fn run_ta(query: &Query, accesses: &mut Accesses) -> Stopped {
    for row in accesses.set.positions() {
        row_with_random_accesses(accesses, row);
        let threshold = threshold_at_row(query, accesses, row);
        if kth_best_reaches(query, accesses, threshold) {
            return stopped(query, accesses, row);
        }
    }
    unreachable!("at row n all items are met and no score is below the threshold")
}

pub fn run_bpa(query: &Query, accesses: &mut Accesses) -> Stopped {
    for row in accesses.set.positions() {
        row_with_random_accesses(accesses, row);
        let threshold = threshold_at_best_positions(query, accesses);
        if kth_best_reaches(query, accesses, threshold) {
            return stopped(query, accesses, row);
        }
    }
    unreachable!("at row n all best positions are n and no score is below the threshold")
}

pub fn run_bpa2(query: &Query, accesses: &mut Accesses) -> Stopped {
    for round in accesses.set.positions() {
        round_of_direct_accesses(accesses);
        let threshold = threshold_at_best_positions(query, accesses);
        if kth_best_reaches(query, accesses, threshold) {
            return stopped(query, accesses, round);
        }
    }
    unreachable!("each round moves every best position that is not yet n")
}

fn row_with_random_accesses(accesses: &mut Accesses, row: usize) {
    for list in accesses.set.lists() {
        let item = accesses.sorted_access(list, row);
        accesses.random_accesses(list, item);
    }
}

fn round_of_direct_accesses(accesses: &mut Accesses) {
    for list in accesses.set.lists() {
        direct_access_in_list(accesses, list);
    }
}

/// A list's share of a round, with the position it went to. The best position is found here and
/// not at the start of the round: the earlier lists of the round may have moved it.
fn direct_access_in_list(accesses: &mut Accesses, list: usize) -> Option<usize> {
    let best = accesses.best_position(list);
    if best == accesses.set.n {
        return None;
    }
    let item = accesses.direct_access(list, best + 1);
    accesses.random_accesses(list, item);
    Some(best + 1)
}

fn threshold_at_row(query: &Query, accesses: &Accesses, row: usize) -> u32 {
    let set = accesses.set;
    query.overall(set.lists().map(|list| set.score_at(list, row)))
}

/// After a row or round each best position is at least 1.
fn threshold_at_best_positions(query: &Query, accesses: &Accesses) -> u32 {
    let set = accesses.set;
    query.overall(
        set.lists()
            .map(|list| set.score_at(list, accesses.best_position(list))),
    )
}

fn overall_score_of(query: &Query, accesses: &Accesses, item: usize) -> u32 {
    let set = accesses.set;
    query.overall(
        set.lists()
            .map(|list| set.score_at(list, accesses.position_of(list, item))),
    )
}

/// The first k met items by score falling, then item rising; fewer when fewer are met.
fn kept(query: &Query, accesses: &Accesses) -> Vec<Place> {
    let mut met: Vec<Place> = accesses
        .items_met()
        .map(|item| {
            let score = overall_score_of(query, accesses, item);
            Place {
                item,
                low: score,
                high: score,
            }
        })
        .collect();
    // Items come rising and the sort is stable, so equal scores stay in item order.
    met.sort_by_key(|place| Reverse(place.low));
    met.truncate(query.k);
    met
}

fn kth_best_reaches(query: &Query, accesses: &Accesses, threshold: u32) -> bool {
    let kept = kept(query, accesses);
    kept.len() == query.k && kept[query.k - 1].low >= threshold
}

fn stopped(query: &Query, accesses: &Accesses, rows: usize) -> Stopped {
    Stopped {
        rows,
        shortlist: kept(query, accesses),
    }
}

#[cfg(test)]
mod tests {
    use super::*;
    use crate::cases::sets::OwnedSet;
    use crate::cases::worked::{figure_1, figure_2, set_b, set_e};
    use crate::lists::check_lists;

    fn positions_in(set: &OwnedSet) -> Vec<u16> {
        let mut positions = vec![0; set.m * set.n];
        let checked = check_lists(set.m, set.n, &set.items, &set.scores, &mut positions);
        assert_eq!(checked.number, 0);
        positions
    }

    fn sum_with_weights_1(m: usize, k: usize) -> Query {
        Query {
            rule: 0,
            k,
            weights: vec![1; m],
        }
    }

    #[test]
    fn thresholds_of_ta_in_figure_1() {
        let set = figure_1();
        let positions = positions_in(&set);
        let accesses = Accesses::none_yet(set.lend(), &positions);
        let query = sum_with_weights_1(3, 3);
        let thresholds: Vec<u32> = (1..=10)
            .map(|row| threshold_at_row(&query, &accesses, row))
            .collect();
        assert_eq!(thresholds, [88, 84, 80, 75, 72, 63, 52, 42, 36, 33]);
    }

    #[test]
    fn best_positions_of_bpa_in_figure_1() {
        let set = figure_1();
        let positions = positions_in(&set);
        let mut accesses = Accesses::none_yet(set.lend(), &positions);
        for (row, best) in [(1, [1, 1, 1]), (2, [2, 2, 2]), (3, [9, 9, 6])] {
            row_with_random_accesses(&mut accesses, row);
            assert_eq!([1, 2, 3].map(|list| accesses.best_position(list)), best);
        }
    }

    #[test]
    fn direct_accesses_of_bpa2_in_figure_2() {
        let set = figure_2();
        let positions = positions_in(&set);
        let mut accesses = Accesses::none_yet(set.lend(), &positions);
        for position in [1, 2, 3, 7] {
            for list in 1..=3 {
                let went_to = direct_access_in_list(&mut accesses, list);
                assert_eq!(went_to, Some(position));
            }
        }
    }

    #[test]
    fn a_round_uses_best_positions_as_they_are_now() {
        let set = set_e();
        let positions = positions_in(&set);
        let mut accesses = Accesses::none_yet(set.lend(), &positions);
        assert_eq!(direct_access_in_list(&mut accesses, 1), Some(1));
        assert_eq!(direct_access_in_list(&mut accesses, 2), Some(2));
        assert_eq!(accesses.tally, [1, 1, 1, 1]);
    }

    #[test]
    fn a_list_whose_best_position_is_n_is_passed_over() {
        let set = set_b();
        let positions = positions_in(&set);
        let mut accesses = Accesses::none_yet(set.lend(), &positions);
        let query = sum_with_weights_1(3, 4);
        assert_eq!(run_bpa2(&query, &mut accesses).rows, 2);
        // Two rounds of three lists would be six: all items are met after the fifth.
        assert_eq!(accesses.direct, 5);
        assert_eq!(direct_access_in_list(&mut accesses, 3), None);
        assert_eq!(accesses.direct, 5);
    }
}
