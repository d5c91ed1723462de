//! What holds for every accepted call, on random small sets: each search against a full scan and
//! against a second way of computing its rows and tally, and the searches against each other.

use rutlark_reference::cases::generator::{random_set, Generator, SHAPES};
use rutlark_reference::cases::sets::OwnedSet;
use rutlark_reference::cases::{SearchCase, Searched};
use std::cmp::Reverse;

const SETS: usize = 4_000;

/// A random set with its query, and each item's position in each list found by scanning.
struct Sample {
    set: OwnedSet,
    rule: u8,
    k: usize,
    weights: Vec<u16>,
    positions: Vec<Vec<usize>>,
}

fn sample(seed: usize) -> Sample {
    let mut generator = Generator::seeded(1_000_000 + seed as u64);
    let (m, n) = (generator.between(1, 6), generator.between(1, 14));
    sample_of_size(generator, seed, m, n)
}

fn sample_of_size(mut generator: Generator, seed: usize, m: usize, n: usize) -> Sample {
    let shape = SHAPES[seed % SHAPES.len()];
    let set = random_set(&mut generator, shape, m, n);
    let of_list = |list: usize| -> Vec<usize> {
        let entries = &set.items[list * n..(list + 1) * n];
        let of_item = |item| entries.iter().position(|&entry| usize::from(entry) == item);
        (0..n).map(|item| of_item(item).unwrap() + 1).collect()
    };
    let positions = (0..m).map(of_list).collect();
    Sample {
        rule: generator.between(0, 2) as u8,
        k: generator.between(1, n),
        weights: if seed.is_multiple_of(2) {
            vec![1; m]
        } else {
            generator.weights(m)
        },
        positions,
        set,
    }
}

impl Sample {
    fn run(&self, which: u8) -> Searched {
        let searched = SearchCase::on(which, &self.set, self.rule, self.k, &self.weights).run();
        assert_eq!(searched.answer.number, 0);
        searched
    }

    fn local(&self, list: usize, position: usize) -> u32 {
        u32::from(self.set.scores[list * self.set.n + position - 1])
    }

    fn overall(&self, local_score: impl Fn(usize) -> u32) -> u32 {
        let product = |list| local_score(list) * u32::from(self.weights[list]);
        let products = (0..self.set.m).map(product);
        match self.rule {
            0 => products.sum(),
            1 => products.min().unwrap(),
            _ => products.max().unwrap(),
        }
    }

    fn score(&self, item: usize) -> u32 {
        self.overall(|list| self.local(list, self.positions[list][item]))
    }

    /// The k best scores of a full scan, best first.
    fn best_scores(&self) -> Vec<u32> {
        let mut scores: Vec<u32> = (0..self.set.n).map(|item| self.score(item)).collect();
        scores.sort_by_key(|&score| Reverse(score));
        scores.truncate(self.k);
        scores
    }

    /// The items that p rows of sorted accesses find; random accesses find no others.
    fn met_by_row(&self, row: usize) -> Vec<bool> {
        (0..self.set.n)
            .map(|item| self.positions.iter().any(|of_list| of_list[item] <= row))
            .collect()
    }

    /// TA, BPA and BPA2 visit a met item everywhere, so a list's best position ends before its
    /// first item not met.
    fn best_position(&self, list: usize, met: &[bool]) -> usize {
        let of_item = &self.positions[list];
        let unmet = (0..self.set.n).filter(|&item| !met[item]);
        unmet
            .map(|item| of_item[item] - 1)
            .min()
            .unwrap_or(self.set.n)
    }

    fn enough_at_or_above(&self, met: &[bool], threshold: u32) -> bool {
        let good = (0..self.set.n).filter(|&item| met[item] && self.score(item) >= threshold);
        good.count() >= self.k
    }

    fn threshold_at_best(&self, met: &[bool]) -> u32 {
        self.overall(|list| self.local(list, self.best_position(list, met)))
    }

    fn rows_of_ta(&self) -> usize {
        let stops = |&row: &usize| {
            let threshold = self.overall(|list| self.local(list, row));
            self.enough_at_or_above(&self.met_by_row(row), threshold)
        };
        (1..=self.set.n).find(stops).unwrap()
    }

    fn rows_of_bpa(&self) -> usize {
        let stops = |&row: &usize| {
            let met = self.met_by_row(row);
            self.enough_at_or_above(&met, self.threshold_at_best(&met))
        };
        (1..=self.set.n).find(stops).unwrap()
    }

    /// Rounds, the items met at the end, and the direct accesses: each meets a new item.
    fn rounds_of_bpa2(&self) -> (usize, Vec<bool>, usize) {
        let mut met = vec![false; self.set.n];
        for round in 1..=self.set.n {
            for list in 0..self.set.m {
                let best = self.best_position(list, &met);
                if best < self.set.n {
                    met[usize::from(self.set.items[list * self.set.n + best])] = true;
                }
            }
            if self.enough_at_or_above(&met, self.threshold_at_best(&met)) {
                let direct = met.iter().filter(|&&met| met).count();
                return (round, met, direct);
            }
        }
        panic!("BPA2 stops at round n at the latest")
    }

    /// Low and high after a row of NRA.
    fn bounds(&self, row: usize, item: usize) -> (u32, u32) {
        let read = |list: usize| self.positions[list][item] <= row;
        let known = |list: usize| self.local(list, self.positions[list][item]);
        let low = self.overall(|list| if read(list) { known(list) } else { 0 });
        let high = self.overall(|list| {
            if read(list) {
                known(list)
            } else {
                self.local(list, row)
            }
        });
        (low, high)
    }

    /// Rows of NRA and its shortlist, by ranking the met items and asking all others.
    fn nra(&self) -> (usize, Vec<usize>) {
        for row in 1..=self.set.n {
            let met = self.met_by_row(row);
            let mut ranked: Vec<usize> = (0..self.set.n).filter(|&item| met[item]).collect();
            ranked.sort_by_cached_key(|&item| (Reverse(self.bounds(row, item)), item));
            if ranked.len() < self.k {
                continue;
            }
            let lowest_low = self.bounds(row, ranked[self.k - 1]).0;
            let outside = (0..self.set.n).filter(|item| !ranked[..self.k].contains(item));
            if outside
                .into_iter()
                .all(|item| self.bounds(row, item).1 <= lowest_low)
            {
                ranked.truncate(self.k);
                return (row, ranked);
            }
        }
        panic!("NRA stops at row n at the latest")
    }

    /// A tally from what each position was visited for.
    fn tally(&self, times: impl Fn(usize, usize) -> usize) -> Vec<u8> {
        let (m, n) = (self.set.m, self.set.n);
        let at = |place: usize| times(place / n, usize::from(self.set.items[place])) as u8;
        (0..m * n).map(at).collect()
    }

    fn size(&self) -> usize {
        self.set.m * self.set.n
    }
}

fn samples() -> impl Iterator<Item = Sample> {
    (0..SETS).map(sample)
}

/// One of each shape with m = 8 and n = 1,024, for what a small set cannot show.
fn greatest_samples() -> impl Iterator<Item = Sample> {
    (0..SHAPES.len()).map(|seed| {
        let generator = Generator::seeded(2_000_000 + seed as u64);
        sample_of_size(generator, seed, 8, 1_024)
    })
}

fn total(searched: &Searched) -> u32 {
    searched.answer.sorted + searched.answer.direct + searched.answer.random
}

#[test]
fn the_three_scoring_searches_against_a_full_scan() {
    for one in samples() {
        for which in [0, 1, 2] {
            let ran = one.run(which);
            assert_eq!(ran.lows[..one.k], one.best_scores());
            assert_eq!(ran.highs[..one.k], ran.lows[..one.k]);
            for (at, &item) in ran.picks[..one.k].iter().enumerate() {
                assert_eq!(ran.lows[at], one.score(usize::from(item)));
                // Equal scores rise by item, so no item comes twice either.
                assert!(at == 0 || ran.lows[at - 1] > ran.lows[at] || ran.picks[at - 1] < item);
            }
        }
    }
}

#[test]
fn nra_against_a_full_scan() {
    for one in samples() {
        let ran = one.run(3);
        let mut scores = Vec::new();
        for (at, &item) in ran.picks[..one.k].iter().enumerate() {
            let score = one.score(usize::from(item));
            assert!(ran.lows[at] <= score && score <= ran.highs[at]);
            scores.push(score);
        }
        scores.sort_by_key(|&score| Reverse(score));
        assert_eq!(scores, one.best_scores());
    }
}

#[test]
fn rows_and_tally_of_ta_and_bpa_computed_another_way() {
    for one in samples().chain(greatest_samples()) {
        for (which, rows) in [(0, one.rows_of_ta()), (1, one.rows_of_bpa())] {
            let ran = one.run(which);
            assert_eq!(ran.answer.rows as usize, rows);
            // Each list that shows the item within the rows sends a visit to all its positions.
            let shown = |item: usize| {
                one.positions
                    .iter()
                    .filter(|list| list[item] <= rows)
                    .count()
            };
            assert_eq!(ran.tally[..one.size()], one.tally(|_, item| shown(item)));
            let m = one.set.m as u32;
            assert_eq!(ran.answer.sorted, m * ran.answer.rows);
            assert_eq!(ran.answer.random, m * (m - 1) * ran.answer.rows);
            assert_eq!(ran.answer.direct, 0);
        }
    }
}

#[test]
fn rounds_and_tally_of_bpa2_computed_another_way() {
    for one in samples().chain(greatest_samples()) {
        let ran = one.run(2);
        let (rounds, met, direct) = one.rounds_of_bpa2();
        assert_eq!(ran.answer.rows as usize, rounds);
        assert_eq!(
            ran.tally[..one.size()],
            one.tally(|_, item| usize::from(met[item]))
        );
        assert_eq!((ran.answer.sorted, ran.answer.direct as usize), (0, direct));
        assert_eq!(ran.answer.random as usize, direct * (one.set.m - 1));
    }
}

#[test]
fn rows_bounds_and_tally_of_nra_computed_another_way() {
    for one in samples().chain(greatest_samples()) {
        let ran = one.run(3);
        let (rows, shortlist) = one.nra();
        assert_eq!(ran.answer.rows as usize, rows);
        for (at, &item) in shortlist.iter().enumerate() {
            assert_eq!(usize::from(ran.picks[at]), item);
            assert_eq!((ran.lows[at], ran.highs[at]), one.bounds(rows, item));
        }
        let read = |list: usize, item: usize| usize::from(one.positions[list][item] <= rows);
        assert_eq!(ran.tally[..one.size()], one.tally(read));
        assert_eq!(ran.answer.sorted as usize, one.set.m * rows);
        assert_eq!((ran.answer.direct, ran.answer.random), (0, 0));
    }
}

#[test]
fn the_counts_add_up_to_the_tally_and_no_place_passes_m() {
    for one in samples() {
        for which in 0..4 {
            let ran = one.run(which);
            let tally = &ran.tally[..one.size()];
            assert_eq!(
                tally.iter().map(|&times| u32::from(times)).sum::<u32>(),
                total(&ran)
            );
            assert!(tally.iter().all(|&times| usize::from(times) <= one.set.m));
        }
    }
}

#[test]
fn bpa2_visits_nothing_twice() {
    for one in samples() {
        assert!(one.run(2).tally[..one.size()]
            .iter()
            .all(|&times| times <= 1));
    }
}

#[test]
fn rows_and_totals_are_ordered() {
    for one in samples() {
        let [ta, bpa, bpa2] = [0, 1, 2].map(|which| one.run(which));
        assert!(bpa.answer.rows <= ta.answer.rows);
        assert!(bpa2.answer.rows <= bpa.answer.rows);
        assert!(total(&bpa) <= total(&ta));
        assert!(total(&bpa2) <= total(&bpa));
    }
}

#[test]
fn the_work_slice_holds_every_position() {
    for one in samples() {
        for which in 0..4 {
            let work = one.run(which).work;
            let positions = one.positions.concat();
            assert!(work
                .iter()
                .zip(positions)
                .all(|(&entry, position)| usize::from(entry) == position));
        }
    }
}

#[test]
fn the_samples_are_of_many_kinds() {
    let mut differ = [0; 4];
    for one in samples() {
        let [ta, bpa, bpa2, nra] = [0, 1, 2, 3].map(|which| one.run(which).answer.rows);
        differ[0] += usize::from(bpa < ta);
        differ[1] += usize::from(bpa2 < bpa);
        differ[2] += usize::from(nra < ta);
        differ[3] += usize::from(ta < nra);
    }
    assert!(differ.iter().all(|&times| times > SETS / 100), "{differ:?}");
}
