//! The families of pose sets that are compared.

use crate::cases::generator::{random_set, Generator, Shape};
use crate::cases::sets::OwnedSet;
use std::cmp::Reverse;

#[derive(Clone, Copy, Debug, PartialEq, Eq)]
pub enum Family {
    Uniform,
    Gaussian,
    Correlated,
    HeavyTies,
    AllEqual,
    AntiCorrelated,
    SameLists,
    OneList,
    OneItem,
    AllPlaces,
    ZeroWeights,
    GreatestValues,
    MiddleSize,
    FullSize,
}

/// Those of which any draw may be; the last two are drawn seldom.
pub const SMALL: [Family; 12] = [
    Family::Uniform,
    Family::Gaussian,
    Family::Correlated,
    Family::HeavyTies,
    Family::AllEqual,
    Family::AntiCorrelated,
    Family::SameLists,
    Family::OneList,
    Family::OneItem,
    Family::AllPlaces,
    Family::ZeroWeights,
    Family::GreatestValues,
];

pub const ALL_NAMED: [(Family, &str); 14] = [
    (Family::Uniform, "uniform"),
    (Family::Gaussian, "Gaussian"),
    (Family::Correlated, "correlated"),
    (Family::HeavyTies, "heavy ties"),
    (Family::AllEqual, "all equal"),
    (Family::AntiCorrelated, "anti-correlated"),
    (Family::SameLists, "the same list m times"),
    (Family::OneList, "m = 1"),
    (Family::OneItem, "n = 1"),
    (Family::AllPlaces, "k = n"),
    (Family::ZeroWeights, "all weights 0"),
    (Family::GreatestValues, "greatest scores, weights"),
    (Family::MiddleSize, "n 25 to 200"),
    (Family::FullSize, "m = 8, n = 1,024"),
];

/// How scores are made, for the families that say nothing of it.
const SCORES: [Family; 7] = [
    Family::Uniform,
    Family::Gaussian,
    Family::Correlated,
    Family::HeavyTies,
    Family::AllEqual,
    Family::AntiCorrelated,
    Family::SameLists,
];

/// Mostly few items: what a search can do wrong shows there, and many sets are tried.
pub fn sizes(generator: &mut Generator, family: Family) -> (usize, usize) {
    let m = generator.between(1, 8);
    let most = [3, 6, 12, 24][generator.between(0, 3)];
    match family {
        Family::OneList => (1, generator.between(1, most)),
        Family::OneItem => (m, 1),
        Family::MiddleSize => (m, generator.between(25, 200)),
        Family::FullSize => (8, 1_024),
        _ => (m, generator.between(1, most)),
    }
}

pub fn set_of(generator: &mut Generator, family: Family, m: usize, n: usize) -> OwnedSet {
    let shape = match family {
        Family::Uniform => Shape::Uniform,
        Family::HeavyTies => Shape::Ties,
        Family::AllEqual => Shape::AllEqual,
        Family::AntiCorrelated => Shape::AntiCorrelated,
        Family::SameLists => Shape::SameLists,
        Family::GreatestValues => return greatest_values(generator, m, n),
        Family::Gaussian => return gaussian(generator, m, n),
        Family::Correlated => {
            let first = in_random_order(generator, n);
            let alpha = [1, 10, 100, 500, 1_000][generator.between(0, 4)];
            let mut set = correlated(generator, m, first, alpha);
            score_by_zipf(&mut set, || generator.score_up_to(65_535));
            return set;
        }
        _ => {
            let scores = SCORES[generator.between(0, SCORES.len() - 1)];
            return set_of(generator, scores, m, n);
        }
    };
    random_set(generator, shape, m, n)
}

/// Ties again, and raised so that the best score is the greatest there is.
fn greatest_values(generator: &mut Generator, m: usize, n: usize) -> OwnedSet {
    let mut set = random_set(generator, Shape::Ties, m, n);
    for scores in set.scores.chunks_exact_mut(n) {
        let by = 65_535 - scores[0];
        scores.iter_mut().for_each(|score| *score += by);
    }
    set
}

/// Independent lists of scores around the middle: the sum of twelve even draws.
fn gaussian(generator: &mut Generator, m: usize, n: usize) -> OwnedSet {
    let mut set = OwnedSet::flat(m, n, 0);
    for list in 0..m {
        let mut entries: Vec<(u16, u16)> = (0..n as u16)
            .map(|item| (item, (0..12).map(|_| generator.score_up_to(5_461)).sum()))
            .collect();
        entries.sort_by_key(|entry| Reverse(entry.1));
        for (at, (item, score)) in entries.into_iter().enumerate() {
            set.items[list * n + at] = item;
            set.scores[list * n + at] = score;
        }
    }
    set
}

pub fn in_random_order(generator: &mut Generator, n: usize) -> Vec<u16> {
    let mut items: Vec<u16> = (0..n as u16).collect();
    generator.shuffle(&mut items);
    items
}

/// As document 000, section 6.1, makes them, with alpha in thousandths and no scores yet. The first
/// list is given. In each other an item goes to a distance r from its position there, r from 1 to n
/// times alpha, or to the nearest position that is free.
pub fn correlated(
    generator: &mut Generator,
    m: usize,
    first: Vec<u16>,
    alpha_in_thousandths: usize,
) -> OwnedSet {
    let n = first.len();
    let farthest = (n * alpha_in_thousandths / 1_000).max(1);
    let mut set = OwnedSet::flat(m, n, 0);
    for list in 1..m {
        let mut placed: Vec<Option<u16>> = vec![None; n];
        for (at, &item) in first.iter().enumerate() {
            let wished = at_a_distance(generator, at, farthest, n);
            let free = nearest_free(&placed, wished);
            placed[free] = Some(item);
        }
        for (at, item) in placed.into_iter().enumerate() {
            set.items[list * n + at] = item.expect("as many positions as items");
        }
    }
    set.items[..n].copy_from_slice(&first);
    set
}

/// The scores of each list follow Zipf's law with 0.7, from the list's greatest down.
pub fn score_by_zipf(set: &mut OwnedSet, mut greatest_of_a_list: impl FnMut() -> u16) {
    let shares: Vec<u32> = (1..=set.n).map(|rank| u32::from(zipf(rank))).collect();
    for scores in set.scores.chunks_exact_mut(set.n) {
        let greatest = u32::from(greatest_of_a_list());
        for (score, share) in scores.iter_mut().zip(&shares) {
            *score = (greatest * share / 65_535) as u16;
        }
    }
}

/// A position at the distance drawn, on either side, and inside the list.
fn at_a_distance(generator: &mut Generator, at: usize, farthest: usize, n: usize) -> usize {
    let distance = generator.between(1, farthest);
    if generator.between(0, 1) == 0 {
        at.saturating_sub(distance)
    } else {
        (at + distance).min(n - 1)
    }
}

fn nearest_free(placed: &[Option<u16>], wished: usize) -> usize {
    (0..placed.len())
        .filter(|&at| placed[at].is_none())
        .min_by_key(|&at| at.abs_diff(wished))
        .expect("a position is free")
}

/// The whole part of 65,535 / rank^0.7: the greatest s with (s / 65,535)^10 * rank^7 at most 1.
/// Multiplications alone are the same on every machine, powers of fractions are not.
fn zipf(rank: usize) -> u16 {
    let (mut fits, mut too_great) = (0_u32, 65_536_u32);
    while too_great - fits > 1 {
        let middle = (fits + too_great) / 2;
        let share = f64::from(middle) / 65_535.0;
        let mut product = 1.0;
        for factor in 0..17 {
            product *= if factor < 10 { share } else { rank as f64 };
        }
        if product <= 1.0 {
            fits = middle;
        } else {
            too_great = middle;
        }
    }
    fits as u16
}

#[cfg(test)]
mod tests {
    use super::*;
    use crate::lists::check_lists;

    #[test]
    fn zipf_falls_from_the_greatest_score() {
        // 65,535 / 2^0.7 = 40,341.1.. and / 1,024^0.7 = 511.9..
        assert_eq!([zipf(1), zipf(2), zipf(1_024)], [65_535, 40_341, 511]);
        assert!((1..1_024).all(|rank| zipf(rank + 1) <= zipf(rank)));
    }

    #[test]
    fn every_family_makes_sets_that_the_list_check_accepts() {
        let mut generator = Generator::seeded(5);
        for (family, name) in ALL_NAMED {
            for _ in 0..20 {
                let (m, n) = sizes(&mut generator, family);
                let set = set_of(&mut generator, family, m, n);
                let mut work = vec![0; m * n];
                let checked = check_lists(m, n, &set.items, &set.scores, &mut work);
                assert_eq!(checked.number, 0, "{name}");
            }
        }
    }
}
