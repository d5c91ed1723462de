//! Sets to measure with, and how many accesses the searches make on them.

use crate::cases::generator::{random_set, Generator, Shape};
use crate::cases::sets::{weight_bytes, OwnedSet};
use crate::compare::families::{correlated, in_random_order, score_by_zipf};
use crate::searches::SEARCHES;

/// How the lists of a set hang together.
#[derive(Clone, Copy, Debug, PartialEq, Eq)]
pub enum Kind {
    Uniform,
    /// With alpha in thousandths.
    Correlated(usize),
}

impl Kind {
    /// `uniform`, or `alpha=` and thousandths.
    pub fn named(name: &str) -> Option<Kind> {
        if name == "uniform" {
            return Some(Kind::Uniform);
        }
        let thousandths = name.strip_prefix("alpha=")?.parse().ok()?;
        (thousandths <= 1_000).then_some(Kind::Correlated(thousandths))
    }
}

/// The set that kind, sizes and seed settle.
pub fn set_of(kind: Kind, m: usize, n: usize, seed: u64) -> OwnedSet {
    let mut generator = Generator::seeded(seed);
    match kind {
        Kind::Uniform => random_set(&mut generator, Shape::Uniform, m, n),
        Kind::Correlated(alpha) => {
            let first = in_random_order(&mut generator, n);
            let mut set = correlated(&mut generator, m, first, alpha);
            score_by_zipf(&mut set, || u16::MAX);
            set
        }
    }
}

/// m and n, eight bytes each, then the items and the scores of all lists, low byte first.
pub fn bytes_of(set: &OwnedSet) -> Vec<u8> {
    let sizes = [set.m as u64, set.n as u64];
    let entries = set.items.iter().chain(&set.scores);
    let mut bytes: Vec<u8> = sizes.iter().flat_map(|size| size.to_le_bytes()).collect();
    bytes.extend(entries.flat_map(|entry| entry.to_le_bytes()));
    bytes
}

/// All accesses of each search, of whatever kind, for the k greatest sums with every weight 1.
pub fn accesses_of(set: &OwnedSet, k: usize) -> [u64; 4] {
    let size = set.m * set.n;
    let weights = weight_bytes(&vec![1; set.m]);
    SEARCHES.map(|(name, search)| {
        let (mut picks, mut lows, mut highs) = (vec![0; k], vec![0; k], vec![0; k]);
        let (mut tally, mut work) = (vec![0; size], vec![0; size]);
        let answer = search(
            set.m,
            set.n,
            &set.items,
            &set.scores,
            0,
            k,
            &weights,
            &mut picks,
            &mut lows,
            &mut highs,
            &mut tally,
            &mut work,
        );
        assert_eq!(
            answer.number, 0,
            "{name} refuses a set that was made to be accepted"
        );
        u64::from(answer.sorted) + u64::from(answer.direct) + u64::from(answer.random)
    })
}

/// What each search needed of so many sets, seeds from 1 on.
pub struct Measured {
    pub means: [f64; 4],
    pub greatest: [u64; 4],
}

pub fn measured(kind: Kind, m: usize, n: usize, k: usize, sets: u64) -> Measured {
    let mut sums = [0; 4];
    let mut greatest = [0; 4];
    for seed in 1..=sets {
        let counted = accesses_of(&set_of(kind, m, n, seed), k);
        for (search, count) in counted.into_iter().enumerate() {
            sums[search] += count;
            greatest[search] = count.max(greatest[search]);
        }
    }
    Measured {
        means: sums.map(|sum| sum as f64 / sets as f64),
        greatest,
    }
}

#[cfg(test)]
mod tests {
    use super::*;
    use crate::lists::check_lists;

    #[test]
    fn every_set_passes_the_list_check_and_is_settled_by_its_seed() {
        for kind in [
            Kind::Uniform,
            Kind::Correlated(0),
            Kind::Correlated(1),
            Kind::Correlated(1_000),
        ] {
            for (m, n) in [(1, 1), (1, 64), (8, 64), (3, 256)] {
                let set = set_of(kind, m, n, 7);
                let mut work = vec![0; m * n];
                assert_eq!(
                    check_lists(m, n, &set.items, &set.scores, &mut work).number,
                    0
                );
                assert_eq!(set, set_of(kind, m, n, 7));
                assert_eq!(bytes_of(&set).len(), 16 + 4 * m * n);
            }
        }
    }

    /// One list: a row is one access, and the row after which the k-th score stands is k.
    #[test]
    fn one_list_needs_k_accesses() {
        let set = set_of(Kind::Correlated(10), 1, 64, 3);
        assert_eq!(accesses_of(&set, 4), [4, 4, 4, 4]);
        let measured = measured(Kind::Correlated(10), 1, 64, 4, 3);
        assert_eq!((measured.means, measured.greatest), ([4.0; 4], [4; 4]));
    }

    #[test]
    fn kinds_by_name() {
        assert_eq!(Kind::named("uniform"), Some(Kind::Uniform));
        assert_eq!(Kind::named("alpha=10"), Some(Kind::Correlated(10)));
        for wrong in ["", "alpha", "alpha=", "alpha=1001", "alpha=0.5"] {
            assert_eq!(Kind::named(wrong), None);
        }
    }
}
