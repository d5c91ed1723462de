//! A small seeded generator, and random pose sets of several shapes.

use super::sets::OwnedSet;

/// Splitmix64: the same seed gives the same numbers on every machine.
pub struct Generator(u64);

impl Generator {
    pub fn seeded(seed: u64) -> Generator {
        Generator(seed)
    }

    /// Any number of 64 bits.
    pub fn any(&mut self) -> u64 {
        self.0 = self.0.wrapping_add(0x9E37_79B9_7F4A_7C15);
        let mut mixed = self.0;
        mixed = (mixed ^ (mixed >> 30)).wrapping_mul(0xBF58_476D_1CE4_E5B9);
        mixed = (mixed ^ (mixed >> 27)).wrapping_mul(0x94D0_49BB_1331_11EB);
        mixed ^ (mixed >> 31)
    }

    /// A number from the first to the last, both included. The slight unevenness does no harm.
    pub fn between(&mut self, first: usize, last: usize) -> usize {
        first + (self.any() % (last - first + 1) as u64) as usize
    }

    pub fn score_up_to(&mut self, greatest: u16) -> u16 {
        self.between(0, usize::from(greatest)) as u16
    }

    pub fn shuffle<T>(&mut self, entries: &mut [T]) {
        for last in (1..entries.len()).rev() {
            entries.swap(last, self.between(0, last));
        }
    }

    /// Weights with a zero among them now and then.
    pub fn weights(&mut self, m: usize) -> Vec<u16> {
        (0..m)
            .map(|_| match self.between(0, 5) {
                0 => 0,
                1 => 1_000,
                2 => 1,
                _ => self.between(0, 1_000) as u16,
            })
            .collect()
    }
}

/// How the local scores of an item hang together.
#[derive(Clone, Copy, Debug, PartialEq, Eq)]
pub enum Shape {
    Uniform,
    Ties,
    AllEqual,
    Correlated,
    AntiCorrelated,
    SameLists,
}

pub const SHAPES: [Shape; 6] = [
    Shape::Uniform,
    Shape::Ties,
    Shape::AllEqual,
    Shape::Correlated,
    Shape::AntiCorrelated,
    Shape::SameLists,
];

/// A valid set. Equal scores stand in random item order.
pub fn random_set(generator: &mut Generator, shape: Shape, m: usize, n: usize) -> OwnedSet {
    let quality: Vec<u16> = (0..n).map(|_| generator.score_up_to(60_000)).collect();
    let mut set = OwnedSet {
        m,
        n,
        items: Vec::new(),
        scores: Vec::new(),
    };
    for list in 1..=m {
        if shape == Shape::SameLists && list > 1 {
            set.items.extend_from_within(..n);
            set.scores.extend_from_within(..n);
            continue;
        }
        let mut entries: Vec<(u16, u16)> = (0..n)
            .map(|item| {
                (
                    item as u16,
                    local_score(generator, shape, list, quality[item]),
                )
            })
            .collect();
        generator.shuffle(&mut entries);
        entries.sort_by_key(|entry| std::cmp::Reverse(entry.1));
        set.items.extend(entries.iter().map(|entry| entry.0));
        set.scores.extend(entries.iter().map(|entry| entry.1));
    }
    set
}

fn local_score(generator: &mut Generator, shape: Shape, list: usize, quality: u16) -> u16 {
    match shape {
        Shape::Uniform => generator.score_up_to(65_535),
        Shape::Ties => generator.score_up_to(3),
        Shape::AllEqual => 7,
        Shape::Correlated => quality + generator.score_up_to(5_000),
        Shape::AntiCorrelated if list.is_multiple_of(2) => {
            60_000 - quality + generator.score_up_to(50)
        }
        Shape::AntiCorrelated => quality + generator.score_up_to(50),
        Shape::SameLists => quality,
    }
}
