//! The calls that are compared, drawn at random. A seed and a number give the same calls always.

use super::calls::{Calls, Lent, Records, FUNCTIONS};
use super::families::{set_of, sizes, Family, SMALL};
use crate::cases::generator::Generator;
use crate::cases::sets::{list_record, query_record, weight_bytes, with_length_field, OwnedSet};

/// Of so many draws one is of m = 8, n = 1,024, or of a middle size.
const DRAWS_FOR_A_FULL_SIZE: u64 = 10_000;
const DRAWS_FOR_A_MIDDLE_SIZE: u64 = 200;

/// m, n and k before anything is damaged.
#[derive(Clone, Copy)]
struct Sizes {
    m: usize,
    n: usize,
    k: usize,
}

impl Sizes {
    fn entries(&self) -> usize {
        self.m * self.n
    }
}

/// A change after which the call may be refused.
type Damage<T> = fn(&mut Generator, &Sizes, &mut T);

pub fn draw(seed: u64, number: u64) -> (Family, Calls) {
    // Mixed twice, so that neither neighbouring seeds nor neighbouring numbers share what is drawn.
    let of_seed = Generator::seeded(seed).any();
    let mut generator = Generator::seeded(Generator::seeded(of_seed ^ number).any());
    let family = if number % DRAWS_FOR_A_FULL_SIZE == DRAWS_FOR_A_FULL_SIZE / 2 {
        Family::FullSize
    } else if number % DRAWS_FOR_A_MIDDLE_SIZE == DRAWS_FOR_A_MIDDLE_SIZE - 1 {
        Family::MiddleSize
    } else {
        SMALL[generator.between(0, SMALL.len() - 1)]
    };
    (family, calls_of(&mut generator, family))
}

fn calls_of(generator: &mut Generator, family: Family) -> Calls {
    let (m, n) = sizes(generator, family);
    let k = match family {
        Family::AllPlaces => n,
        _ => generator.between(1, n),
    };
    let sizes = Sizes { m, n, k };
    let weights = match family {
        Family::ZeroWeights => vec![0; m],
        Family::GreatestValues => vec![1_000; m],
        _ => generator.weights(m),
    };
    let set = set_of(generator, family, m, n);
    let mut lent = lent_for(generator, &sizes, &set, &weights);
    let mut records = records_for(generator, &sizes, &set, &weights);
    // The few great sets are for what the searches do, not for refusals.
    if family != Family::FullSize {
        damaged(generator, &sizes, &mut lent, &OF_CALLS);
        damaged(generator, &sizes, &mut records, &OF_QUERIES);
        damaged(generator, &sizes, &mut records, &OF_LISTS);
    }
    Calls {
        lent,
        records,
        at_ends: [(); FUNCTIONS.len()].map(|()| generator.any() as u16),
        told_as_lent: generator.any() as u8,
    }
}

/// None in half of the draws, else one or two.
fn damaged<T>(generator: &mut Generator, sizes: &Sizes, to: &mut T, kinds: &[&[Damage<T>]]) {
    let how_many = [0, 0, 0, 0, 0, 0, 1, 1, 1, 1, 2, 2][generator.between(0, 11)];
    for _ in 0..how_many {
        let of_a_number = kinds[generator.between(0, kinds.len() - 1)];
        of_a_number[generator.between(0, of_a_number.len() - 1)](generator, sizes, to);
    }
}

fn lent_for(generator: &mut Generator, sizes: &Sizes, set: &OwnedSet, weights: &[u16]) -> Lent {
    let &Sizes { m, n, k } = sizes;
    Lent {
        m: m as u64,
        n: n as u64,
        rule: generator.between(0, 2) as u8,
        k: k as u64,
        weights: weight_bytes(weights),
        items: with_more(generator, &set.items),
        scores: with_more(generator, &set.scores),
        picks: room(generator, k),
        lows: room(generator, k),
        highs: room(generator, k),
        tally: room(generator, m * n),
        work: room(generator, m * n),
    }
}

/// Exactly as long as needed, or longer.
fn longer(generator: &mut Generator) -> usize {
    match generator.between(0, 7) {
        0..4 => 0,
        7 => generator.between(6, 70),
        _ => generator.between(1, 5),
    }
}

/// Anything may stand in a slice that is lent to be written, and behind the entries of a list.
fn filled<T: FromDrawn>(generator: &mut Generator, length: usize) -> Vec<T> {
    (0..length)
        .map(|_| T::from_drawn(generator.any()))
        .collect()
}

trait FromDrawn {
    fn from_drawn(drawn: u64) -> Self;
}

impl FromDrawn for u8 {
    fn from_drawn(drawn: u64) -> u8 {
        drawn as u8
    }
}

impl FromDrawn for u16 {
    fn from_drawn(drawn: u64) -> u16 {
        drawn as u16
    }
}

impl FromDrawn for u32 {
    fn from_drawn(drawn: u64) -> u32 {
        drawn as u32
    }
}

fn room<T: FromDrawn>(generator: &mut Generator, needed: usize) -> Vec<T> {
    let length = needed + longer(generator);
    filled(generator, length)
}

fn with_more(generator: &mut Generator, entries: &[u16]) -> Vec<u16> {
    let more = longer(generator);
    let behind: Vec<u16> = filled(generator, more);
    [entries, &behind].concat()
}

/// The query has no weights, as many as there are lists, or another number of them; other bytes may
/// follow it.
fn records_for(
    generator: &mut Generator,
    sizes: &Sizes,
    set: &OwnedSet,
    weights: &[u16],
) -> Records {
    let own: Vec<u16> = match generator.between(0, 9) {
        0..3 => Vec::new(),
        3..8 => weights.to_vec(),
        8 => filled_up_to(generator, 12),
        _ => filled_up_to(generator, 255),
    };
    let (rule, k) = match generator.between(0, 3) {
        0 => (generator.any() as u8, generator.any() as u16),
        _ => (generator.between(0, 2) as u8, sizes.k as u16),
    };
    let mut query = query_record(rule, k, &own);
    let behind = longer(generator);
    query.extend(filled::<u8>(generator, behind));
    let house: Vec<u16> = filled(generator, sizes.m);
    Records {
        query,
        lists: list_record(set, &house),
        items: room(generator, sizes.entries()),
        scores: room(generator, sizes.entries()),
    }
}

fn filled_up_to(generator: &mut Generator, most: usize) -> Vec<u16> {
    let length = generator.between(0, most);
    filled(generator, length)
}

/// Shorter than needed: by one, empty, or anything between.
fn shorter<T>(generator: &mut Generator, slice: &mut Vec<T>, needed: usize) {
    slice.truncate(match generator.between(0, 2) {
        0 => needed - 1,
        1 => 0,
        _ => generator.between(0, needed - 1),
    });
}

/// Numbers that a cut to fewer bits would let pass among them.
fn too_great(generator: &mut Generator, most: usize) -> u64 {
    match generator.between(0, 5) {
        0..3 => most as u64 + 1,
        3 => generator.any().max(1 << 40),
        4 => (1 << [8, 16, 32, 63][generator.between(0, 3)]) + generator.between(1, most) as u64,
        _ => u64::MAX,
    }
    .max(most as u64 + 1)
}

/// By the number that each alone is refused by, 1 to 9, and entries overwritten at random.
const OF_CALLS: [&[Damage<Lent>]; 10] = [
    &[
        |_, _, lent| lent.m = 0,
        |_, _, lent| lent.n = 0,
        |generator, _, lent| lent.m = too_great(generator, 8),
        |generator, _, lent| lent.n = too_great(generator, 1_024),
    ],
    &[
        |_, _, lent| lent.k = 0,
        |generator, sizes, lent| lent.k = too_great(generator, sizes.n),
    ],
    &[
        |_, _, lent| lent.rule = 3,
        |generator, _, lent| lent.rule = generator.between(3, 255) as u8,
    ],
    &[
        |generator, _, lent| shorten_weights(generator, lent),
        |generator, _, lent| lent.weights.extend(&[0; 2][generator.between(0, 1)..]),
        |generator, sizes, lent| weight_above_1_000(generator, sizes, lent),
        |generator, sizes, lent| weight_above_1_000(generator, sizes, lent),
    ],
    &[
        |generator, sizes, lent| shorter(generator, &mut lent.items, sizes.entries()),
        |generator, sizes, lent| shorter(generator, &mut lent.scores, sizes.entries()),
    ],
    &[
        |generator, sizes, lent| shorter(generator, &mut lent.picks, sizes.k),
        |generator, sizes, lent| shorter(generator, &mut lent.lows, sizes.k),
        |generator, sizes, lent| shorter(generator, &mut lent.highs, sizes.k),
        |generator, sizes, lent| shorter(generator, &mut lent.tally, sizes.entries()),
        |generator, sizes, lent| shorter(generator, &mut lent.work, sizes.entries()),
    ],
    &[|generator, sizes, lent| {
        let item = match generator.between(0, 1) {
            0 => sizes.n as u16,
            _ => generator.between(sizes.n, 65_535) as u16,
        };
        set_entry(
            &mut lent.items,
            generator.between(0, sizes.entries() - 1),
            item,
        );
    }],
    &[|generator, sizes, lent| item_twice(generator, sizes, lent)],
    &[|generator, sizes, lent| score_that_rises(generator, sizes, lent)],
    &[|generator, sizes, lent| {
        for _ in 0..generator.between(1, 3) {
            let at = generator.between(0, sizes.entries() - 1);
            set_entry(&mut lent.items, at, generator.between(0, sizes.n) as u16);
            let at = generator.between(0, sizes.entries() - 1);
            set_entry(&mut lent.scores, at, generator.any() as u16);
        }
    }],
];

fn shorten_weights(generator: &mut Generator, lent: &mut Lent) {
    let length = lent.weights.len();
    if length > 0 {
        shorter(generator, &mut lent.weights, length);
    }
}

fn weight_above_1_000(generator: &mut Generator, sizes: &Sizes, lent: &mut Lent) {
    let list = generator.between(0, sizes.m - 1);
    let weight = match generator.between(0, 1) {
        0 => 1_001,
        _ => generator.between(1_001, 65_535) as u16,
    };
    if let Some(pair) = lent.weights.chunks_exact_mut(2).nth(list) {
        pair.copy_from_slice(&weight.to_be_bytes());
    }
}

/// An earlier damage may have taken the place away.
fn set_entry(entries: &mut [u16], at: usize, to: u16) {
    if let Some(entry) = entries.get_mut(at) {
        *entry = to;
    }
}

fn item_twice(generator: &mut Generator, sizes: &Sizes, lent: &mut Lent) {
    let first = generator.between(0, sizes.m - 1) * sizes.n;
    let earlier = first + generator.between(0, sizes.n - 1);
    let later = generator.between(earlier, first + sizes.n - 1);
    if let Some(&item) = lent.items.get(earlier) {
        set_entry(&mut lent.items, later, item);
    }
}

/// By one or more, within a list and where the score before leaves room.
fn score_that_rises(generator: &mut Generator, sizes: &Sizes, lent: &mut Lent) {
    if sizes.n == 1 {
        return;
    }
    let list = generator.between(0, sizes.m - 1) * sizes.n;
    let at = list + generator.between(1, sizes.n - 1);
    if let Some(&before) = lent.scores.get(at - 1) {
        let least = usize::from(before) + 1;
        let score = match generator.between(0, 1) {
            0 => least,
            _ => generator.between(least.min(65_535), 65_535),
        };
        set_entry(&mut lent.scores, at, score.min(65_535) as u16);
    }
}

/// By 10, 12, 13 and 11.
const OF_QUERIES: [&[Damage<Records>]; 4] = [
    &[|generator, _, records| records.query.truncate(generator.between(0, 8))],
    &[|generator, _, records| set_byte(&mut records.query, 4, other_than_1(generator))],
    &[
        |generator, _, records| other_length(generator, &mut records.query),
        |generator, _, records| set_byte(&mut records.query, 8, generator.any() as u8),
    ],
    &[|generator, _, records| {
        let count = records.query.get(8).map_or(0, |&count| usize::from(count));
        if count > 0 {
            records.query.truncate(generator.between(9, 8 + 2 * count));
        }
    }],
];

/// By 10, 11, 12, 1, 13 and 6.
const OF_LISTS: [&[Damage<Records>]; 6] = [
    &[|generator, _, records| records.lists.truncate(generator.between(0, 7))],
    &[
        |generator, _, records| other_length(generator, &mut records.lists),
        |generator, _, records| {
            let length = generator.between(0, records.lists.len());
            records.lists.truncate(length);
        },
        |_, _, records| {
            records
                .lists
                .truncate(records.lists.len().saturating_sub(1))
        },
        |generator, _, records| {
            let more = generator.between(1, 9);
            records.lists.extend(filled::<u8>(generator, more));
        },
    ],
    &[|generator, _, records| set_byte(&mut records.lists, 4, other_than_1(generator))],
    &[
        |generator, _, records| {
            let m = [0, 9, generator.between(9, 255)][generator.between(0, 2)];
            set_byte(&mut records.lists, 5, m as u8);
        },
        |generator, _, records| {
            let n = [0, 1_025, generator.between(1_025, 65_535)][generator.between(0, 2)];
            set_n(&mut records.lists, n);
        },
    ],
    &[
        |generator, _, records| set_byte(&mut records.lists, 5, generator.between(1, 8) as u8),
        |generator, _, records| set_n(&mut records.lists, generator.between(1, 1_024)),
        |generator, _, records| cut_with_its_length(generator, &mut records.lists),
    ],
    &[
        |generator, sizes, records| shorter(generator, &mut records.items, sizes.entries()),
        |generator, sizes, records| shorter(generator, &mut records.scores, sizes.entries()),
    ],
];

fn other_than_1(generator: &mut Generator) -> u8 {
    [0, 2, generator.between(2, 255) as u8][generator.between(0, 2)]
}

fn set_byte(record: &mut [u8], at: usize, to: u8) {
    if let Some(byte) = record.get_mut(at) {
        *byte = to;
    }
}

fn set_n(record: &mut [u8], n: usize) {
    let [high, low] = (n as u16).to_be_bytes();
    set_byte(record, 6, high);
    set_byte(record, 7, low);
}

/// Off by a little, or anything.
fn other_length(generator: &mut Generator, record: &mut Vec<u8>) {
    if record.len() < 4 {
        return;
    }
    let length = u32::from_be_bytes([record[0], record[1], record[2], record[3]]);
    let other = match generator.between(0, 4) {
        0 => length.wrapping_add(1),
        1 => length.wrapping_sub(1),
        2 => length.wrapping_add(generator.between(2, 5) as u32),
        3 => generator.any() as u32,
        _ => u32::MAX - generator.between(0, 9) as u32,
    };
    *record = with_length_field(record, other);
}

/// Fewer bytes than the counts say, with a length that fits the bytes.
fn cut_with_its_length(generator: &mut Generator, record: &mut Vec<u8>) {
    if record.len() < 9 {
        return;
    }
    record.truncate(generator.between(8, record.len() - 1));
    *record = with_length_field(record, record.len() as u32 - 4);
}

#[cfg(test)]
mod tests {
    use super::*;

    #[test]
    fn a_seed_and_a_number_give_the_same_calls() {
        let written = |seed, number| {
            let (_, calls) = draw(seed, number);
            let mut bytes = Vec::new();
            (0..FUNCTIONS.len()).for_each(|function| calls.write(function, &mut bytes));
            bytes
        };
        assert_eq!(written(1, 7), written(1, 7));
        assert_ne!(written(1, 7), written(1, 8));
        assert_ne!(written(1, 7), written(2, 7));
    }
}
