//! A query, its tests, and an item's overall score or a bound on it.
#![forbid(unsafe_code)]

use crate::lists::{check_lists, sizes_allowed, Checked};

pub struct Query<'a> {
    pub m: usize,
    pub n: usize,
    pub items: &'a [u16],
    pub scores: &'a [u16],
    pub rule: u8,
    pub k: usize,
    pub weights: &'a [u8],
}

pub struct Lent<'a> {
    pub picks: &'a mut [u16],
    pub lows: &'a mut [u32],
    pub highs: &'a mut [u32],
    pub tally: &'a mut [u8],
    pub work: &'a mut [u16],
}

/// A query that passed its tests: slices of m x n entries, and the weights as numbers.
pub struct Tested<'a> {
    pub m: usize,
    pub n: usize,
    pub items: &'a [u16],
    pub scores: &'a [u16],
    pub rule: u8,
    pub k: usize,
    pub weights: [u32; 8],
}

fn first_refusal(query: &Query, lent: &Lent) -> u32 {
    if !sizes_allowed(query.m, query.n) {
        return 1;
    }
    if query.k == 0 || query.n < query.k {
        return 2;
    }
    if 2 < query.rule {
        return 3;
    }
    if query.weights.len() != 2 * query.m
        || decoded(query.weights).iter().any(|&weight| 1000 < weight)
    {
        return 4;
    }
    let size = query.m * query.n;
    if query.items.len() < size || query.scores.len() < size {
        return 5;
    }
    let shortlist = lent.picks.len().min(lent.lows.len()).min(lent.highs.len());
    if shortlist < query.k || lent.tally.len() < size || lent.work.len() < size {
        return 6;
    }
    0
}

fn decoded(bytes: &[u8]) -> [u32; 8] {
    let mut weights = [0; 8];
    for (weight, pair) in weights.iter_mut().zip(bytes.chunks_exact(2)) {
        *weight = u32::from(u16::from_be_bytes([pair[0], pair[1]]));
    }
    weights
}

/// The tests of a search, the list check included.
pub fn tested<'a>(query: &Query<'a>, lent: &mut Lent) -> Result<Tested<'a>, Checked> {
    let number = first_refusal(query, lent);
    if number != 0 {
        return Err(Checked::refusal(number));
    }
    let checked = check_lists(query.m, query.n, query.items, query.scores, lent.work);
    if checked.number != 0 {
        return Err(checked);
    }
    let size = query.m * query.n;
    Ok(Tested {
        m: query.m,
        n: query.n,
        items: &query.items[..size],
        scores: &query.scores[..size],
        rule: query.rule,
        k: query.k,
        weights: decoded(query.weights),
    })
}

impl Tested<'_> {
    /// The products of local scores and weights under the rule.
    #[inline]
    pub fn overall(&self, local: impl Fn(usize) -> u32) -> u32 {
        let products = self.weights[..self.m]
            .iter()
            .enumerate()
            .map(|(list, &weight)| local(list) * weight);
        match self.rule {
            0 => products.sum(),
            1 => products.min().unwrap_or(0),
            _ => products.max().unwrap_or(0),
        }
    }

    pub fn total(&self, item: usize, work: &[u16]) -> u32 {
        self.overall(|list| {
            let base = list * self.n;
            u32::from(self.scores[base + usize::from(work[base + item]) - 1])
        })
    }

    /// Local scores down to a depth are read; the others count as 0.
    pub fn low(&self, item: usize, depth: usize, work: &[u16]) -> u32 {
        self.overall(|list| {
            let base = list * self.n;
            let place = usize::from(work[base + item]);
            if place <= depth {
                u32::from(self.scores[base + place - 1])
            } else {
                0
            }
        })
    }

    /// Local scores down to a depth are read; the others are at most the one there.
    pub fn high(&self, item: usize, depth: usize, work: &[u16]) -> u32 {
        self.overall(|list| {
            let base = list * self.n;
            let place = usize::from(work[base + item]).min(depth);
            u32::from(self.scores[base + place - 1])
        })
    }

    /// The item is met after so many rows.
    pub fn seen(&self, item: usize, rows: usize, work: &[u16]) -> bool {
        (0..self.m).any(|list| usize::from(work[list * self.n + item]) <= rows)
    }
}
