//! The first k by a full scan: the overall score of every item, after the same tests and with the same list check.
#![forbid(unsafe_code)]

use crate::query::{Lent, Tested};
use crate::scored::Shortlist;
use crate::Done;

pub fn scan(query: &Tested, lent: &mut Lent) -> Done {
    let mut totals = [0; 1024];
    let totals = &mut totals[..query.n];
    match query.rule {
        0 => join_lists(query, totals, |total, product| total + product),
        1 => join_lists(query, totals, u32::min),
        _ => join_lists(query, totals, u32::max),
    }
    let mut shortlist = Shortlist::over(query.k, lent.picks, lent.lows);
    for (item, &total) in totals.iter().enumerate() {
        shortlist.keep(item as u16, total);
    }
    let k = query.k;
    lent.highs[..k].copy_from_slice(&lent.lows[..k]);
    Done {
        rows: query.n,
        sorted: query.m * query.n,
        direct: 0,
        random: 0,
    }
}

/// List by list, each in its own order: nothing is looked up.
#[inline]
fn join_lists(query: &Tested, totals: &mut [u32], join: impl Fn(u32, u32) -> u32) {
    let lists = query
        .items
        .chunks_exact(query.n)
        .zip(query.scores.chunks_exact(query.n));
    for (list, ((items, scores), weight)) in lists.zip(query.weights).enumerate() {
        for (&item, &score) in items.iter().zip(scores) {
            let total = &mut totals[usize::from(item)];
            let product = u32::from(score) * weight;
            *total = if list == 0 {
                product
            } else {
                join(*total, product)
            };
        }
    }
}
