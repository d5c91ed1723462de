//! TA, BPA and BPA2.
#![forbid(unsafe_code)]

use crate::query::{Lent, Tested};
use crate::Done;

pub fn ta(query: &Tested, lent: &mut Lent) -> Done {
    by_rows(query, lent, |rows, _, _| [rows; 8])
}

pub fn bpa(query: &Tested, lent: &mut Lent) -> Done {
    by_rows(query, lent, |_, best, tally| advanced(query.n, best, tally))
}

/// Row by row, with the positions of the threshold after each.
#[inline]
fn by_rows(
    query: &Tested,
    lent: &mut Lent,
    threshold_at: impl Fn(usize, [usize; 8], &[u8]) -> [usize; 8],
) -> Done {
    let mut search = Search::started(query, lent);
    let mut best = [0; 8];
    for row in 0..query.n {
        for list in 0..query.m {
            search.meet(query.items[list * query.n + row]);
        }
        best = threshold_at(row + 1, best, search.tally);
        if search.stops(row + 1, best) {
            return search.done(row + 1, query.m * (row + 1), 0);
        }
    }
    unreachable!("row n stops")
}

pub fn bpa2(query: &Tested, lent: &mut Lent) -> Done {
    let mut search = Search::started(query, lent);
    let mut best = [0; 8];
    let mut direct = 0;
    for round in 1..=query.n {
        for (list, best) in best[..query.m].iter_mut().enumerate() {
            let base = list * query.n;
            *best = walked_on(&search.tally[base..base + query.n], *best);
            if *best < query.n {
                search.meet(query.items[base + *best]);
                direct += 1;
            }
        }
        best = advanced(query.n, best, search.tally);
        if search.stops(round, best) {
            return search.done(round, 0, direct);
        }
    }
    unreachable!("round n stops")
}

/// The first position from `from` on that was not visited.
fn walked_on(tally: &[u8], from: usize) -> usize {
    tally[from..]
        .iter()
        .position(|&times| times == 0)
        .map_or(tally.len(), |further| from + further)
}

fn advanced(n: usize, mut best: [usize; 8], tally: &[u8]) -> [usize; 8] {
    for (best, tally) in best.iter_mut().zip(tally.chunks_exact(n)) {
        *best = walked_on(tally, *best);
    }
    best
}

/// The first k by score falling, then item rising.
pub struct Shortlist<'a> {
    picks: &'a mut [u16],
    scores: &'a mut [u32],
    filled: usize,
}

impl<'a> Shortlist<'a> {
    pub fn over(k: usize, picks: &'a mut [u16], lows: &'a mut [u32]) -> Shortlist<'a> {
        Shortlist {
            picks: &mut picks[..k],
            scores: &mut lows[..k],
            filled: 0,
        }
    }

    pub fn keep(&mut self, item: u16, score: u32) {
        let mut at = self.filled;
        if at == self.picks.len() {
            at -= 1;
            if !self.belongs_before(item, score, at) {
                return;
            }
        } else {
            self.filled += 1;
        }
        while 0 < at && self.belongs_before(item, score, at - 1) {
            self.picks[at] = self.picks[at - 1];
            self.scores[at] = self.scores[at - 1];
            at -= 1;
        }
        self.picks[at] = item;
        self.scores[at] = score;
    }

    fn belongs_before(&self, item: u16, score: u32, at: usize) -> bool {
        self.scores[at] < score || (self.scores[at] == score && item < self.picks[at])
    }

    /// The k-th score, where there are k.
    fn last(&self) -> Option<u32> {
        (self.filled == self.picks.len()).then(|| self.scores[self.filled - 1])
    }
}

struct Search<'a> {
    query: &'a Tested<'a>,
    shortlist: Shortlist<'a>,
    highs: &'a mut [u32],
    tally: &'a mut [u8],
    work: &'a [u16],
}

impl<'a> Search<'a> {
    fn started(query: &'a Tested, lent: &'a mut Lent) -> Search<'a> {
        let size = query.m * query.n;
        let tally = &mut lent.tally[..size];
        tally.fill(0);
        Search {
            query,
            shortlist: Shortlist::over(query.k, lent.picks, lent.lows),
            highs: &mut lent.highs[..query.k],
            tally,
            work: &lent.work[..size],
        }
    }

    /// One visit of the item in every list and, where it is new, its score and its place in the shortlist.
    fn meet(&mut self, item: u16) {
        let at = usize::from(item);
        let is_new = self.tally[usize::from(self.work[at]) - 1] == 0;
        for list in 0..self.query.m {
            let base = list * self.query.n;
            self.tally[base + usize::from(self.work[base + at]) - 1] += 1;
        }
        if is_new {
            let score = self.query.total(at, self.work);
            self.shortlist.keep(item, score);
        }
    }

    fn stops(&self, rows: usize, best: [usize; 8]) -> bool {
        let query = self.query;
        let threshold =
            || query.overall(|list| u32::from(query.scores[list * query.n + best[list] - 1]));
        rows == query.n
            || self
                .shortlist
                .last()
                .is_some_and(|score| threshold() <= score)
    }

    fn done(self, rows: usize, sorted: usize, direct: usize) -> Done {
        self.highs.copy_from_slice(self.shortlist.scores);
        Done {
            rows,
            sorted,
            direct,
            random: (sorted + direct) * (self.query.m - 1),
        }
    }
}
