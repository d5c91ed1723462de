//! NRA, kept up row by row, and the same search with bounds recomputed in each row: every one, or only those that its test asks.
#![forbid(unsafe_code)]

use crate::query::{Lent, Tested};
use crate::Done;

/// The k greatest marks are kept in the highs, which are not written until the shortlist is.
pub fn nra(query: &Tested, lent: &mut Lent) -> Done {
    let work = &lent.work[..query.m * query.n];
    let (mut marks, mut met) = ([0; 1024], [0; 1024]);
    let tops = &mut lent.highs[..query.k];
    tops.fill(0);
    let mut kept = Kept {
        marks: &mut marks[..query.n],
        tops,
        met: &mut met[..query.n],
        count: 0,
    };
    let rows = stopping_row(query, work, &mut kept);
    let (top, count) = (kept.tops[query.k - 1], kept.count);
    let mut shortlist = Shortlist::over(query.k, lent.picks, lent.lows, lent.highs);
    for &item in &met[..count] {
        let mark = marks[usize::from(item)];
        if top <= mark {
            shortlist.keep(item, mark - 1, query.high(usize::from(item), rows, work));
        }
    }
    tallied(query, rows, lent.tally)
}

/// What is kept from row to row. An item's mark is its low and one more, or 0 where it is not met; the k greatest marks fall; the items
/// met stand in the order in which they were.
struct Kept<'a> {
    marks: &'a mut [u32],
    tops: &'a mut [u32],
    met: &'a mut [u16],
    count: usize,
}

/// The item met that last stood in the way of stopping is asked first: mostly it still does.
fn stopping_row(query: &Tested, work: &[u16], kept: &mut Kept) -> usize {
    let mut obstacle = 0;
    for rows in 1..=query.n {
        for list in 0..query.m {
            kept.read(query, query.items[list * query.n + rows - 1], rows, work);
        }
        let Some(bar) = kept.tops[query.k - 1].checked_sub(1) else {
            continue;
        };
        if kept.count < query.n && bar < unmet_high(query, rows) {
            continue;
        }
        match kept.first_in_the_way(query, obstacle, rows, bar, work) {
            Some(entry) => obstacle = entry,
            None if kept.few_above(query, rows, bar, work) => return rows,
            None => {}
        }
    }
    query.n
}

/// Items that are not met have the row's threshold for their high.
fn unmet_high(query: &Tested, rows: usize) -> u32 {
    query.overall(|list| u32::from(query.scores[list * query.n + rows - 1]))
}

impl Kept<'_> {
    fn read(&mut self, query: &Tested, item: u16, rows: usize, work: &[u16]) {
        let place = usize::from(item);
        let new = query.low(place, rows, work) + 1;
        let old = self.marks[place];
        self.marks[place] = new;
        raise(old, new, self.tops);
        if old == 0 {
            self.met[self.count] = item;
            self.count += 1;
        }
    }

    /// From `first` on and then from the front: an item met whose high is above the bar while its low does not reach it.
    fn first_in_the_way(
        &self,
        query: &Tested,
        first: usize,
        rows: usize,
        bar: u32,
        work: &[u16],
    ) -> Option<usize> {
        let in_the_way = |&entry: &usize| {
            let item = usize::from(self.met[entry]);
            self.marks[item] <= bar && bar < query.high(item, rows, work)
        };
        (first..self.count)
            .find(in_the_way)
            .or_else(|| (0..first).find(in_the_way))
    }

    /// At most k highs are above the bar; that is so at once where at most k lows reach it.
    fn few_above(&self, query: &Tested, rows: usize, bar: u32, work: &[u16]) -> bool {
        let few = |count: usize| count <= query.k;
        let reaches = |&&item: &&u16| bar < self.marks[usize::from(item)];
        few(self.met[..self.count].iter().filter(reaches).count())
            || few((0..query.n)
                .filter(|&item| bar < query.high(item, rows, work))
                .count())
    }
}

/// The greatest marks where one that was `old` is now `new`: its own entry goes where it has one, else the least.
fn raise(old: u32, new: u32, tops: &mut [u32]) {
    let last = tops.len() - 1;
    if new <= tops[last] {
        return;
    }
    let mut at = last;
    while 0 < at && tops[at] < old {
        at -= 1;
    }
    while 0 < at && tops[at - 1] < new {
        tops[at] = tops[at - 1];
        at -= 1;
    }
    tops[at] = new;
}

/// The first k by low falling, high falling, item rising.
struct Shortlist<'a> {
    picks: &'a mut [u16],
    lows: &'a mut [u32],
    highs: &'a mut [u32],
    filled: usize,
}

impl<'a> Shortlist<'a> {
    fn over(
        k: usize,
        picks: &'a mut [u16],
        lows: &'a mut [u32],
        highs: &'a mut [u32],
    ) -> Shortlist<'a> {
        Shortlist {
            picks: &mut picks[..k],
            lows: &mut lows[..k],
            highs: &mut highs[..k],
            filled: 0,
        }
    }

    fn rank(
        &mut self,
        query: &Tested,
        rows: usize,
        work: &[u16],
        bounds: impl Fn(usize) -> (u32, u32),
    ) {
        self.filled = 0;
        for item in 0..query.n {
            if query.seen(item, rows, work) {
                let (low, high) = bounds(item);
                self.keep(item as u16, low, high);
            }
        }
    }

    fn keep(&mut self, item: u16, low: u32, high: u32) {
        let mut at = self.filled;
        if at == self.picks.len() {
            at -= 1;
            if !self.belongs_before(item, low, high, at) {
                return;
            }
        } else {
            self.filled += 1;
        }
        while 0 < at && self.belongs_before(item, low, high, at - 1) {
            self.picks[at] = self.picks[at - 1];
            self.lows[at] = self.lows[at - 1];
            self.highs[at] = self.highs[at - 1];
            at -= 1;
        }
        self.picks[at] = item;
        self.lows[at] = low;
        self.highs[at] = high;
    }

    fn belongs_before(&self, item: u16, low: u32, high: u32, at: usize) -> bool {
        (self.lows[at], self.highs[at]) < (low, high)
            || ((self.lows[at], self.highs[at]) == (low, high) && item < self.picks[at])
    }
}

fn tallied(query: &Tested, rows: usize, tally: &mut [u8]) -> Done {
    for tally in tally[..query.m * query.n].chunks_exact_mut(query.n) {
        tally[..rows].fill(1);
        tally[rows..].fill(0);
    }
    Done {
        rows,
        sorted: rows * query.m,
        direct: 0,
        random: 0,
    }
}

/// As the search is described: in each row every bound of every item is computed, the first k are made anew from them, and every other
/// item's high is asked.
pub fn recomputed(query: &Tested, lent: &mut Lent) -> Done {
    let mut bounds = [(0, 0); 1024];
    row_by_row(query, lent, |shortlist, rows, work| {
        for (item, bound) in bounds[..query.n].iter_mut().enumerate() {
            *bound = (query.low(item, rows, work), query.high(item, rows, work));
        }
        shortlist.rank(query, rows, work, |item| bounds[item]);
        shortlist.stands(query.n, |item| bounds[item].1)
    })
}

/// The same, but a bound is computed only where it is asked: both of a met item, and the other highs up to one that is in the way.
pub fn recomputed_where_asked(query: &Tested, lent: &mut Lent) -> Done {
    row_by_row(query, lent, |shortlist, rows, work| {
        let high = |item| query.high(item, rows, work);
        shortlist.rank(query, rows, work, |item| {
            (query.low(item, rows, work), high(item))
        });
        shortlist.stands(query.n, high)
    })
}

fn row_by_row(
    query: &Tested,
    lent: &mut Lent,
    mut stands_after: impl FnMut(&mut Shortlist, usize, &[u16]) -> bool,
) -> Done {
    let work = &lent.work[..query.m * query.n];
    let mut shortlist = Shortlist::over(query.k, lent.picks, lent.lows, lent.highs);
    let mut rows = 1;
    while !stands_after(&mut shortlist, rows, work) && rows < query.n {
        rows += 1;
    }
    tallied(query, rows, lent.tally)
}

impl Shortlist<'_> {
    fn stands(&self, n: usize, high: impl Fn(usize) -> u32) -> bool {
        let k = self.picks.len();
        let kept = |item: usize| self.picks.contains(&(item as u16));
        let last = self.lows[k - 1];
        self.filled == k && (0..n).all(|item| high(item) <= last || kept(item))
    }
}
