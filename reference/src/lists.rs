//! The pose set and the list check.

use std::ops::RangeInclusive;

pub const MOST_LISTS: usize = 8;
pub const MOST_ITEMS: usize = 1_024;

/// m lists over n items, lent as an item slice and a score slice. Entries past m x n are never
/// looked at.
#[derive(Clone, Copy)]
pub struct PoseSet<'a> {
    pub m: usize,
    pub n: usize,
    pub items: &'a [u16],
    pub scores: &'a [u16],
}

impl PoseSet<'_> {
    pub fn lists(&self) -> RangeInclusive<usize> {
        1..=self.m
    }

    pub fn positions(&self) -> RangeInclusive<usize> {
        1..=self.n
    }

    /// Where a position of a list stands in both slices, and in the tally.
    pub fn place(&self, list: usize, position: usize) -> usize {
        (list - 1) * self.n + position - 1
    }

    pub fn item_at(&self, list: usize, position: usize) -> usize {
        usize::from(self.items[self.place(list, position)])
    }

    pub fn score_at(&self, list: usize, position: usize) -> u32 {
        u32::from(self.scores[self.place(list, position)])
    }
}

/// The list check's answer: all 0 when it accepts, else the refusal.
#[derive(Clone, Copy, Debug, Default, PartialEq, Eq)]
pub struct Checked {
    pub number: u32,
    pub list: u32,
    pub position: u32,
}

impl Checked {
    /// A refusal that is not met at a position.
    pub fn refused(number: u32) -> Checked {
        Checked {
            number,
            ..Checked::default()
        }
    }
}

pub fn sizes_allowed(m: usize, n: usize) -> bool {
    (1..=MOST_LISTS).contains(&m) && (1..=MOST_ITEMS).contains(&n)
}

/// The list check called by itself. It writes the first m x n entries of the work slice once 1, 5
/// and 6 have passed: with positions when it accepts, with zeros when it refuses.
pub fn check_lists(m: usize, n: usize, items: &[u16], scores: &[u16], work: &mut [u16]) -> Checked {
    if !sizes_allowed(m, n) {
        return Checked::refused(1);
    }
    // Only now: before test 1 the product may not fit.
    let size = m * n;
    if items.len() < size || scores.len() < size {
        return Checked::refused(5);
    }
    if work.len() < size {
        return Checked::refused(6);
    }
    let set = PoseSet {
        m,
        n,
        items,
        scores,
    };
    work[..size].fill(0);
    if let Some(fault) = first_fault(&set) {
        return fault;
    }
    write_positions(&set, work);
    Checked::default()
}

/// The first of 7, 8 and 9, list by list and position by position.
fn first_fault(set: &PoseSet) -> Option<Checked> {
    for list in set.lists() {
        // Begun anew for each list: an item of an earlier list is no fault.
        let mut stood_earlier = vec![false; set.n];
        for position in set.positions() {
            let number = fault_at(set, list, position, &stood_earlier);
            if number != 0 {
                return Some(Checked {
                    number,
                    list: list as u32,
                    position: position as u32,
                });
            }
            stood_earlier[set.item_at(list, position)] = true;
        }
    }
    None
}

/// The number of the fault at one position, 0 for none.
fn fault_at(set: &PoseSet, list: usize, position: usize, stood_earlier: &[bool]) -> u32 {
    let item = set.item_at(list, position);
    if item >= set.n {
        return 7;
    }
    if stood_earlier[item] {
        return 8;
    }
    // The last score of the list before is not "the one before it in this list".
    if position > 1 && set.score_at(list, position) > set.score_at(list, position - 1) {
        return 9;
    }
    0
}

/// At (i-1) x n + d goes item d's position in list i.
fn write_positions(set: &PoseSet, work: &mut [u16]) {
    for list in set.lists() {
        for position in set.positions() {
            let item = set.item_at(list, position);
            work[(list - 1) * set.n + item] = position as u16;
        }
    }
}
