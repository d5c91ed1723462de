//! The list check, which fills the place table.
#![forbid(unsafe_code)]

/// A refusal's number with list and position, both from 1, or all 0.
#[derive(Default)]
pub struct Checked {
    pub number: u32,
    pub list: u32,
    pub position: u32,
}

impl Checked {
    pub fn refusal(number: u32) -> Checked {
        Checked {
            number,
            ..Checked::default()
        }
    }
}

pub fn sizes_allowed(m: usize, n: usize) -> bool {
    (1..=8).contains(&m) && (1..=1024).contains(&n)
}

pub fn check_lists(m: usize, n: usize, items: &[u16], scores: &[u16], work: &mut [u16]) -> Checked {
    if !sizes_allowed(m, n) {
        return Checked::refusal(1);
    }
    let size = m * n;
    if items.len() < size || scores.len() < size {
        return Checked::refusal(5);
    }
    if work.len() < size {
        return Checked::refusal(6);
    }
    let work = &mut work[..size];
    let checked = note_lists(n, &items[..size], &scores[..size], work);
    if checked.number != 0 {
        work.fill(0);
    }
    checked
}

/// Most sets pass, so a walk is the way of a damaged one alone.
fn note_lists(n: usize, items: &[u16], scores: &[u16], work: &mut [u16]) -> Checked {
    if note_whole(n, items, scores, work) {
        return Checked::default();
    }
    walk_lists(n, items, scores, work)
}

/// Notes lists that pass, by sweeps over the whole of them, none of which ends early.
fn note_whole(n: usize, items: &[u16], scores: &[u16], work: &mut [u16]) -> bool {
    let greatest = items.iter().copied().fold(0, u16::max);
    if n <= usize::from(greatest) {
        return false;
    }
    work.fill(0);
    let lists = items.chunks_exact(n).zip(scores.chunks_exact(n));
    for ((items, scores), places) in lists.zip(work.chunks_exact_mut(n)) {
        if rises(scores) {
            return false;
        }
        for (before, &item) in items.iter().enumerate() {
            places[usize::from(item)] = before as u16 + 1;
        }
    }
    !work
        .iter()
        .fold(false, |found, &place| found | (place == 0))
}

fn rises(scores: &[u16]) -> bool {
    scores
        .windows(2)
        .fold(false, |found, pair| found | (pair[0] < pair[1]))
}

fn walk_lists(n: usize, items: &[u16], scores: &[u16], work: &mut [u16]) -> Checked {
    let lists = items.chunks_exact(n).zip(scores.chunks_exact(n));
    for (list, ((items, scores), places)) in lists.zip(work.chunks_exact_mut(n)).enumerate() {
        if let Some((number, position)) = walk_list(items, scores, places) {
            return Checked {
                number,
                list: list as u32 + 1,
                position,
            };
        }
    }
    Checked::default()
}

/// The first refusal of a list and its position, from 1. Each item that passes is noted at its own place.
fn walk_list(items: &[u16], scores: &[u16], places: &mut [u16]) -> Option<(u32, u32)> {
    places.fill(0);
    let mut before = u16::MAX;
    for (position, (&item, &score)) in (1..).zip(items.iter().zip(scores)) {
        let Some(place) = places.get_mut(usize::from(item)) else {
            return Some((7, position));
        };
        if *place != 0 {
            return Some((8, position));
        }
        if before < score {
            return Some((9, position));
        }
        before = score;
        *place = position as u16;
    }
    None
}
