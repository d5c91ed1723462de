//! The C names of `include/rutlark.h` for Rust, and safe functions over them: a slice is passed as its pointer and its
//! number of elements, which is all that the header asks of a caller.
#![allow(clippy::too_many_arguments)]

mod c {
    extern "C" {
        pub fn rutlark_ta(
            m: usize, n: usize, items: *const u16, items_len: usize, scores: *const u16, scores_len: usize,
            rule: u8, k: usize, weights: *const u8, weights_len: usize, picks: *mut u16, picks_len: usize,
            lows: *mut u32, lows_len: usize, highs: *mut u32, highs_len: usize, tally: *mut u8, tally_len: usize,
            work: *mut u16, work_len: usize, told: *mut [u32; 7],
        ) -> u32;
        pub fn rutlark_bpa(
            m: usize, n: usize, items: *const u16, items_len: usize, scores: *const u16, scores_len: usize,
            rule: u8, k: usize, weights: *const u8, weights_len: usize, picks: *mut u16, picks_len: usize,
            lows: *mut u32, lows_len: usize, highs: *mut u32, highs_len: usize, tally: *mut u8, tally_len: usize,
            work: *mut u16, work_len: usize, told: *mut [u32; 7],
        ) -> u32;
        pub fn rutlark_bpa2(
            m: usize, n: usize, items: *const u16, items_len: usize, scores: *const u16, scores_len: usize,
            rule: u8, k: usize, weights: *const u8, weights_len: usize, picks: *mut u16, picks_len: usize,
            lows: *mut u32, lows_len: usize, highs: *mut u32, highs_len: usize, tally: *mut u8, tally_len: usize,
            work: *mut u16, work_len: usize, told: *mut [u32; 7],
        ) -> u32;
        pub fn rutlark_nra(
            m: usize, n: usize, items: *const u16, items_len: usize, scores: *const u16, scores_len: usize,
            rule: u8, k: usize, weights: *const u8, weights_len: usize, picks: *mut u16, picks_len: usize,
            lows: *mut u32, lows_len: usize, highs: *mut u32, highs_len: usize, tally: *mut u8, tally_len: usize,
            work: *mut u16, work_len: usize, told: *mut [u32; 7],
        ) -> u32;
        pub fn rutlark_check_lists(
            m: usize, n: usize, items: *const u16, items_len: usize, scores: *const u16, scores_len: usize,
            work: *mut u16, work_len: usize, told: *mut [u32; 3],
        ) -> u32;
        pub fn rutlark_read_query(bytes: *const u8, bytes_len: usize, told: *mut [usize; 5]) -> u32;
        pub fn rutlark_read_lists(
            bytes: *const u8, bytes_len: usize, items: *mut u16, items_len: usize, scores: *mut u16,
            scores_len: usize, told: *mut [usize; 3],
        ) -> u32;
        pub fn rutlark_chosen_weights(
            query: *const u8, query_len: usize, lists: *const u8, lists_len: usize, told: *mut [usize; 3],
        ) -> usize;
    }
}

/// A refusal: its number, and the list and position of one met at a position.
#[derive(Clone, Copy, Debug, PartialEq, Eq)]
pub struct Refused {
    pub number: u32,
    pub list: u32,
    pub position: u32,
}

/// What a search that is not refused tells: its rows or rounds, and its accesses by kind.
#[derive(Clone, Copy, Debug, PartialEq, Eq)]
pub struct Counts {
    pub rows: u32,
    pub sorted: u32,
    pub direct: u32,
    pub random: u32,
}

#[derive(Clone, Copy)]
pub enum Search {
    Ta,
    Bpa,
    Bpa2,
    Nra,
}

/// A pose set and a query, as they are lent.
#[derive(Clone, Copy)]
pub struct Given<'a> {
    pub m: usize,
    pub n: usize,
    pub items: &'a [u16],
    pub scores: &'a [u16],
    pub rule: u8,
    pub k: usize,
    pub weights: &'a [u8],
}

/// What a search writes.
pub struct Room<'a> {
    pub picks: &'a mut [u16],
    pub lows: &'a mut [u32],
    pub highs: &'a mut [u32],
    pub tally: &'a mut [u8],
    pub work: &'a mut [u16],
}

fn accepted(told: [u32; 3]) -> Result<(), Refused> {
    match told {
        [0, _, _] => Ok(()),
        [number, list, position] => Err(Refused { number, list, position }),
    }
}

pub fn search(which: Search, g: Given, r: Room) -> Result<Counts, Refused> {
    let function = match which {
        Search::Ta => c::rutlark_ta,
        Search::Bpa => c::rutlark_bpa,
        Search::Bpa2 => c::rutlark_bpa2,
        Search::Nra => c::rutlark_nra,
    };
    let mut told = [0; 7];
    // SAFETY: each pointer is a slice's with its own length, and those that are written are of distinct `&mut` slices.
    unsafe {
        function(
            g.m, g.n, g.items.as_ptr(), g.items.len(), g.scores.as_ptr(), g.scores.len(), g.rule, g.k,
            g.weights.as_ptr(), g.weights.len(), r.picks.as_mut_ptr(), r.picks.len(), r.lows.as_mut_ptr(),
            r.lows.len(), r.highs.as_mut_ptr(), r.highs.len(), r.tally.as_mut_ptr(), r.tally.len(),
            r.work.as_mut_ptr(), r.work.len(), &mut told,
        )
    };
    let [number, list, position, rows, sorted, direct, random] = told;
    accepted([number, list, position])?;
    Ok(Counts { rows, sorted, direct, random })
}

/// The list check by itself.
pub fn check_lists(m: usize, n: usize, items: &[u16], scores: &[u16], work: &mut [u16]) -> Result<(), Refused> {
    let mut told = [0; 3];
    // SAFETY: as in `search`.
    unsafe {
        c::rutlark_check_lists(
            m, n, items.as_ptr(), items.len(), scores.as_ptr(), scores.len(), work.as_mut_ptr(), work.len(), &mut told,
        )
    };
    accepted(told)
}

/// A query that is read: rule, k, the count of its weights, and the bytes that it took.
#[derive(Clone, Copy, Debug, PartialEq, Eq)]
pub struct Query {
    pub rule: u8,
    pub k: usize,
    pub count: usize,
    pub bytes: usize,
}

/// The read of the query record at the start of `bytes`, or the number that refuses it.
pub fn read_query(bytes: &[u8]) -> Result<Query, u32> {
    let mut told = [0; 5];
    // SAFETY: as in `search`.
    let number = unsafe { c::rutlark_read_query(bytes.as_ptr(), bytes.len(), &mut told) };
    let [_, rule, k, count, bytes] = told;
    if number != 0 {
        return Err(number);
    }
    Ok(Query { rule: rule as u8, k, count, bytes })
}

/// The read of the list record that `bytes` is, into two slices: m and n, or the number that refuses it.
pub fn read_lists(bytes: &[u8], items: &mut [u16], scores: &mut [u16]) -> Result<(usize, usize), u32> {
    let mut told = [0; 3];
    // SAFETY: as in `search`.
    let number = unsafe {
        c::rutlark_read_lists(
            bytes.as_ptr(), bytes.len(), items.as_mut_ptr(), items.len(), scores.as_mut_ptr(), scores.len(), &mut told,
        )
    };
    if number != 0 {
        return Err(number);
    }
    Ok((told[1], told[2]))
}

/// The weights that a query is to be searched with: a part of the one record or the other.
pub fn chosen_weights<'a>(query: &'a [u8], lists: &'a [u8]) -> &'a [u8] {
    let mut told = [0; 3];
    // SAFETY: as in `search`.
    unsafe { c::rutlark_chosen_weights(query.as_ptr(), query.len(), lists.as_ptr(), lists.len(), &mut told) };
    let [which, start, size] = told;
    let record = if which == 0 { query } else { lists };
    &record[start..start + size]
}
