//! The list check and the searches of `crates/` again, in safe Rust: the same algorithms over the same data, as an engineer writes
//! them who has no prover. Nothing is proved here; `tools/speed` measures the proved functions against these and holds every answer
//! to theirs.
//!
//! Each has the C form of its proved twin, under the name `plain_..` in place of `rutlark_..`. Only the making of slices from pointers,
//! in this file, is not safe Rust.

mod lists;
mod nra;
mod query;
mod scan;
mod scored;

use lists::Checked;
use query::{Lent, Query, Tested};
use std::slice::{from_raw_parts, from_raw_parts_mut};

/// # Safety
/// Each pointer has as many elements behind it as the number after it says, `told` 3, and no two that are written overlap.
#[no_mangle]
pub unsafe extern "C" fn plain_check_lists(
    m: usize,
    n: usize,
    items: *const u16,
    items_len: usize,
    scores: *const u16,
    scores_len: usize,
    work: *mut u16,
    work_len: usize,
    told: *mut u32,
) -> u32 {
    let (items, scores) = (
        from_raw_parts(items, items_len),
        from_raw_parts(scores, scores_len),
    );
    let checked = lists::check_lists(m, n, items, scores, from_raw_parts_mut(work, work_len));
    from_raw_parts_mut(told, 3).copy_from_slice(&[checked.number, checked.list, checked.position]);
    checked.number
}

/// The form that all searches have.
macro_rules! entry {
    ($name:ident, $run:path) => {
        /// # Safety
        /// Each pointer has as many elements behind it as the number after it says, `told` 7, and no two that are written overlap.
        #[no_mangle]
        pub unsafe extern "C" fn $name(
            m: usize,
            n: usize,
            items: *const u16,
            items_len: usize,
            scores: *const u16,
            scores_len: usize,
            rule: u8,
            k: usize,
            weights: *const u8,
            weights_len: usize,
            picks: *mut u16,
            picks_len: usize,
            lows: *mut u32,
            lows_len: usize,
            highs: *mut u32,
            highs_len: usize,
            tally: *mut u8,
            tally_len: usize,
            work: *mut u16,
            work_len: usize,
            told: *mut u32,
        ) -> u32 {
            let query = Query {
                m,
                n,
                items: from_raw_parts(items, items_len),
                scores: from_raw_parts(scores, scores_len),
                rule,
                k,
                weights: from_raw_parts(weights, weights_len),
            };
            let lent = Lent {
                picks: from_raw_parts_mut(picks, picks_len),
                lows: from_raw_parts_mut(lows, lows_len),
                highs: from_raw_parts_mut(highs, highs_len),
                tally: from_raw_parts_mut(tally, tally_len),
                work: from_raw_parts_mut(work, work_len),
            };
            answered(query, lent, $run, from_raw_parts_mut(told, 7))
        }
    };
}

entry!(plain_ta, scored::ta);
entry!(plain_bpa, scored::bpa);
entry!(plain_bpa2, scored::bpa2);
entry!(plain_nra, nra::nra);
entry!(plain_nra_recomputed, nra::recomputed);
entry!(plain_nra_where_asked, nra::recomputed_where_asked);
entry!(plain_scan, scan::scan);

/// What a search has done: rows or rounds, and the accesses by kind.
pub struct Done {
    rows: usize,
    sorted: usize,
    direct: usize,
    random: usize,
}

#[inline(always)]
fn answered(
    query: Query,
    mut lent: Lent,
    run: fn(&Tested, &mut Lent) -> Done,
    told: &mut [u32],
) -> u32 {
    let refused = |c: Checked| [c.number, c.list, c.position, 0, 0, 0, 0];
    let numbers = match query::tested(&query, &mut lent) {
        Err(refusal) => refused(refusal),
        Ok(tested) => {
            let done = run(&tested, &mut lent);
            [
                0,
                0,
                0,
                done.rows as u32,
                done.sorted as u32,
                done.direct as u32,
                done.random as u32,
            ]
        }
    };
    told.copy_from_slice(&numbers);
    numbers[0]
}
