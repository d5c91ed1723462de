//! The previewer's program, from input to output.

use crate::lists::{MOST_ITEMS, MOST_LISTS};
use crate::records::{chosen_weights, read_lists, read_query};
use crate::searches::{Answer, Search, SEARCHES};

/// One byte more than any acceptable input has, so that a byte too many is always seen.
pub const MOST_BYTES_TAKEN: usize = 33_312;

/// A search's call with everything but the slices that it writes.
struct Call<'a> {
    m: usize,
    n: usize,
    items: &'a [u16],
    scores: &'a [u16],
    rule: u8,
    k: usize,
    weights: &'a [u8],
}

/// What the program prints for this standard input: a line per search, or one refusal line.
pub fn preview(input: &[u8]) -> Vec<u8> {
    let taken = &input[..input.len().min(MOST_BYTES_TAKEN)];
    let text = lines_or_refusal(taken).unwrap_or_else(|refusal| refusal);
    text.into_bytes()
}

fn lines_or_refusal(taken: &[u8]) -> Result<String, String> {
    let query = read_query(taken);
    if query.number != 0 {
        return Err(refusal_line(query.number, 0, 0));
    }
    let list_record = &taken[query.bytes..];
    let mut items = vec![0; MOST_LISTS * MOST_ITEMS];
    let mut scores = vec![0; MOST_LISTS * MOST_ITEMS];
    let lists = read_lists(list_record, &mut items, &mut scores);
    if lists.number != 0 {
        return Err(refusal_line(lists.number, 0, 0));
    }
    let call = Call {
        m: lists.m,
        n: lists.n,
        items: &items,
        scores: &scores,
        rule: query.rule,
        k: usize::from(query.k),
        weights: chosen_weights(taken, list_record),
    };
    let mut lines = String::new();
    for (name, search) in SEARCHES {
        lines += &line_of_search(name, search, &call)?;
    }
    Ok(lines)
}

fn line_of_search(name: &str, search: Search, call: &Call) -> Result<String, String> {
    let mut picks = vec![0; MOST_ITEMS];
    let mut lows = vec![0; MOST_ITEMS];
    let mut highs = vec![0; MOST_ITEMS];
    let mut tally = vec![0; MOST_LISTS * MOST_ITEMS];
    let mut work = vec![0; MOST_LISTS * MOST_ITEMS];
    let answer = search(
        call.m,
        call.n,
        call.items,
        call.scores,
        call.rule,
        call.k,
        call.weights,
        &mut picks,
        &mut lows,
        &mut highs,
        &mut tally,
        &mut work,
    );
    if answer.number != 0 {
        return Err(refusal_line(answer.number, answer.list, answer.position));
    }
    let mut line = counts_text(name, &answer);
    for at in 0..call.k {
        line += &format!(" {}:{}:{}", picks[at], lows[at], highs[at]);
    }
    Ok(line + "\n")
}

fn counts_text(name: &str, answer: &Answer) -> String {
    let Answer {
        rows,
        sorted,
        direct,
        random,
        ..
    } = answer;
    format!("{name} {rows} {sorted} {direct} {random}")
}

fn refusal_line(number: u32, list: u32, position: u32) -> String {
    format!("REFUSED {number} {list} {position}\n")
}
