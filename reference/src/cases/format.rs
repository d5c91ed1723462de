//! The format of the two files.
//!
//! `stdin` is a sequence of records with nothing between them. All numbers are big-endian; after
//! the name of a field stands how many bytes it has. Each record is its kind (1), then:
//!
//! - kind 1, the previewer: length (4), that many bytes. They are what stands on its standard input,
//!   of which it takes at most 33,312: a case may hold more;
//! - kind 2, a search: which (1: 0 TA, 1 BPA, 2 BPA2, 3 NRA), m (8), n (8), rule (1), k (8), count
//!   of weight bytes (2), those bytes, count of items (2), items (2 each), count of scores (2),
//!   scores (2 each), then the lengths of picks, lows, highs, tally and work (2 each);
//! - kind 3, the list check: m (8), n (8), count of items (2), items (2 each), count of scores (2),
//!   scores (2 each), length of work (2);
//! - kind 4, a query read: length (4), that many bytes;
//! - kind 5, a lists read: length (4), that many bytes, then the lengths of the item slice and of
//!   the score slice (2 each);
//! - kind 6, the chosen weights: length (4), that many bytes of query, length (4), that many bytes
//!   of lists.
//!
//! The slices to be written are lent filled, entry j counted from zero:
//!
//! - picks, and the items of a lists read: 40,000 + j % 1,000;
//! - work, and the scores of a lists read: 50,000 + j % 1,000;
//! - lows: 3,000,000,000 + j;
//! - highs: 3,100,000,000 + j;
//! - tally: 200 + j % 50.
//!
//! `stdout` has for each case the line `case N`, N from 1, and then:
//!
//! - kind 1: the previewer's output;
//! - kind 2: a line number list position rows sorted direct random; a slice line for each of picks,
//!   lows, highs, tally and work; a line with the first entries of picks, at most 8;
//! - kind 3: a line number list position; the slice line of work;
//! - kind 4: a line number rule k c bytes;
//! - kind 5: a line number m n; the slice lines of items and of scores;
//! - kind 6: a line with the part's length and its bytes.
//!
//! Numbers are decimal without leading zeros, one space apart, and a newline ends each line (that
//! of no picks is empty). A slice line is the slice's length and its digest after the call: from 0,
//! each entry x makes the digest (31 x digest + x) modulo 2^32.

use super::{Case, ListCheckCase, ReadListsCase, SearchCase};
use crate::searches::SEARCHES;

const PREVIEW: u8 = 1;
const SEARCH: u8 = 2;
const LIST_CHECK: u8 = 3;
const READ_QUERY: u8 = 4;
const READ_LISTS: u8 = 5;
const CHOSEN_WEIGHTS: u8 = 6;

/// The record of one case.
pub fn written(case: &Case) -> Vec<u8> {
    let mut record = Record(Vec::new());
    match case {
        Case::Preview(input) => {
            record.kind(PREVIEW);
            record.bytes(input);
        }
        Case::Search(call) => write_search(&mut record, call),
        Case::ListCheck(call) => write_list_check(&mut record, call),
        Case::ReadQuery(bytes) => {
            record.kind(READ_QUERY);
            record.bytes(bytes);
        }
        Case::ReadLists(call) => {
            record.kind(READ_LISTS);
            record.bytes(&call.bytes);
            record.pair(call.items);
            record.pair(call.scores);
        }
        Case::ChosenWeights { query, lists } => {
            record.kind(CHOSEN_WEIGHTS);
            record.bytes(query);
            record.bytes(lists);
        }
    }
    record.0
}

fn write_search(record: &mut Record, call: &SearchCase) {
    record.kind(SEARCH);
    record.kind(call.which);
    record.eight(call.m);
    record.eight(call.n);
    record.kind(call.rule);
    record.eight(call.k);
    record.pair(call.weights.len() as u16);
    record.0.extend(&call.weights);
    record.pairs(&call.items);
    record.pairs(&call.scores);
    for length in [call.picks, call.lows, call.highs, call.tally, call.work] {
        record.pair(length);
    }
}

fn write_list_check(record: &mut Record, call: &ListCheckCase) {
    record.kind(LIST_CHECK);
    record.eight(call.m);
    record.eight(call.n);
    record.pairs(&call.items);
    record.pairs(&call.scores);
    record.pair(call.work);
}

struct Record(Vec<u8>);

impl Record {
    fn kind(&mut self, byte: u8) {
        self.0.push(byte);
    }

    fn pair(&mut self, number: u16) {
        self.0.extend(number.to_be_bytes());
    }

    fn eight(&mut self, number: u64) {
        self.0.extend(number.to_be_bytes());
    }

    fn bytes(&mut self, bytes: &[u8]) {
        self.0.extend((bytes.len() as u32).to_be_bytes());
        self.0.extend(bytes);
    }

    fn pairs(&mut self, numbers: &[u16]) {
        self.pair(numbers.len() as u16);
        for &number in numbers {
            self.pair(number);
        }
    }
}

/// The case at the front of the bytes and the bytes after it; none where they do not start with a
/// whole record.
pub fn read_first(bytes: &[u8]) -> Option<(Case, &[u8])> {
    let mut rest = Rest(bytes);
    let case = match rest.one()? {
        PREVIEW => Case::Preview(rest.bytes()?),
        SEARCH => Case::Search(read_search(&mut rest)?),
        LIST_CHECK => Case::ListCheck(ListCheckCase {
            m: rest.eight()?,
            n: rest.eight()?,
            items: rest.pairs()?,
            scores: rest.pairs()?,
            work: rest.pair()?,
        }),
        READ_QUERY => Case::ReadQuery(rest.bytes()?),
        READ_LISTS => Case::ReadLists(ReadListsCase {
            bytes: rest.bytes()?,
            items: rest.pair()?,
            scores: rest.pair()?,
        }),
        CHOSEN_WEIGHTS => Case::ChosenWeights {
            query: rest.bytes()?,
            lists: rest.bytes()?,
        },
        _ => return None,
    };
    Some((case, rest.0))
}

fn read_search(rest: &mut Rest) -> Option<SearchCase> {
    let which = rest.one()?;
    if usize::from(which) >= SEARCHES.len() {
        return None;
    }
    Some(SearchCase {
        which,
        m: rest.eight()?,
        n: rest.eight()?,
        rule: rest.one()?,
        k: rest.eight()?,
        weights: rest.counted_bytes()?,
        items: rest.pairs()?,
        scores: rest.pairs()?,
        picks: rest.pair()?,
        lows: rest.pair()?,
        highs: rest.pair()?,
        tally: rest.pair()?,
        work: rest.pair()?,
    })
}

/// The bytes not yet read.
struct Rest<'a>(&'a [u8]);

impl<'a> Rest<'a> {
    fn take(&mut self, count: usize) -> Option<&'a [u8]> {
        let (taken, rest) = self.0.split_at_checked(count)?;
        self.0 = rest;
        Some(taken)
    }

    fn number(&mut self, bytes: usize) -> Option<u64> {
        let taken = self.take(bytes)?;
        Some(
            taken
                .iter()
                .fold(0, |number, &byte| number << 8 | u64::from(byte)),
        )
    }

    fn one(&mut self) -> Option<u8> {
        Some(self.number(1)? as u8)
    }

    fn pair(&mut self) -> Option<u16> {
        Some(self.number(2)? as u16)
    }

    fn eight(&mut self) -> Option<u64> {
        self.number(8)
    }

    fn bytes(&mut self) -> Option<Vec<u8>> {
        let length = self.number(4)? as usize;
        Some(self.take(length)?.to_vec())
    }

    fn counted_bytes(&mut self) -> Option<Vec<u8>> {
        let count = self.pair()?;
        Some(self.take(usize::from(count))?.to_vec())
    }

    fn pairs(&mut self) -> Option<Vec<u16>> {
        let count = self.pair()?;
        (0..count).map(|_| self.pair()).collect()
    }
}
