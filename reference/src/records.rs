//! The two records and the choice of weights.

use crate::lists::sizes_allowed;

const VERSION: u8 = 1;
const LENGTH_FIELD: usize = 4;
const QUERY_HEAD: usize = 9;
const LISTS_HEAD: usize = 8;

/// What a query read gives: all 0 but the number when it refuses.
#[derive(Clone, Copy, Debug, Default, PartialEq, Eq)]
pub struct QueryRead {
    pub number: u32,
    pub rule: u8,
    pub k: u16,
    /// The weight count c.
    pub weight_count: u8,
    /// How many bytes the record has; the next one starts there.
    pub bytes: usize,
}

/// What a lists read gives beside the two slices: all 0 but the number when it refuses.
#[derive(Clone, Copy, Debug, Default, PartialEq, Eq)]
pub struct ListsRead {
    pub number: u32,
    pub m: usize,
    pub n: usize,
}

/// Reads the query record at the start of the bytes. Those after it belong to the next record.
pub fn read_query(bytes: &[u8]) -> QueryRead {
    let number = refusal_of_query(bytes);
    if number != 0 {
        return QueryRead {
            number,
            ..QueryRead::default()
        };
    }
    let weight_count = bytes[8];
    QueryRead {
        number: 0,
        rule: bytes[5],
        k: pair_at(bytes, 6),
        weight_count,
        bytes: QUERY_HEAD + 2 * usize::from(weight_count),
    }
}

/// Order: 10, 12, 13, 11.
fn refusal_of_query(bytes: &[u8]) -> u32 {
    if bytes.len() < QUERY_HEAD {
        return 10;
    }
    if bytes[4] != VERSION {
        return 12;
    }
    let length = length_field(bytes);
    if length != 5 + 2 * usize::from(bytes[8]) {
        return 13;
    }
    if length > bytes.len() - LENGTH_FIELD {
        return 11;
    }
    0
}

/// Reads the list record that the bytes are, whole, into the two slices. Items, their order and
/// the sizes of weights are left to the search.
pub fn read_lists(bytes: &[u8], items: &mut [u16], scores: &mut [u16]) -> ListsRead {
    let refused = |number| ListsRead {
        number,
        ..ListsRead::default()
    };
    let number = refusal_of_lists(bytes);
    if number != 0 {
        return refused(number);
    }
    let (m, n) = counts_of_lists(bytes);
    if items.len() < m * n || scores.len() < m * n {
        return refused(6);
    }
    let first_entry = LISTS_HEAD + 2 * m;
    for at in 0..m * n {
        items[at] = pair_at(bytes, first_entry + 4 * at);
        scores[at] = pair_at(bytes, first_entry + 4 * at + 2);
    }
    ListsRead { number: 0, m, n }
}

/// Order: 10, 11, 12, 1, 13. Test 6 comes last and is the read's own, as it needs the slices.
fn refusal_of_lists(bytes: &[u8]) -> u32 {
    if bytes.len() < LISTS_HEAD {
        return 10;
    }
    let length = length_field(bytes);
    if length != bytes.len() - LENGTH_FIELD {
        return 11;
    }
    if bytes[4] != VERSION {
        return 12;
    }
    let (m, n) = counts_of_lists(bytes);
    if !sizes_allowed(m, n) {
        return 1;
    }
    if length != 4 + 2 * m + 4 * m * n {
        return 13;
    }
    0
}

fn counts_of_lists(bytes: &[u8]) -> (usize, usize) {
    (usize::from(bytes[5]), usize::from(pair_at(bytes, 6)))
}

/// The weights of a query: the house weights of the list record for c = 0, else the query's own,
/// also where their count is not m. Empty where either read refuses, test 6 apart.
pub fn chosen_weights<'a>(query: &'a [u8], lists: &'a [u8]) -> &'a [u8] {
    let query_read = read_query(query);
    if query_read.number != 0 || refusal_of_lists(lists) != 0 {
        return &[];
    }
    if query_read.weight_count == 0 {
        let (m, _) = counts_of_lists(lists);
        &lists[LISTS_HEAD..LISTS_HEAD + 2 * m]
    } else {
        &query[QUERY_HEAD..query_read.bytes]
    }
}

/// Four bytes always fit here; a sum with them would not fit in 32 bits.
fn length_field(bytes: &[u8]) -> usize {
    u32::from_be_bytes([bytes[0], bytes[1], bytes[2], bytes[3]]) as usize
}

fn pair_at(bytes: &[u8], at: usize) -> u16 {
    u16::from_be_bytes([bytes[at], bytes[at + 1]])
}
