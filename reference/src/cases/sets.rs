//! Pose sets and records to make cases from.

use crate::lists::PoseSet;

/// A pose set that holds its own two slices, m x n entries each.
#[derive(Clone, Debug, PartialEq, Eq)]
pub struct OwnedSet {
    pub m: usize,
    pub n: usize,
    pub items: Vec<u16>,
    pub scores: Vec<u16>,
}

impl OwnedSet {
    /// One text per list, item:score with the best first.
    pub fn from_text(lists: &[&str]) -> OwnedSet {
        let entries: Vec<(u16, u16)> = lists
            .iter()
            .flat_map(|list| list.split_whitespace())
            .map(entry_from_text)
            .collect();
        OwnedSet {
            m: lists.len(),
            n: entries.len() / lists.len(),
            items: entries.iter().map(|entry| entry.0).collect(),
            scores: entries.iter().map(|entry| entry.1).collect(),
        }
    }

    /// All lists name the items in rising order, all at the same score. Valid but for its sizes.
    pub fn flat(m: usize, n: usize, score: u16) -> OwnedSet {
        OwnedSet {
            m,
            n,
            items: (0..m).flat_map(|_| 0..n as u16).collect(),
            scores: vec![score; m * n],
        }
    }

    pub fn lend(&self) -> PoseSet<'_> {
        PoseSet {
            m: self.m,
            n: self.n,
            items: &self.items,
            scores: &self.scores,
        }
    }

    pub fn place(&self, list: usize, position: usize) -> usize {
        self.lend().place(list, position)
    }
}

fn entry_from_text(entry: &str) -> (u16, u16) {
    let (item, score) = entry.split_once(':').expect("an entry is item:score");
    let number = |text: &str| text.parse().expect("items and scores are numbers");
    (number(item), number(score))
}

pub fn weight_bytes(weights: &[u16]) -> Vec<u8> {
    weights
        .iter()
        .flat_map(|weight| weight.to_be_bytes())
        .collect()
}

/// A query record with a length that fits.
pub fn query_record(rule: u8, k: u16, weights: &[u16]) -> Vec<u8> {
    let mut body = vec![1, rule];
    body.extend(k.to_be_bytes());
    body.push(weights.len() as u8);
    body.extend(weight_bytes(weights));
    with_length(body)
}

/// A list record with a length that fits.
pub fn list_record(set: &OwnedSet, house_weights: &[u16]) -> Vec<u8> {
    let mut body = vec![1, set.m as u8];
    body.extend((set.n as u16).to_be_bytes());
    body.extend(weight_bytes(house_weights));
    for (item, score) in set.items.iter().zip(&set.scores) {
        body.extend(item.to_be_bytes());
        body.extend(score.to_be_bytes());
    }
    with_length(body)
}

fn with_length(body: Vec<u8>) -> Vec<u8> {
    let mut record = (body.len() as u32).to_be_bytes().to_vec();
    record.extend(body);
    record
}

/// The record with another length field.
pub fn with_length_field(record: &[u8], length: u32) -> Vec<u8> {
    let mut changed = record.to_vec();
    changed[..4].copy_from_slice(&length.to_be_bytes());
    changed
}

/// The record with one byte changed.
pub fn with_byte(record: &[u8], at: usize, byte: u8) -> Vec<u8> {
    let mut changed = record.to_vec();
    changed[at] = byte;
    changed
}

/// The two parts one after the other.
pub fn joined(first: &[u8], second: &[u8]) -> Vec<u8> {
    [first, second].concat()
}
