//! What a query says of scores.

/// A query that the tests have let through.
pub struct Query {
    pub rule: u8,
    pub k: usize,
    pub weights: Vec<u32>,
}

/// Big-endian pairs; an odd byte at the end belongs to none.
pub fn weights_from(bytes: &[u8]) -> Vec<u32> {
    bytes
        .chunks_exact(2)
        .map(|pair| u32::from(u16::from_be_bytes([pair[0], pair[1]])))
        .collect()
}

impl Query {
    /// The overall score of m local scores, in list order.
    pub fn overall(&self, local_scores: impl Iterator<Item = u32>) -> u32 {
        let products = local_scores
            .zip(&self.weights)
            .map(|(score, weight)| score * weight);
        match self.rule {
            0 => products.sum(),
            1 => products.min().expect("there is at least one list"),
            _ => products.max().expect("there is at least one list"),
        }
    }
}
