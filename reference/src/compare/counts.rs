//! How many calls of which kind were made.

use super::calls::{Calls, FUNCTIONS};
use super::families::{Family, ALL_NAMED};
use std::collections::HashMap;

/// The numbers that each function can answer; the choice of weights has 1 for an empty part.
const CAN_ANSWER: [&[usize]; FUNCTIONS.len()] = [
    &OF_A_SEARCH,
    &OF_A_SEARCH,
    &OF_A_SEARCH,
    &OF_A_SEARCH,
    &[0, 1, 5, 6, 7, 8, 9],
    &[0, 10, 11, 12, 13],
    &[0, 1, 6, 10, 11, 12, 13],
    &[0, 1],
];
const OF_A_SEARCH: [usize; 10] = [0, 1, 2, 3, 4, 5, 6, 7, 8, 9];

/// A run of at least this many draws must have met every number of every function.
const DRAWS_THAT_MEET_ALL: u64 = 10_000;

#[derive(Default)]
pub struct Counts {
    draws: u64,
    families: HashMap<&'static str, u64>,
    /// By function and number.
    answers: [[u64; 14]; FUNCTIONS.len()],
    /// By slice: too short, exactly as long as needed, longer.
    lengths: HashMap<&'static str, [u64; 3]>,
}

impl Counts {
    pub fn count_draw(&mut self, family: Family, calls: &Calls) {
        self.draws += 1;
        let name = ALL_NAMED.iter().find(|(named, _)| *named == family);
        let (_, name) = name.expect("every family is named");
        *self.families.entry(name).or_default() += 1;
        self.count_lengths(calls);
    }

    pub fn count_answer(&mut self, function: usize, number: usize) {
        self.answers[function][number] += 1;
    }

    /// Where the sizes are refused, no length is needed.
    fn count_lengths(&mut self, calls: &Calls) {
        let lent = &calls.lent;
        let sizes_allowed = (1..=8).contains(&lent.m) && (1..=1_024).contains(&lent.n);
        if !sizes_allowed || lent.k > lent.n {
            return;
        }
        let (entries, k) = ((lent.m * lent.n) as usize, lent.k as usize);
        let (m, lengths) = (lent.m as usize, &mut self.lengths);
        let mut count = |name, length: usize, needed: usize| {
            let how = usize::from(length >= needed) + usize::from(length > needed);
            lengths.entry(name).or_default()[how] += 1;
        };
        count("items", lent.items.len(), entries);
        count("scores", lent.scores.len(), entries);
        count("weights", lent.weights.len(), 2 * m);
        count("picks", lent.picks.len(), k);
        count("lows", lent.lows.len(), k);
        count("highs", lent.highs.len(), k);
        count("tally", lent.tally.len(), entries);
        count("work", lent.work.len(), entries);
        count("a read's items", calls.records.items.len(), entries);
        count("a read's scores", calls.records.scores.len(), entries);
    }

    pub fn calls(&self) -> u64 {
        self.answers.iter().flatten().sum()
    }

    /// A number that some function can answer and that no call met, where there were enough draws.
    pub fn not_met(&self) -> Option<String> {
        if self.draws < DRAWS_THAT_MEET_ALL {
            return None;
        }
        for (function, numbers) in CAN_ANSWER.iter().enumerate() {
            for &number in *numbers {
                if self.answers[function][number] == 0 {
                    let name = FUNCTIONS[function];
                    return Some(format!("no call of {name} met the number {number}"));
                }
            }
        }
        None
    }

    pub fn text(&self) -> String {
        let mut text = format!("{} draws, {} calls\n\nfamily\n", self.draws, self.calls());
        for (_, name) in ALL_NAMED {
            let count = self.families.get(name).unwrap_or(&0);
            text += &format!("  {name:24} {count:10}\n");
        }
        text += "\nslice                       too short      exact     longer\n";
        for name in SLICES {
            let [short, exact, longer] = self.lengths.get(name).unwrap_or(&[0; 3]);
            text += &format!("  {name:24} {short:10} {exact:10} {longer:10}\n");
        }
        text += "\nfunction, calls, and how many were answered by each number\n";
        for (function, numbers) in CAN_ANSWER.iter().enumerate() {
            let counts = &self.answers[function];
            let all: u64 = counts.iter().sum();
            text += &format!("  {:24} {all:10} :", FUNCTIONS[function]);
            for &number in *numbers {
                text += &format!(" {number}: {}", counts[number]);
            }
            text += "\n";
        }
        text + "  (rutlark_chosen_weights: 0 a part, 1 none)\n"
    }
}

const SLICES: [&str; 10] = [
    "items",
    "scores",
    "weights",
    "picks",
    "lows",
    "highs",
    "tally",
    "work",
    "a read's items",
    "a read's scores",
];
