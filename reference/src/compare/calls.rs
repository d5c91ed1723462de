//! What is lent to each function, how a call and its answer are written, and the answer expected.
//! The form of both is told at the head of the harness.

use crate::lists::check_lists;
use crate::records::{chosen_weights, read_lists, read_query};
use crate::searches::SEARCHES;

/// The functions by the numbers that the harness knows them by.
pub const FUNCTIONS: [&str; 8] = [
    "rutlark_ta",
    "rutlark_bpa",
    "rutlark_bpa2",
    "rutlark_nra",
    "rutlark_check_lists",
    "rutlark_read_query",
    "rutlark_read_lists",
    "rutlark_chosen_weights",
];

const CHECK_LISTS: usize = 4;
const READ_QUERY: usize = 5;
const READ_LISTS: usize = 6;

/// What a search is given and lent, with all that the slices hold. The list check takes a part.
#[derive(Clone, Debug)]
pub struct Lent {
    pub m: u64,
    pub n: u64,
    pub rule: u8,
    pub k: u64,
    pub weights: Vec<u8>,
    pub items: Vec<u16>,
    pub scores: Vec<u16>,
    pub picks: Vec<u16>,
    pub lows: Vec<u32>,
    pub highs: Vec<u32>,
    pub tally: Vec<u8>,
    pub work: Vec<u16>,
}

/// What the functions of records are given and lent.
#[derive(Clone, Debug)]
pub struct Records {
    pub query: Vec<u8>,
    pub lists: Vec<u8>,
    pub items: Vec<u16>,
    pub scores: Vec<u16>,
}

/// A call of every function.
pub struct Calls {
    pub lent: Lent,
    pub records: Records,
    /// For each function a bit for each slice: set where its end lies against the closed memory.
    pub at_ends: [u16; FUNCTIONS.len()],
    /// What the arrays of told numbers hold when they are lent.
    pub told_as_lent: u8,
}

/// The bytes of some slices one after the other, with each one's name, element size and start.
#[derive(Default)]
pub struct Slices {
    pub bytes: Vec<u8>,
    pub parts: Vec<(&'static str, usize, usize)>,
}

/// What a right program answers.
pub struct Expected {
    pub returned: u64,
    /// The refusal number; what has none answers 0 for a part and 1 for an empty part.
    pub number: usize,
    pub slices: Slices,
}

impl Slices {
    fn start(&mut self, name: &'static str, element: usize) {
        self.parts.push((name, element, self.bytes.len()));
    }

    fn of_1(&mut self, name: &'static str, elements: &[u8]) {
        self.start(name, 1);
        self.bytes.extend_from_slice(elements);
    }

    fn of_2(&mut self, name: &'static str, elements: &[u16]) {
        self.start(name, 2);
        let bytes = elements.iter().flat_map(|element| element.to_le_bytes());
        self.bytes.extend(bytes);
    }

    fn of_4(&mut self, name: &'static str, elements: &[u32]) {
        self.start(name, 4);
        let bytes = elements.iter().flat_map(|element| element.to_le_bytes());
        self.bytes.extend(bytes);
    }

    fn of_8(&mut self, name: &'static str, elements: &[u64]) {
        self.start(name, 8);
        let bytes = elements.iter().flat_map(|element| element.to_le_bytes());
        self.bytes.extend(bytes);
    }

    /// Where a part ends.
    pub fn end_of(&self, part: usize) -> usize {
        match self.parts.get(part + 1) {
            Some(&(_, _, start)) => start,
            None => self.bytes.len(),
        }
    }
}

/// A number too great for the machine is too great for every test as well.
fn caller_count(number: u64) -> usize {
    usize::try_from(number).unwrap_or(usize::MAX)
}

impl Lent {
    fn of_search(&self, told: &[u32; 7]) -> Slices {
        let mut slices = Slices::default();
        slices.of_2("items", &self.items);
        slices.of_2("scores", &self.scores);
        slices.of_1("weights", &self.weights);
        slices.of_2("picks", &self.picks);
        slices.of_4("lows", &self.lows);
        slices.of_4("highs", &self.highs);
        slices.of_1("tally", &self.tally);
        slices.of_2("work", &self.work);
        slices.of_4("told", told);
        slices
    }

    fn of_list_check(&self, told: &[u32; 3]) -> Slices {
        let mut slices = Slices::default();
        slices.of_2("items", &self.items);
        slices.of_2("scores", &self.scores);
        slices.of_2("work", &self.work);
        slices.of_4("told", told);
        slices
    }

    fn searched(&self, function: usize) -> Expected {
        let mut after = self.clone();
        let (_, search) = SEARCHES[function];
        let answer = search(
            caller_count(self.m),
            caller_count(self.n),
            &self.items,
            &self.scores,
            self.rule,
            caller_count(self.k),
            &self.weights,
            &mut after.picks,
            &mut after.lows,
            &mut after.highs,
            &mut after.tally,
            &mut after.work,
        );
        let told = [
            answer.number,
            answer.list,
            answer.position,
            answer.rows,
            answer.sorted,
            answer.direct,
            answer.random,
        ];
        Expected::numbered(answer.number, after.of_search(&told))
    }

    fn list_checked(&self) -> Expected {
        let mut after = self.clone();
        let (m, n) = (caller_count(self.m), caller_count(self.n));
        let checked = check_lists(m, n, &self.items, &self.scores, &mut after.work);
        let told = [checked.number, checked.list, checked.position];
        Expected::numbered(checked.number, after.of_list_check(&told))
    }
}

impl Records {
    fn of_query_read(&self, told: &[u64; 5]) -> Slices {
        let mut slices = Slices::default();
        slices.of_1("bytes", &self.query);
        slices.of_8("told", told);
        slices
    }

    fn of_lists_read(&self, told: &[u64; 3]) -> Slices {
        let mut slices = Slices::default();
        slices.of_1("bytes", &self.lists);
        slices.of_2("items", &self.items);
        slices.of_2("scores", &self.scores);
        slices.of_8("told", told);
        slices
    }

    fn of_chosen_weights(&self, told: &[u64; 3]) -> Slices {
        let mut slices = Slices::default();
        slices.of_1("query", &self.query);
        slices.of_1("lists", &self.lists);
        slices.of_8("told", told);
        slices
    }

    fn query_read(&self) -> Expected {
        let read = read_query(&self.query);
        let told = [
            u64::from(read.number),
            u64::from(read.rule),
            u64::from(read.k),
            u64::from(read.weight_count),
            read.bytes as u64,
        ];
        Expected::numbered(read.number, self.of_query_read(&told))
    }

    fn lists_read(&self) -> Expected {
        let mut after = self.clone();
        let read = read_lists(&self.lists, &mut after.items, &mut after.scores);
        let told = [u64::from(read.number), read.m as u64, read.n as u64];
        Expected::numbered(read.number, after.of_lists_read(&told))
    }

    /// Told are the record that the part is of, where it starts there and its length; 0, 0, 0 for an
    /// empty part. Where it starts is where the part itself lies, so that a copy would show.
    fn weights_chosen(&self) -> Expected {
        let part = chosen_weights(&self.query, &self.lists);
        let at = |record: &[u8]| (part.as_ptr() as usize).wrapping_sub(record.as_ptr() as usize);
        let told = if part.is_empty() {
            [0, 0, 0]
        } else if at(&self.query) < self.query.len() {
            [0, at(&self.query) as u64, part.len() as u64]
        } else {
            [1, at(&self.lists) as u64, part.len() as u64]
        };
        Expected {
            returned: part.len() as u64,
            number: usize::from(part.is_empty()),
            slices: self.of_chosen_weights(&told),
        }
    }
}

impl Expected {
    fn numbered(number: u32, slices: Slices) -> Expected {
        Expected {
            returned: u64::from(number),
            number: number as usize,
            slices,
        }
    }
}

impl Calls {
    pub fn expected(&self, function: usize) -> Expected {
        match function {
            CHECK_LISTS => self.lent.list_checked(),
            READ_QUERY => self.records.query_read(),
            READ_LISTS => self.records.lists_read(),
            _ if function < CHECK_LISTS => self.lent.searched(function),
            _ => self.records.weights_chosen(),
        }
    }

    fn as_lent(&self, function: usize) -> Slices {
        let of_4 = u32::from_le_bytes([self.told_as_lent; 4]);
        let of_8 = u64::from_le_bytes([self.told_as_lent; 8]);
        match function {
            CHECK_LISTS => self.lent.of_list_check(&[of_4; 3]),
            READ_QUERY => self.records.of_query_read(&[of_8; 5]),
            READ_LISTS => self.records.of_lists_read(&[of_8; 3]),
            _ if function < CHECK_LISTS => self.lent.of_search(&[of_4; 7]),
            _ => self.records.of_chosen_weights(&[of_8; 3]),
        }
    }

    /// What was asked, for a person who looks into a difference.
    pub fn asked(&self, function: usize) -> String {
        if function <= CHECK_LISTS {
            return format!("{:?}", self.lent);
        }
        format!("{:?}", self.records)
    }

    /// Writes the call of one function as the harness reads it.
    pub fn write(&self, function: usize, to: &mut Vec<u8>) {
        to.extend([function as u8, self.lent.rule]);
        to.extend(self.at_ends[function].to_le_bytes());
        for number in [self.lent.m, self.lent.n, self.lent.k] {
            to.extend(number.to_le_bytes());
        }
        let slices = self.as_lent(function);
        for (part, &(_, _, start)) in slices.parts.iter().enumerate() {
            let bytes = &slices.bytes[start..slices.end_of(part)];
            to.extend((bytes.len() as u32).to_le_bytes());
            to.extend_from_slice(bytes);
        }
    }
}
