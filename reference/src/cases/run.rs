//! Running a case, and the text that is expected of it.

use super::{Case, ListCheckCase, ReadListsCase, SearchCase};
use crate::lists::{check_lists, Checked};
use crate::preview::preview;
use crate::records::{chosen_weights, read_lists, read_query, ListsRead};
use crate::searches::{Answer, SEARCHES};

/// A search's answer with every slice that it was lent to write.
#[derive(Clone, Debug, PartialEq, Eq)]
pub struct Searched {
    pub answer: Answer,
    pub picks: Vec<u16>,
    pub lows: Vec<u32>,
    pub highs: Vec<u32>,
    pub tally: Vec<u8>,
    pub work: Vec<u16>,
}

pub struct ListsChecked {
    pub checked: Checked,
    pub work: Vec<u16>,
}

pub struct ListsFilled {
    pub read: ListsRead,
    pub items: Vec<u16>,
    pub scores: Vec<u16>,
}

/// A slice as it is lent, unlike anything that a call writes.
fn pattern<T>(length: u16, entry: fn(u32) -> u32) -> Vec<T>
where
    T: TryFrom<u32, Error: std::fmt::Debug>,
{
    (0..u32::from(length))
        .map(|at| T::try_from(entry(at)).expect("the pattern's entries fit"))
        .collect()
}

fn from_40_000(at: u32) -> u32 {
    40_000 + at % 1_000
}

fn from_50_000(at: u32) -> u32 {
    50_000 + at % 1_000
}

/// A number too great for the machine is too great for every test as well.
fn caller_count(number: u64) -> usize {
    usize::try_from(number).unwrap_or(usize::MAX)
}

impl SearchCase {
    /// The slices as lent, with an answer of zeros.
    pub fn as_lent(&self) -> Searched {
        Searched {
            answer: Answer::default(),
            picks: pattern(self.picks, from_40_000),
            lows: pattern(self.lows, |at| 3_000_000_000 + at),
            highs: pattern(self.highs, |at| 3_100_000_000 + at),
            tally: pattern(self.tally, |at| 200 + at % 50),
            work: pattern(self.work, from_50_000),
        }
    }

    pub fn run(&self) -> Searched {
        let mut searched = self.as_lent();
        let (_, search) = SEARCHES[usize::from(self.which)];
        searched.answer = search(
            caller_count(self.m),
            caller_count(self.n),
            &self.items,
            &self.scores,
            self.rule,
            caller_count(self.k),
            &self.weights,
            &mut searched.picks,
            &mut searched.lows,
            &mut searched.highs,
            &mut searched.tally,
            &mut searched.work,
        );
        searched
    }
}

impl ListCheckCase {
    pub fn run(&self) -> ListsChecked {
        let mut work = pattern(self.work, from_50_000);
        let checked = check_lists(
            caller_count(self.m),
            caller_count(self.n),
            &self.items,
            &self.scores,
            &mut work,
        );
        ListsChecked { checked, work }
    }
}

impl ReadListsCase {
    pub fn run(&self) -> ListsFilled {
        let mut items = pattern(self.items, from_40_000);
        let mut scores = pattern(self.scores, from_50_000);
        let read = read_lists(&self.bytes, &mut items, &mut scores);
        ListsFilled {
            read,
            items,
            scores,
        }
    }
}

/// What a program that runs the case prints, from the line `case N` on.
pub fn expected_of(number: usize, case: &Case) -> String {
    let lines = match case {
        Case::Preview(input) => preview_text(input),
        Case::Search(call) => search_lines(&call.run()),
        Case::ListCheck(call) => list_check_lines(&call.run()),
        Case::ReadQuery(bytes) => query_line(bytes),
        Case::ReadLists(call) => read_lists_lines(&call.run()),
        Case::ChosenWeights { query, lists } => weights_line(chosen_weights(query, lists)),
    };
    format!("case {number}\n{lines}")
}

fn preview_text(input: &[u8]) -> String {
    String::from_utf8(preview(input)).expect("the previewer prints letters and digits")
}

fn search_lines(searched: &Searched) -> String {
    let answer = &searched.answer;
    let numbers = [
        answer.number,
        answer.list,
        answer.position,
        answer.rows,
        answer.sorted,
        answer.direct,
        answer.random,
    ];
    [
        line(&numbers),
        slice_line(&searched.picks),
        slice_line(&searched.lows),
        slice_line(&searched.highs),
        slice_line(&searched.tally),
        slice_line(&searched.work),
        line(&searched.picks[..searched.picks.len().min(8)]),
    ]
    .concat()
}

fn list_check_lines(ran: &ListsChecked) -> String {
    let Checked {
        number,
        list,
        position,
    } = ran.checked;
    line(&[number, list, position]) + &slice_line(&ran.work)
}

fn query_line(bytes: &[u8]) -> String {
    let read = read_query(bytes);
    line(&[
        read.number as usize,
        usize::from(read.rule),
        usize::from(read.k),
        usize::from(read.weight_count),
        read.bytes,
    ])
}

fn read_lists_lines(ran: &ListsFilled) -> String {
    let ListsRead { number, m, n } = ran.read;
    line(&[number as usize, m, n]) + &slice_line(&ran.items) + &slice_line(&ran.scores)
}

fn weights_line(part: &[u8]) -> String {
    let mut numbers = vec![part.len()];
    numbers.extend(part.iter().map(|&byte| usize::from(byte)));
    line(&numbers)
}

/// The numbers one space apart.
fn line<T: ToString>(numbers: &[T]) -> String {
    let texts: Vec<String> = numbers.iter().map(T::to_string).collect();
    texts.join(" ") + "\n"
}

/// A slice's length and digest.
fn slice_line<T: Copy + Into<u32>>(entries: &[T]) -> String {
    let digest = entries.iter().fold(0_u32, |digest, &entry| {
        digest.wrapping_mul(31).wrapping_add(entry.into())
    });
    format!("{} {digest}\n", entries.len())
}
