//! The comparison: random calls to a program that makes them with the proved library, its answers
//! held to those expected here, every byte of every lent slice included.

mod calls;
mod counts;
mod drawn;
pub mod families;

use calls::{Calls, Expected, FUNCTIONS};
use counts::Counts;
use drawn::draw;
use families::Family;
use std::io::{self, BufReader, Read, Write};
use std::process::{Child, ChildStdin, ChildStdout, Command, Stdio};
use std::sync::mpsc::{sync_channel, Receiver, SyncSender};
use std::thread;

/// Draws that go to the harness in one piece.
const DRAWS_TOGETHER: u64 = 64;
/// Pieces that are sent and not yet answered.
const PIECES_AHEAD: usize = 8;

pub struct Comparison {
    pub harness: Vec<String>,
    /// Of each function.
    pub calls: u64,
    pub seed: u64,
    /// The number of the first draw.
    pub first: u64,
}

/// Why a comparison failed.
pub enum Failure {
    /// The harness answered something else, or ended.
    Difference(String),
    /// It could not be run.
    NotRun(String),
}

/// A harness that runs, with its two pipes.
struct Running {
    child: Child,
    calls: ChildStdin,
    answers: BufReader<ChildStdout>,
}

type Piece = Vec<(u64, Family, Calls)>;

impl Comparison {
    /// Compares all calls. What is counted is told also where there is a difference.
    pub fn run(&self) -> (Result<(), Failure>, String) {
        let mut counts = Counts::default();
        let result = self.compare_all(&mut counts);
        let result = match (result, counts.not_met()) {
            (Ok(()), Some(number)) => Err(Failure::Difference(number)),
            (result, _) => result,
        };
        (result, counts.text())
    }

    fn compare_all(&self, counts: &mut Counts) -> Result<(), Failure> {
        let Running {
            mut child,
            calls,
            mut answers,
        } = self.started()?;
        let (sender, receiver) = sync_channel(PIECES_AHEAD);
        let (seed, first, last) = (self.seed, self.first, self.first + self.calls);
        // On a thread of its own: the harness waits for its answers to be read.
        let sending = thread::spawn(move || send_all(seed, first, last, calls, sender));
        let compared = self.compare_pieces(receiver, &mut answers, counts);
        if compared.is_err() {
            // The harness may wait for a reader that has gone; a second end is no harm.
            let _ = child.kill();
        }
        drop(answers);
        let status = child.wait().map_err(not_run)?;
        sending.join().expect("sending does not panic");
        compared?;
        if !status.success() {
            let said = format!("all calls answered, but the harness ended with {status}");
            return Err(Failure::Difference(said));
        }
        Ok(())
    }

    fn compare_pieces(
        &self,
        pieces: Receiver<Piece>,
        answers: &mut impl Read,
        counts: &mut Counts,
    ) -> Result<(), Failure> {
        for (number, family, calls) in pieces.into_iter().flatten() {
            counts.count_draw(family, &calls);
            for function in 0..FUNCTIONS.len() {
                let expected = calls.expected(function);
                counts.count_answer(function, expected.number);
                match difference(answers, &expected) {
                    Ok(None) => (),
                    Ok(Some(what)) => return Err(self.named(number, function, &calls, &what)),
                    Err(_) => return Err(self.ended_at(number, function)),
                }
            }
        }
        if counts.calls() < self.calls * FUNCTIONS.len() as u64 {
            return Err(Failure::Difference("not all calls were sent".to_string()));
        }
        Ok(())
    }

    fn started(&self) -> Result<Running, Failure> {
        let mut child = Command::new(&self.harness[0])
            .args(&self.harness[1..])
            .stdin(Stdio::piped())
            .stdout(Stdio::piped())
            .spawn()
            .map_err(not_run)?;
        let calls = child.stdin.take().expect("it has a pipe");
        let answers = child.stdout.take().expect("it has a pipe");
        Ok(Running {
            child,
            calls,
            answers: BufReader::with_capacity(1 << 16, answers),
        })
    }

    fn named(&self, number: u64, function: usize, calls: &Calls, what: &str) -> Failure {
        let name = FUNCTIONS[function];
        let call = number * FUNCTIONS.len() as u64 + function as u64 + 1;
        let asked = calls.asked(function);
        Failure::Difference(format!(
            "seed {}, draw {number}, call {call}, {name}: {what}\n{asked}",
            self.seed
        ))
    }

    /// The harness ended and took answers with it that it had not written yet. The same calls one by
    /// one, each answered before the next is sent, show which it was.
    fn ended_at(&self, number: u64, function: usize) -> Failure {
        match self.repeated_one_by_one(number, function) {
            Ok(failure) | Err(failure) => failure,
        }
    }

    fn repeated_one_by_one(&self, number: u64, function: usize) -> Result<Failure, Failure> {
        let mut running = self.started()?;
        let ahead = DRAWS_TOGETHER * (PIECES_AHEAD as u64 + 2);
        let last = (number + ahead).min(self.first + self.calls);
        for number_now in number..last {
            let (_, calls) = draw(self.seed, number_now);
            let from = if number_now == number { function } else { 0 };
            for function_now in from..FUNCTIONS.len() {
                let what = match answered_alone(&mut running, &calls, function_now) {
                    Ok(None) => continue,
                    Ok(Some(what)) => what,
                    Err(_) => {
                        let status = running.child.wait().map_err(not_run)?;
                        format!("the harness ended without an answer, with {status}")
                    }
                };
                let _ = running.child.kill();
                let _ = running.child.wait();
                return Ok(self.named(number_now, function_now, &calls, &what));
            }
        }
        drop(running.calls);
        let _ = running.child.wait();
        let said = "the harness ended, and answers the same calls one by one";
        Ok(Failure::Difference(format!(
            "seed {}, from draw {number} on: {said}",
            self.seed
        )))
    }
}

fn not_run(error: io::Error) -> Failure {
    Failure::NotRun(format!("the harness: {error}"))
}

/// Ends where the harness reads no more; the other side finds out why.
fn send_all(seed: u64, first: u64, last: u64, mut to: ChildStdin, then: SyncSender<Piece>) {
    let mut number = first;
    while number < last {
        let until = last.min(number + DRAWS_TOGETHER);
        let mut bytes = Vec::new();
        let mut piece = Vec::new();
        for number in number..until {
            let (family, calls) = draw(seed, number);
            (0..FUNCTIONS.len()).for_each(|function| calls.write(function, &mut bytes));
            piece.push((number, family, calls));
        }
        number = until;
        if then.send(piece).is_err() || to.write_all(&bytes).is_err() {
            return;
        }
    }
}

fn answered_alone(
    running: &mut Running,
    calls: &Calls,
    function: usize,
) -> io::Result<Option<String>> {
    let mut bytes = Vec::new();
    calls.write(function, &mut bytes);
    running.calls.write_all(&bytes)?;
    running.calls.flush()?;
    difference(&mut running.answers, &calls.expected(function))
}

/// Reads one answer and names the first thing in it that is not as expected.
fn difference(answers: &mut impl Read, expected: &Expected) -> io::Result<Option<String>> {
    let mut head = [0; 16];
    answers.read_exact(&mut head)?;
    let number_at = |at: usize| u64::from_le_bytes(head[at..at + 8].try_into().expect("8 bytes"));
    let mut bytes = vec![0; expected.slices.bytes.len()];
    answers.read_exact(&mut bytes)?;
    let (returned, changed_beside) = (number_at(0), number_at(8));
    if returned != expected.returned {
        let wanted = expected.returned;
        return Ok(Some(format!("returned {returned}, expected {wanted}")));
    }
    if bytes != expected.slices.bytes {
        return Ok(Some(difference_of_slices(&bytes, expected)));
    }
    for (part, (name, _, _)) in expected.slices.parts.iter().enumerate() {
        if changed_beside >> part & 1 == 1 {
            return Ok(Some(format!("memory beside {name} was written")));
        }
    }
    Ok(None)
}

fn difference_of_slices(found: &[u8], expected: &Expected) -> String {
    let slices = &expected.slices;
    for (part, &(name, element, start)) in slices.parts.iter().enumerate() {
        let range = start..slices.end_of(part);
        let elements = |bytes: &[u8]| -> Vec<u64> {
            let element_of = |bytes: &[u8]| {
                let add = |number, &byte: &u8| number << 8 | u64::from(byte);
                bytes.iter().rev().fold(0, add)
            };
            bytes[range.clone()]
                .chunks(element)
                .map(element_of)
                .collect()
        };
        let (found, wanted) = (elements(found), elements(&slices.bytes));
        let at = (0..found.len()).find(|&at| found[at] != wanted[at]);
        if let Some(at) = at {
            let (there, wanted) = (found[at], wanted[at]);
            return format!("{name} differs at {at}: {there}, expected {wanted}");
        }
    }
    "no difference".to_string()
}

#[cfg(test)]
mod tests {
    use super::*;

    /// An answer as a right program gives it.
    fn right_answer(expected: &Expected) -> Vec<u8> {
        let returned = expected.returned.to_le_bytes();
        [&returned, &[0; 8][..], &expected.slices.bytes].concat()
    }

    fn said_of(answer: &[u8], expected: &Expected) -> Option<String> {
        difference(&mut &answer[..], expected).expect("the answer is whole")
    }

    #[test]
    fn every_byte_of_an_answer_counts() {
        for number in 0..40 {
            let (_, calls) = draw(3, number);
            for function in 0..FUNCTIONS.len() {
                let expected = calls.expected(function);
                let answer = right_answer(&expected);
                assert_eq!(said_of(&answer, &expected), None);
                for (part, &(name, _, start)) in expected.slices.parts.iter().enumerate() {
                    for at in start..expected.slices.end_of(part) {
                        let mut wrong = answer.clone();
                        wrong[16 + at] ^= 1;
                        let said = said_of(&wrong, &expected).expect("it differs");
                        assert!(said.starts_with(&format!("{name} differs at ")), "{said}");
                    }
                }
            }
        }
    }

    #[test]
    fn what_is_returned_and_the_memory_beside_count() {
        let (_, calls) = draw(3, 1);
        let expected = calls.expected(0);
        let mut wrong = right_answer(&expected);
        wrong[0] ^= 1;
        let said = said_of(&wrong, &expected).expect("it differs");
        assert!(said.starts_with("returned "), "{said}");
        let mut wrong = right_answer(&expected);
        wrong[8] = 1 << 6;
        let said = said_of(&wrong, &expected).expect("it differs");
        assert_eq!(said, "memory beside tally was written");
    }

    #[test]
    fn an_answer_cut_short_is_none() {
        let (_, calls) = draw(3, 1);
        let expected = calls.expected(0);
        let answer = right_answer(&expected);
        let cut = &answer[..answer.len() - 1];
        assert!(difference(&mut &cut[..], &expected).is_err());
    }
}
