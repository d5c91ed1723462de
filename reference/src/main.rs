//! The commands; see README.md.

use rutlark_reference::cases::{self, expected_of, format::read_first, Recorded};
use rutlark_reference::compare::{Comparison, Failure};
use rutlark_reference::measured::{bytes_of, measured, set_of, Kind};
use rutlark_reference::preview::{preview, MOST_BYTES_TAKEN};
use std::io::{self, Read, Write};
use std::path::Path;
use std::process::ExitCode;

const USAGE: &str = "usage: reference preview < input
       reference cases DIR
       reference check DIR
       reference run < cases
       reference titles
       reference compare HARNESS.. [--calls N] [--seed S] [--first D]
       reference set KIND M N SEED
       reference accesses KIND M N K SETS
KIND is uniform, or alpha=A with A thousandths";

/// The two files by the names under which the crate of a program holds what it is run on and what
/// it must write.
const CASES: &str = "stdin";
const EXPECTED: &str = "stdout";

fn main() -> ExitCode {
    let arguments: Vec<String> = std::env::args().skip(1).collect();
    let words: Vec<&str> = arguments.iter().map(String::as_str).collect();
    let done = match words[..] {
        ["preview"] => print_preview(),
        ["cases", folder] => write_cases(Path::new(folder)),
        ["check", folder] => check_cases(Path::new(folder)),
        ["run"] => run_cases(),
        ["titles"] => print_titles(),
        ["compare", _, ..] => return compare(&words[1..]),
        ["set", kind, m, n, seed] => print_set(kind, [m, n, seed]),
        ["accesses", kind, m, n, k, sets] => print_accesses(kind, [m, n, k, sets]),
        _ => {
            eprintln!("{USAGE}");
            return ExitCode::from(2);
        }
    };
    match done {
        Ok(()) => ExitCode::SUCCESS,
        Err(reason) => {
            eprintln!("{reason}");
            ExitCode::FAILURE
        }
    }
}

fn print(bytes: &[u8]) -> Result<(), String> {
    let mut output = io::stdout().lock();
    output
        .write_all(bytes)
        .and_then(|()| output.flush())
        .map_err(|error| format!("standard output: {error}"))
}

fn print_preview() -> Result<(), String> {
    let mut input = Vec::new();
    io::stdin()
        .take(MOST_BYTES_TAKEN as u64)
        .read_to_end(&mut input)
        .map_err(|error| format!("standard input: {error}"))?;
    print(&preview(&input))
}

fn write_cases(folder: &Path) -> Result<(), String> {
    let recorded = cases::all();
    write_file(&folder.join(CASES), &cases::cases_file(&recorded))?;
    let expected = cases::expected_file(&recorded);
    write_file(&folder.join(EXPECTED), expected.as_bytes())
}

fn write_file(path: &Path, bytes: &[u8]) -> Result<(), String> {
    std::fs::write(path, bytes).map_err(|error| format!("{}: {error}", path.display()))
}

fn read_file(path: &Path) -> Result<Vec<u8>, String> {
    std::fs::read(path).map_err(|error| format!("{}: {error}", path.display()))
}

/// Makes both files anew in memory and names the first difference of those in the folder.
fn check_cases(folder: &Path) -> Result<(), String> {
    let recorded = cases::all();
    let cases = cases::cases_file(&recorded);
    let found = read_file(&folder.join(CASES))?;
    if let Some(at) = first_difference(&found, &cases) {
        let case = named(&recorded, case_at(&cases, at));
        return Err(format!("{CASES} differs at byte {at}, in {case}"));
    }
    let expected = cases::expected_file(&recorded);
    let found = read_file(&folder.join(EXPECTED))?;
    if let Some(at) = first_difference(&found, expected.as_bytes()) {
        return Err(difference_of_lines(&recorded, &found, &expected, at));
    }
    print(format!("{} cases agree\n", recorded.len()).as_bytes())
}

/// The first place where one has another byte than the other or none.
fn first_difference(found: &[u8], made: &[u8]) -> Option<usize> {
    let common = found.iter().zip(made).take_while(|(a, b)| a == b).count();
    (common < found.len().max(made.len())).then_some(common)
}

/// The number of the case whose record holds the byte; one past the last for bytes after it.
fn case_at(cases: &[u8], at: usize) -> usize {
    let mut number = 1;
    let mut rest = cases;
    while let Some((_, after)) = read_first(rest) {
        if at < cases.len() - after.len() {
            return number;
        }
        number += 1;
        rest = after;
    }
    number
}

fn named(recorded: &[Recorded], number: usize) -> String {
    match recorded.get(number - 1) {
        Some(one) => format!("case {number} ({})", one.title),
        None => "bytes after the last case".to_string(),
    }
}

fn difference_of_lines(recorded: &[Recorded], found: &[u8], made: &str, at: usize) -> String {
    let before = &made[..at];
    let line = before.matches('\n').count();
    let starts = made
        .lines()
        .take(line + 1)
        .filter(|text| text.starts_with("case "));
    let case = named(recorded, starts.count().max(1));
    let found = String::from_utf8_lossy(found);
    let text_of = |text: &str| match text.lines().nth(line) {
        Some(text) => text.to_string(),
        None => "nothing".to_string(),
    };
    format!(
        "{EXPECTED} differs at line {}, in {case}:\n  there: {}\n  made:  {}",
        line + 1,
        text_of(&found),
        text_of(made)
    )
}

/// Prints what is expected of any file of cases.
fn run_cases() -> Result<(), String> {
    let mut bytes = Vec::new();
    io::stdin()
        .read_to_end(&mut bytes)
        .map_err(|error| format!("standard input: {error}"))?;
    let mut expected = String::new();
    let mut rest = &bytes[..];
    let mut number = 1;
    while !rest.is_empty() {
        let (case, after) =
            read_first(rest).ok_or_else(|| format!("case {number} is not a whole record"))?;
        expected += &expected_of(number, &case);
        number += 1;
        rest = after;
    }
    print(expected.as_bytes())
}

fn print_titles() -> Result<(), String> {
    let titles: String = cases::all()
        .iter()
        .enumerate()
        .map(|(at, one)| format!("{} {}\n", at + 1, one.title))
        .collect();
    print(titles.as_bytes())
}

/// The words as numbers, with a set's kind and sizes.
fn set_asked<const N: usize>(kind: &str, numbers: [&str; N]) -> Result<(Kind, [usize; N]), String> {
    let kind = Kind::named(kind).ok_or(USAGE)?;
    let mut asked = [0; N];
    for (number, word) in asked.iter_mut().zip(numbers) {
        *number = word.parse().map_err(|_| USAGE)?;
    }
    let in_range = (1..=8).contains(&asked[0]) && (1..=1_024).contains(&asked[1]);
    in_range.then_some((kind, asked)).ok_or(USAGE.to_string())
}

fn print_set(kind: &str, numbers: [&str; 3]) -> Result<(), String> {
    let (kind, [m, n, seed]) = set_asked(kind, numbers)?;
    print(&bytes_of(&set_of(kind, m, n, seed as u64)))
}

/// The means of the four searches in a line, in their order, then what each needed at most.
fn print_accesses(kind: &str, numbers: [&str; 4]) -> Result<(), String> {
    let (kind, [m, n, k, sets]) = set_asked(kind, numbers)?;
    if k < 1 || n < k || sets < 1 {
        return Err(USAGE.to_string());
    }
    let measured = measured(kind, m, n, k, sets as u64);
    let means = measured.means.map(|mean| format!("{mean:.1}"));
    let greatest = measured.greatest.map(|count| count.to_string());
    print(format!("{} {}\n", means.join(" "), greatest.join(" ")).as_bytes())
}

/// Status 0 where all agree, 1 where something differs, 2 where there is nothing to compare with.
fn compare(words: &[&str]) -> ExitCode {
    let Some(comparison) = comparison_asked(words) else {
        eprintln!("{USAGE}");
        return ExitCode::from(2);
    };
    let (result, counted) = comparison.run();
    let printed = print(counted.as_bytes());
    match result {
        Ok(()) if printed.is_ok() => ExitCode::SUCCESS,
        Ok(()) => ExitCode::from(2),
        Err(Failure::Difference(what)) => {
            eprintln!("DIFFERENCE: {what}");
            ExitCode::FAILURE
        }
        Err(Failure::NotRun(reason)) => {
            eprintln!("{reason}");
            ExitCode::from(2)
        }
    }
}

/// The options are taken from the end: the harness's command line may have some of its own.
fn comparison_asked(words: &[&str]) -> Option<Comparison> {
    let mut comparison = Comparison {
        harness: Vec::new(),
        calls: 200_000,
        seed: 1,
        first: 0,
    };
    let mut rest = words;
    while let [before @ .., name, value] = rest {
        let to = match *name {
            "--calls" => &mut comparison.calls,
            "--seed" => &mut comparison.seed,
            "--first" => &mut comparison.first,
            _ => break,
        };
        *to = value.parse().ok()?;
        rest = before;
    }
    comparison.harness = rest.iter().map(ToString::to_string).collect();
    (!comparison.harness.is_empty() && comparison.calls > 0).then_some(comparison)
}
