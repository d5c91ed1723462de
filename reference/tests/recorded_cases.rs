//! The recorded cases: their two files, what they contain, and the commands that handle them.

use rutlark_reference::cases::format::{read_first, written};
use rutlark_reference::cases::{self, expected_of, Case};
use rutlark_reference::records::read_query;
use std::collections::BTreeSet;
use std::path::PathBuf;
use std::process::{Command, Output};

/// A folder of its own, removed at the end.
struct Folder(PathBuf);

impl Folder {
    fn new(name: &str) -> Folder {
        let path = std::env::temp_dir().join(format!("{name}-{}", std::process::id()));
        std::fs::create_dir_all(&path).unwrap();
        Folder(path)
    }

    fn reference(&self, command: &str) -> Output {
        let program = env!("CARGO_BIN_EXE_reference");
        Command::new(program)
            .arg(command)
            .arg(&self.0)
            .output()
            .unwrap()
    }

    fn change(&self, file: &str, change: impl Fn(&mut Vec<u8>)) {
        let path = self.0.join(file);
        let mut bytes = std::fs::read(&path).unwrap();
        change(&mut bytes);
        std::fs::write(path, bytes).unwrap();
    }

    fn complaint(&self) -> String {
        let output = self.reference("check");
        assert_eq!(output.status.code(), Some(1));
        String::from_utf8(output.stderr).unwrap()
    }
}

impl Drop for Folder {
    fn drop(&mut self) {
        std::fs::remove_dir_all(&self.0).unwrap();
    }
}

#[test]
fn check_accepts_what_cases_writes_and_names_the_first_difference() {
    let folder = Folder::new("reference-check");
    assert!(folder.reference("cases").status.success());
    assert!(folder.reference("check").status.success());
    folder.change("stdout", |bytes| bytes.push(b'\n'));
    assert!(folder.complaint().contains("made:  nothing"));
    assert!(folder.reference("cases").status.success());
    // The first number of the first answer.
    folder.change("stdout", |bytes| bytes[7] += 1);
    assert!(folder
        .complaint()
        .starts_with("stdout differs at line 2, in case 1 (TA: A)"));
    folder.change("stdin", |bytes| bytes[1] = 1);
    assert!(folder
        .complaint()
        .starts_with("stdin differs at byte 1, in case 1 (TA: A)"));
    assert!(folder.reference("cases").status.success());
    folder.change("stdin", |bytes| bytes.push(0));
    assert!(folder.complaint().contains("after the last case"));
}

#[test]
fn a_record_read_back_is_the_case() {
    for one in cases::all() {
        let mut record = written(&one.case);
        record.push(9);
        let (case, after) = read_first(&record).unwrap();
        assert!(case == one.case, "{}", one.title);
        assert_eq!(after, [9]);
        assert!(read_first(&record[..record.len() - 2]).is_none());
    }
}

#[test]
fn the_files_have_every_case_and_stay_small() {
    let recorded = cases::all();
    let expected = cases::expected_file(&recorded);
    assert!(recorded.len() >= 300);
    assert!(cases::cases_file(&recorded).len() < 1_500_000);
    let heads = expected.lines().filter(|line| line.starts_with("case "));
    assert!(heads
        .enumerate()
        .all(|(at, line)| line == format!("case {}", at + 1)));
    assert!(expected.ends_with('\n'));
}

#[test]
fn titles_differ_within_a_kind_but_for_random_sets() {
    let mut seen = BTreeSet::new();
    for one in cases::all()
        .iter()
        .filter(|one| !one.title.contains("random"))
    {
        assert!(seen.insert(one.title.clone()), "{} twice", one.title);
    }
}

/// The entry that a case calls, with its answer's number.
fn entry_and_number(case: &Case) -> (&'static str, u32) {
    match case {
        Case::Preview(_) => ("preview", preview_number(case)),
        Case::Search(call) => {
            let name = ["TA", "BPA", "BPA2", "NRA"][usize::from(call.which)];
            (name, call.run().answer.number)
        }
        Case::ListCheck(call) => ("list check", call.run().checked.number),
        Case::ReadQuery(bytes) => ("query read", read_query(bytes).number),
        Case::ReadLists(call) => ("lists read", call.run().read.number),
        Case::ChosenWeights { .. } => ("chosen weights", 0),
    }
}

fn preview_number(case: &Case) -> u32 {
    let text = expected_of(1, case);
    let refusal = text.lines().nth(1).unwrap().strip_prefix("REFUSED ");
    refusal.map_or(0, |rest| rest.split(' ').next().unwrap().parse().unwrap())
}

#[test]
fn every_entry_gives_each_of_its_numbers() {
    let recorded = cases::all();
    let given: BTreeSet<_> = recorded
        .iter()
        .map(|one| entry_and_number(&one.case))
        .collect();
    let mut needed = BTreeSet::from([("chosen weights", 0)]);
    for search in ["TA", "BPA", "BPA2", "NRA"] {
        needed.extend((0..=9).map(|number| (search, number)));
    }
    needed.extend([0, 1, 5, 6, 7, 8, 9].map(|number| ("list check", number)));
    needed.extend([0, 10, 11, 12, 13].map(|number| ("query read", number)));
    needed.extend([0, 1, 6, 10, 11, 12, 13].map(|number| ("lists read", number)));
    // 5 and 6 cannot be met: the program's own slices are long enough.
    let of_preview = [0, 1, 2, 3, 4, 7, 8, 9, 10, 11, 12, 13];
    needed.extend(of_preview.map(|number| ("preview", number)));
    assert_eq!(given, needed);
}

#[test]
fn expected_texts_of_small_calls() {
    let query = Case::ReadQuery(vec![0, 0, 0, 7, 1, 2, 1, 2, 1, 0, 9]);
    assert_eq!(expected_of(3, &query), "case 3\n0 2 258 1 11\n");
    let none = Case::ChosenWeights {
        query: Vec::new(),
        lists: Vec::new(),
    };
    assert_eq!(expected_of(4, &none), "case 4\n0\n");
    // One entry 50,000, then two: 31 x 50,000 + 50,001.
    let check = |work| {
        Case::ListCheck(cases::ListCheckCase {
            m: 0,
            n: 0,
            items: Vec::new(),
            scores: Vec::new(),
            work,
        })
    };
    assert_eq!(expected_of(5, &check(0)), "case 5\n1 0 0\n0 0\n");
    assert_eq!(expected_of(6, &check(1)), "case 6\n1 0 0\n1 50000\n");
    assert_eq!(expected_of(7, &check(2)), "case 7\n1 0 0\n2 1600001\n");
}

#[test]
fn no_picks_are_an_empty_line() {
    let call = cases::SearchCase {
        which: 0,
        m: 0,
        n: 0,
        rule: 0,
        k: 0,
        weights: Vec::new(),
        items: Vec::new(),
        scores: Vec::new(),
        picks: 0,
        lows: 1,
        highs: 1,
        tally: 1,
        work: 1,
    };
    assert_eq!(
        expected_of(1, &Case::Search(call)),
        "case 1\n1 0 0 0 0 0 0\n0 0\n1 3000000000\n1 3100000000\n1 200\n1 50000\n\n"
    );
}
