//! What the specification and the worked vectors say of their sets.

use rutlark_reference::cases::sets::{list_record, query_record, OwnedSet};
use rutlark_reference::cases::worked::{self, Worked};
use rutlark_reference::cases::{SearchCase, Searched};
use rutlark_reference::preview::preview;

const TA: u8 = 0;
const BPA: u8 = 1;
const BPA2: u8 = 2;
const NRA: u8 = 3;
const ALL: [u8; 4] = [TA, BPA, BPA2, NRA];

fn bytes_of(hex: &str) -> Vec<u8> {
    let digits: Vec<u32> = hex.chars().filter_map(|digit| digit.to_digit(16)).collect();
    let byte_of = |pair: &[u32]| (16 * pair[0] + pair[1]) as u8;
    digits.chunks(2).map(byte_of).collect()
}

fn printed(input: &[u8]) -> String {
    String::from_utf8(preview(input)).unwrap()
}

fn worked_set(name: &str) -> Worked {
    let found = worked::all().into_iter().find(|one| one.name == name);
    found.unwrap_or_else(|| panic!("no set is named {name}"))
}

fn run(name: &str, which: u8) -> Searched {
    let one = worked_set(name);
    SearchCase::on(which, &one.set, one.rule, one.k, &one.weights()).run()
}

fn rows(name: &str) -> [u32; 4] {
    ALL.map(|which| run(name, which).answer.rows)
}

/// item:low:high of each place, as the previewer prints them.
fn shortlist(name: &str, which: u8) -> String {
    let ran = run(name, which);
    let places: Vec<String> = (0..worked_set(name).k)
        .map(|at| format!("{}:{}:{}", ran.picks[at], ran.lows[at], ran.highs[at]))
        .collect();
    places.join(" ")
}

fn input_of(set: &OwnedSet, k: u16) -> Vec<u8> {
    [query_record(0, k, &[]), list_record(set, &vec![1; set.m])].concat()
}

const INPUT_OF_B: &str = "
00000005 01 00 0004 00
00000046 01 03 0005 0001 0001 0001
0000001E 0001001C 0002001B 0003000A 00040005
0001001D 0002001A 00000019 0004000C 00030008
0002001E 0000001B 00010018 00030009 00040003";

#[test]
fn case_b_from_its_printed_input() {
    let input = bytes_of(INPUT_OF_B);
    assert_eq!(input, input_of(&worked::set_b(), 4));
    assert_eq!(
        printed(&input),
        "TA 5 15 0 30 2:83:83 0:82:82 1:81:81 3:27:27\n\
         BPA 4 12 0 24 2:83:83 0:82:82 1:81:81 3:27:27\n\
         BPA2 2 0 5 10 2:83:83 0:82:82 1:81:81 3:27:27\n\
         NRA 5 15 0 0 2:83:83 0:82:82 1:81:81 3:27:27\n"
    );
}

#[test]
fn figure_1_of_document_000() {
    let input = bytes_of(
        "000000050100000300 0000009A0103000C0001000100010000001E0003001C0008001B0002001A00060019
         00070017000400110005000E0001000B0009000A000A0000000B00000001001C0005001B0006001900040018
         0008001700000015000700140002000E0003000D000B000C00090000000A00000002001E0004001D0007001C
         000300190001001800050013000A000F0000000E0008000C0006000B00090000000B0000",
    );
    assert_eq!(input, input_of(&worked::figure_1(), 3));
    assert_eq!(
        printed(&input),
        "TA 6 18 0 36 7:71:71 2:70:70 4:70:70\n\
         BPA 3 9 0 18 7:71:71 2:70:70 4:70:70\n\
         BPA2 3 0 9 18 7:71:71 2:70:70 4:70:70\n\
         NRA 8 24 0 0 7:71:71 2:70:70 4:70:70\n"
    );
}

#[test]
fn figure_2_of_document_000() {
    let input = bytes_of(
        "000000050100000300 0000009A0103000C0001000100010000001E0003001C0008001B0002001A00060019
         00070018000900110005000E0001000B0004000A000A0000000B00000001001C0005001B0006001900040018
         0008001700000016000B00140002000E0003000D0007000C00090000000A00000002001E0004001D0007001C
         0003001B0001001A00050019000A000F0000000D0008000C0006000B00090000000B0000",
    );
    assert_eq!(input, input_of(&worked::figure_2(), 3));
    assert_eq!(
        printed(&input),
        "TA 7 21 0 42 2:70:70 3:68:68 5:66:66\n\
         BPA 7 21 0 42 2:70:70 3:68:68 5:66:66\n\
         BPA2 4 0 12 24 2:70:70 3:68:68 5:66:66\n\
         NRA 9 27 0 0 2:70:70 3:68:68 5:66:66\n"
    );
}

#[test]
fn example_1_of_document_001() {
    let input = bytes_of(
        "000000050100000200 0000003801020006000100010001005F0000005C000400590002005800030057
         000500560002005F0003005A00050058000100570000005700040055",
    );
    assert_eq!(input, input_of(&worked::example_1(), 2));
    assert_eq!(
        printed(&input),
        "TA 2 4 0 4 2:183:183 1:182:182\n\
         BPA 2 4 0 4 2:183:183 1:182:182\n\
         BPA2 2 0 4 4 2:183:183 1:182:182\n\
         NRA 4 8 0 0 2:183:183 1:182:182\n"
    );
}

#[test]
fn case_a() {
    assert_eq!(rows("A"), [2, 1, 1, 3]);
    for which in ALL {
        assert_eq!(shortlist("A", which), "2:83:83 0:82:82");
    }
}

#[test]
fn case_d() {
    assert_eq!(rows("D"), [2, 1, 1, 1]);
    for which in [TA, BPA, BPA2] {
        assert_eq!(shortlist("D", which), "0:10:10 1:10:10");
    }
    assert_eq!(shortlist("D", NRA), "0:10:20 1:10:20");
}

#[test]
fn case_e() {
    assert_eq!(rows("E"), [1, 1, 1, 1]);
    assert_eq!(shortlist("E", TA), "1:10:10");
    assert_eq!(shortlist("E", BPA), "1:10:10");
    assert_eq!(shortlist("E", NRA), "1:10:10");
    assert_eq!(shortlist("E", BPA2), "0:10:10");
}

#[test]
fn case_c_has_one_access() {
    for which in ALL {
        let ran = run("C", which);
        let answer = ran.answer;
        assert_eq!(shortlist("C", which), "0:21:21");
        assert_eq!(answer.sorted + answer.direct + answer.random, 1);
        assert_eq!(answer.direct, u32::from(which == BPA2));
        assert_eq!(ran.tally[0], 1);
    }
}

#[test]
fn lists_of_b_under_the_other_rules() {
    assert_eq!(rows("B, rule 1, k 1"), [2, 1, 1, 3]);
    for which in ALL {
        assert_eq!(shortlist("B, rule 1, k 1", which), "2:26:26");
    }
    assert_eq!(shortlist("B, rule 2, k 1", TA), "0:30:30");
    assert_eq!(run("B, rule 2, k 1", TA).answer.rows, 1);
}

#[test]
fn the_greatest_overall_score() {
    let set = OwnedSet::flat(8, 1_024, 65_535);
    for which in ALL {
        let ran = SearchCase::on(which, &set, 0, 1_024, &[1_000; 8]).run();
        assert_eq!(ran.lows[..1_024], [524_280_000; 1_024]);
        assert_eq!(ran.highs[..1_024], [524_280_000; 1_024]);
    }
}

#[test]
fn reading_everything_takes_65_536_accesses() {
    let set = OwnedSet::flat(8, 1_024, 65_535);
    for which in [TA, BPA] {
        let ran = SearchCase::on(which, &set, 0, 1_024, &[1_000; 8]).run();
        let answer = ran.answer;
        assert_eq!((answer.rows, answer.sorted), (1_024, 8_192));
        assert_eq!((answer.direct, answer.random), (0, 57_344));
        assert_eq!(ran.tally[..8_192], [8; 8_192]);
    }
}

#[test]
fn bpa2_does_not_fix_its_positions_at_the_start_of_a_round() {
    assert_eq!(run("E", BPA2).tally[..4], [1, 1, 1, 1]);
    let answer = run("E", BPA2).answer;
    assert_eq!((answer.direct, answer.random), (2, 2));
}

#[test]
fn bpa_and_bpa2_may_visit_other_positions() {
    assert_eq!(run("E", BPA).tally[..4], [2, 0, 2, 0]);
    assert_ne!(run("E", BPA).tally[..4], run("E", BPA2).tally[..4]);
}

#[test]
fn random_accesses_are_made_for_items_met_before() {
    // Item 1 stands first in both lists of E: the second time it is met already.
    let answer = run("E", TA).answer;
    assert_eq!((answer.sorted, answer.random), (2, 2));
}

#[test]
fn nra_may_stop_before_ta() {
    assert!(run("D", NRA).answer.rows < run("D", TA).answer.rows);
}

#[test]
fn the_order_of_nra_is_not_that_of_true_scores() {
    let name = "order unlike true scores";
    assert_eq!(shortlist(name, NRA), "0:10:20 1:10:20");
    assert_eq!(shortlist(name, TA), "1:19:19 0:10:10");
}

#[test]
fn equal_lows_go_by_high_and_then_by_item() {
    assert_eq!(shortlist("tied lows", NRA), "1:10:15 0:10:13 2:8:8");
    assert_eq!(shortlist("D", NRA), "0:10:20 1:10:20");
}

#[test]
fn more_places_may_need_fewer_rows_of_nra() {
    assert_eq!(run("two rows for one place", NRA).answer.rows, 2);
    assert_eq!(run("one row for two places", NRA).answer.rows, 1);
}

#[test]
fn ta_and_bpa_may_return_other_items() {
    let name = "other items of TA and BPA";
    assert_eq!(run(name, TA).picks[..2], [0, 1]);
    assert_eq!(run(name, BPA).picks[..2], [0, 2]);
}

#[test]
fn accepted_answers_carry_no_refusal_and_leave_places_beyond_as_lent() {
    for one in worked::all() {
        for which in ALL {
            let call = SearchCase::on(which, &one.set, one.rule, one.k, &one.weights());
            let (ran, lent) = (call.run(), call.as_lent());
            let size = one.set.m * one.set.n;
            let refusal = (ran.answer.number, ran.answer.list, ran.answer.position);
            assert_eq!(refusal, (0, 0, 0));
            assert_eq!(ran.picks[one.k..], lent.picks[one.k..]);
            assert_eq!(ran.lows[one.k..], lent.lows[one.k..]);
            assert_eq!(ran.highs[one.k..], lent.highs[one.k..]);
            assert_eq!(ran.tally[size..], lent.tally[size..]);
            assert_eq!(ran.work[size..], lent.work[size..]);
        }
    }
}

#[test]
fn the_work_slice_holds_each_items_position() {
    assert_eq!(
        run("A", TA).work[..15],
        [1, 2, 3, 4, 5, 3, 1, 2, 5, 4, 2, 3, 1, 4, 5]
    );
}
