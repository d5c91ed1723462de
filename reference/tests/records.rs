//! The two reads, the choice of weights and the previewer's program.

use rutlark_reference::cases::sets::{
    joined, list_record, query_record, with_byte, with_length_field, OwnedSet,
};
use rutlark_reference::cases::worked::set_b;
use rutlark_reference::cases::ReadListsCase;
use rutlark_reference::preview::{preview, MOST_BYTES_TAKEN};
use rutlark_reference::records::{chosen_weights, read_query, ListsRead, QueryRead};

fn query_of_3() -> Vec<u8> {
    query_record(2, 258, &[1, 2, 3])
}

fn lists_of_b() -> Vec<u8> {
    list_record(&set_b(), &[4, 5, 6])
}

fn assert_query_refused(bytes: &[u8], number: u32) {
    let expected = QueryRead {
        number,
        ..QueryRead::default()
    };
    assert_eq!(read_query(bytes), expected);
    assert!(chosen_weights(bytes, &lists_of_b()).is_empty());
}

/// Refused with both slices as lent, and without a part chosen but for 6.
fn assert_lists_refused(bytes: &[u8], slices: u16, number: u32) {
    let call = ReadListsCase {
        bytes: bytes.to_vec(),
        items: slices,
        scores: slices,
    };
    let ran = call.run();
    assert_eq!(ran.read, ListsRead { number, m: 0, n: 0 });
    assert!(ran
        .items
        .iter()
        .zip(40_000..)
        .all(|(&entry, lent)| entry == lent));
    assert!(ran
        .scores
        .iter()
        .zip(50_000..)
        .all(|(&entry, lent)| entry == lent));
    if number != 6 {
        assert!(chosen_weights(&query_of_3(), bytes).is_empty());
        assert!(chosen_weights(&query_record(0, 1, &[]), bytes).is_empty());
    }
}

#[test]
fn a_query_with_what_follows_it() {
    let expected = QueryRead {
        number: 0,
        rule: 2,
        k: 258,
        weight_count: 3,
        bytes: 15,
    };
    assert_eq!(read_query(&query_of_3()), expected);
    assert_eq!(read_query(&joined(&query_of_3(), &lists_of_b())), expected);
    assert_eq!(read_query(&query_record(0, 1, &[])).bytes, 9);
    assert_eq!(read_query(&query_record(0, 1, &[1; 255])).bytes, 519);
}

#[test]
fn a_query_read_leaves_k_rule_and_weights_to_the_search() {
    assert_eq!(read_query(&query_record(255, 0, &[65_535])).number, 0);
}

#[test]
fn a_query_cut_anywhere() {
    for length in 0..15 {
        let number = if length < 9 { 10 } else { 11 };
        assert_query_refused(&query_of_3()[..length], number);
    }
}

#[test]
fn queries_refused_in_the_order_10_12_13_11() {
    let query = query_of_3();
    let other_version = with_byte(&query, 4, 0);
    let other_length = with_length_field(&query, 13);
    assert_query_refused(&other_version, 12);
    assert_query_refused(&other_length, 13);
    assert_query_refused(&with_length_field(&query, u32::MAX), 13);
    assert_query_refused(&with_byte(&query, 8, 255), 13);
    assert_query_refused(&other_version[..8], 10);
    assert_query_refused(&other_length[..8], 10);
    assert_query_refused(&with_length_field(&other_version, 13), 12);
    assert_query_refused(&other_version[..9], 12);
    assert_query_refused(&other_length[..9], 13);
}

#[test]
fn lists_fill_both_slices_and_no_more() {
    for (items, scores) in [(15, 15), (16, 20)] {
        let call = ReadListsCase {
            bytes: lists_of_b(),
            items,
            scores,
        };
        let ran = call.run();
        assert_eq!(
            ran.read,
            ListsRead {
                number: 0,
                m: 3,
                n: 5
            }
        );
        assert_eq!(ran.items[..15], set_b().items);
        assert_eq!(ran.scores[..15], set_b().scores);
        assert!(ran.items[15..]
            .iter()
            .zip(40_015..)
            .all(|(&entry, lent)| entry == lent));
        assert!(ran.scores[15..]
            .iter()
            .zip(50_015..)
            .all(|(&entry, lent)| entry == lent));
    }
}

#[test]
fn lists_cut_anywhere() {
    let lists = lists_of_b();
    for length in 0..74 {
        assert_lists_refused(&lists[..length], 20, if length < 8 { 10 } else { 11 });
    }
    for length in 8..74 {
        let with_their_length = with_length_field(&lists[..length], length as u32 - 4);
        assert_lists_refused(&with_their_length, 20, 13);
    }
}

#[test]
fn lists_refused_in_the_order_10_11_12_1_13_6() {
    let lists = lists_of_b();
    let other_version = with_byte(&lists, 4, 2);
    let nine_lists = with_byte(&lists, 5, 9);
    assert_lists_refused(&with_byte(&lists[..7], 4, 2), 0, 10);
    assert_lists_refused(&with_length_field(&other_version, 69), 0, 11);
    assert_lists_refused(&with_length_field(&nine_lists, 71), 0, 11);
    assert_lists_refused(&with_length_field(&lists, u32::MAX), 0, 11);
    assert_lists_refused(&joined(&lists, &[0]), 0, 11);
    assert_lists_refused(&with_byte(&nine_lists, 4, 0), 0, 12);
    assert_lists_refused(&nine_lists, 0, 1);
    assert_lists_refused(&with_byte(&lists, 5, 0), 0, 1);
    assert_lists_refused(&with_byte(&lists, 7, 0), 0, 1);
    assert_lists_refused(&with_byte(&lists, 6, 4), 0, 1);
    assert_lists_refused(&with_byte(&lists, 5, 2), 0, 13);
    assert_lists_refused(&lists, 14, 6);
}

#[test]
fn either_slice_by_itself_may_be_too_short() {
    for (items, scores, number) in [(14, 15, 6), (15, 14, 6), (15, 15, 0)] {
        let call = ReadListsCase {
            bytes: lists_of_b(),
            items,
            scores,
        };
        assert_eq!(call.run().read.number, number);
    }
}

#[test]
fn list_records_at_the_limits() {
    for (m, n, number) in [
        (8, 1, 0),
        (9, 1, 1),
        (1, 1_024, 0),
        (1, 1_025, 1),
        (8, 1_024, 0),
    ] {
        let call = ReadListsCase {
            bytes: list_record(&OwnedSet::flat(m, n, 1), &vec![1; m]),
            items: 8_192,
            scores: 8_192,
        };
        assert_eq!(call.run().read.number, number);
    }
    let greatest = list_record(&OwnedSet::flat(8, 1_024, 1), &[1; 8]);
    assert_eq!(greatest.len(), 4 + 32_788);
    assert_eq!(519 + greatest.len() + 1, MOST_BYTES_TAKEN);
}

#[test]
fn a_list_record_of_8_bytes_is_not_too_short_for_its_head() {
    let eight = [0, 0, 0, 4, 1, 1, 0, 1];
    assert_lists_refused(&eight[..7], 20, 10);
    assert_lists_refused(&eight, 20, 13);
}

#[test]
fn weights_are_a_part_of_one_record_or_the_other() {
    let lists = lists_of_b();
    let house = query_record(0, 1, &[]);
    assert_eq!(
        chosen_weights(&house, &lists).as_ptr_range(),
        lists[8..14].as_ptr_range()
    );
    for count in [1, 2, 3, 4, 255] {
        let query = query_record(0, 1, &vec![7; count]);
        let own = &query[9..9 + 2 * count];
        assert_eq!(
            chosen_weights(&query, &lists).as_ptr_range(),
            own.as_ptr_range()
        );
        let followed = joined(&query, &lists);
        assert_eq!(chosen_weights(&followed, &lists), own);
    }
}

#[test]
fn the_choice_does_not_look_at_what_is_the_searchs() {
    let mut set = set_b();
    set.items.fill(65_535);
    let lists = list_record(&set, &[65_535; 3]);
    assert_eq!(chosen_weights(&query_record(9, 0, &[]), &lists), [255; 6]);
    assert_eq!(
        chosen_weights(&query_record(9, 0, &[65_535]), &lists),
        [255; 2]
    );
}

fn printed(query: &[u8], lists: &[u8]) -> String {
    String::from_utf8(preview(&joined(query, lists))).unwrap()
}

#[test]
fn the_previewer_refuses_by_query_then_lists_then_search() {
    let lists = lists_of_b();
    let no_query = with_byte(&query_record(0, 2, &[]), 4, 2);
    assert_eq!(printed(&[], &[]), "REFUSED 10 0 0\n");
    assert_eq!(printed(&no_query, &lists[..9]), "REFUSED 12 0 0\n");
    let k_of_0 = query_record(3, 0, &[1]);
    assert_eq!(printed(&k_of_0, &lists[..9]), "REFUSED 11 0 0\n");
    assert_eq!(
        printed(&k_of_0, &with_byte(&lists, 5, 9)),
        "REFUSED 1 0 0\n"
    );
    assert_eq!(printed(&k_of_0, &lists), "REFUSED 2 0 0\n");
    assert_eq!(
        printed(&query_record(3, 2, &[1]), &lists),
        "REFUSED 3 0 0\n"
    );
    assert_eq!(
        printed(&query_record(0, 2, &[1]), &lists),
        "REFUSED 4 0 0\n"
    );
    let mut set = set_b();
    set.scores[14] = 10;
    let risen = list_record(&set, &[1, 1, 1]);
    assert_eq!(
        printed(&query_record(0, 2, &[1]), &risen),
        "REFUSED 4 0 0\n"
    );
    assert_eq!(printed(&query_record(0, 2, &[]), &risen), "REFUSED 9 3 5\n");
}

#[test]
fn house_weights_count_only_where_they_are_taken() {
    let lists = list_record(&set_b(), &[1_001, 1, 1]);
    assert_eq!(printed(&query_record(0, 2, &[]), &lists), "REFUSED 4 0 0\n");
    let own = printed(&query_record(0, 2, &[1, 1, 1]), &lists);
    assert!(own.starts_with("TA 2 6 0 12 2:83:83 0:82:82\n"));
}

#[test]
fn at_most_33_312_bytes_are_taken() {
    let greatest = list_record(&OwnedSet::flat(8, 1_024, 1), &[1; 8]);
    let query = query_record(0, 1, &[1; 255]);
    assert_eq!(printed(&query, &greatest), "REFUSED 4 0 0\n");
    assert_eq!(
        printed(&query, &joined(&greatest, &[0])),
        "REFUSED 11 0 0\n"
    );
    assert_eq!(
        printed(&query, &joined(&greatest, &[0, 0])),
        "REFUSED 11 0 0\n"
    );
}

#[test]
fn the_input_ends_where_it_is_cut() {
    let query = query_record(0, 2, &[]);
    let mut lists = with_length_field(&lists_of_b(), 33_299);
    for (length, number) in [(33_311, 11), (33_312, 13), (33_313, 13), (40_000, 13)] {
        lists.resize(length - 9, 0);
        assert_eq!(printed(&query, &lists), format!("REFUSED {number} 0 0\n"));
    }
}

#[test]
fn a_line_of_1_024_places() {
    let lists = list_record(&OwnedSet::flat(8, 1_024, 65_535), &[1_000; 8]);
    let text = printed(&query_record(0, 1_024, &[]), &lists);
    assert_eq!(text.lines().count(), 4);
    for line in text.lines() {
        let fields: Vec<&str> = line.split(' ').collect();
        assert_eq!(fields.len(), 5 + 1_024);
        assert_eq!(fields[5 + 1_023], "1023:524280000:524280000");
    }
}
