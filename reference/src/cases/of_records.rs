//! The recorded cases of the two reads and of the choice of weights.

use super::generator::{random_set, Generator, Shape};
use super::sets::{joined, list_record, query_record, with_byte, with_length_field, OwnedSet};
use super::worked::set_b;
use super::{recorded, Case, ReadListsCase, Recorded};

/// A record with its title.
type Titled = (String, Vec<u8>);

pub fn all() -> Vec<Recorded> {
    let mut cases = query_cases();
    cases.extend(list_cases());
    cases.extend(list_slice_cases());
    cases.extend(weight_cases());
    cases
}

fn titled(title: &str, bytes: Vec<u8>) -> Titled {
    (title.to_string(), bytes)
}

/// 15 bytes: length 11, c of 3.
fn query_of_3() -> Vec<u8> {
    query_record(0, 2, &[1, 2, 3])
}

/// 74 bytes: length 70, m 3, n 5.
fn lists_of_b() -> Vec<u8> {
    list_record(&set_b(), &[4, 5, 6])
}

fn query_cases() -> Vec<Recorded> {
    let mut records = accepted_queries();
    records.extend(cut_queries());
    records.extend(refused_queries());
    records.extend(queries_with_two_faults());
    records
        .into_iter()
        .map(|(title, bytes)| recorded(format!("query read: {title}"), Case::ReadQuery(bytes)))
        .collect()
}

fn accepted_queries() -> Vec<Titled> {
    let no_weights = query_record(1, 4, &[]);
    vec![
        titled("c 0", no_weights.clone()),
        titled("c 0, one byte after", joined(&no_weights, &[7])),
        titled(
            "c 0, another record after",
            joined(&no_weights, &no_weights),
        ),
        titled("c 1", query_record(2, 1, &[9])),
        titled("c 3", query_of_3()),
        titled("c 3, one byte after", joined(&query_of_3(), &[7])),
        titled("c 8", query_record(0, 1_024, &[1_000; 8])),
        titled("c 255", query_record(0, 1, &[1; 255])),
        titled("k 0", query_record(0, 0, &[])),
        titled("k 258, whose two bytes differ", query_record(0, 258, &[])),
        titled("k 65,535", query_record(0, 65_535, &[])),
        titled("rule 3", query_record(3, 1, &[])),
        titled("rule 255", query_record(255, 1, &[])),
        titled("weight 65,535", query_record(0, 1, &[65_535])),
    ]
}

fn cut_queries() -> Vec<Titled> {
    let whole = query_of_3();
    let mut cut: Vec<Titled> = (0..whole.len())
        .map(|length| {
            (
                format!("c 3, cut to {length} bytes"),
                whole[..length].to_vec(),
            )
        })
        .collect();
    let head_alone = query_record(1, 4, &[]);
    cut.push(titled("c 0, cut by one byte", head_alone[..8].to_vec()));
    let greatest = query_record(0, 1, &[1; 255]);
    cut.push(titled("c 255, cut by one byte", greatest[..518].to_vec()));
    cut.push(titled(
        "c 255 with no weights at all",
        greatest[..9].to_vec(),
    ));
    cut
}

fn refused_queries() -> Vec<Titled> {
    let query = query_of_3();
    let mut refused = Vec::new();
    for version in [0, 2, 255] {
        refused.push((format!("version {version}"), with_byte(&query, 4, version)));
    }
    for length in [0, 5, 10, 12, 13].into_iter().chain(great_lengths(11)) {
        let bytes = with_length_field(&query, length);
        refused.push((format!("length {length} for c 3"), bytes));
    }
    for count in [0, 2, 4, 131, 255] {
        let bytes = with_byte(&query, 8, count);
        refused.push((format!("c {count} for length 11"), bytes));
    }
    let greatest = query_record(0, 1, &[1; 255]);
    for length in [514, 516] {
        let bytes = with_length_field(&greatest, length);
        refused.push((format!("length {length} for c 255"), bytes));
    }
    refused
}

/// Lengths that would be right with their upper bytes cut or in another order, and those that pass
/// 2^32 with the four bytes of the field itself.
fn great_lengths(right: u32) -> [u32; 6] {
    [
        right + (1 << 16),
        right + (1 << 24),
        right + (1 << 31),
        right.swap_bytes(),
        u32::MAX - 3,
        u32::MAX,
    ]
}

fn queries_with_two_faults() -> Vec<Titled> {
    let query = query_of_3();
    let other_version = with_byte(&query, 4, 2);
    let other_length = with_length_field(&query, 13);
    vec![
        titled("10 and 12", other_version[..8].to_vec()),
        titled("10 and 13", other_length[..8].to_vec()),
        titled("12 and 13", with_length_field(&other_version, 13)),
        titled("12 and 11", other_version[..14].to_vec()),
        titled("13 and 11", other_length[..14].to_vec()),
        titled("12, 13 and 11", with_length_field(&other_version, u32::MAX)),
    ]
}

fn list_cases() -> Vec<Recorded> {
    let mut records = list_records_of_all_sizes();
    records.extend(cut_lists());
    records.extend(refused_lists());
    records.extend(lists_with_two_faults());
    records
        .into_iter()
        .map(|(title, bytes)| list_case(&title, bytes, 40, 41))
        .collect()
}

fn list_case(title: &str, bytes: Vec<u8>, items: u16, scores: u16) -> Recorded {
    let call = ReadListsCase {
        bytes,
        items,
        scores,
    };
    recorded(format!("lists read: {title}"), Case::ReadLists(call))
}

fn flat_record(m: usize, n: usize) -> Vec<u8> {
    list_record(&OwnedSet::flat(m, n, 9), &vec![1; m])
}

/// Accepted, or refused for their sizes alone.
fn list_records_of_all_sizes() -> Vec<Titled> {
    let mut records = vec![titled("B", lists_of_b())];
    for (m, n) in [
        (1, 1),
        (8, 1),
        (9, 1),
        (8, 5),
        (0, 5),
        (3, 0),
        (255, 1),
        (0, 0),
    ] {
        records.push((format!("flat, m {m}, n {n}"), flat_record(m, n)));
    }
    let mut faulty = set_b();
    faulty.items[0] = 65_535;
    faulty.items[6] = faulty.items[5];
    faulty.scores[1] = 65_535;
    let bytes = list_record(&faulty, &[1_001, 65_535, 0]);
    records.push(titled("faults that are the search's", bytes));
    records
}

/// The length kept, and the length made to fit.
fn cut_lists() -> Vec<Titled> {
    let whole = lists_of_b();
    let mut cut: Vec<Titled> = (0..whole.len())
        .map(|length| {
            (
                format!("B, cut to {length} bytes"),
                whole[..length].to_vec(),
            )
        })
        .collect();
    for length in (8..24).chain([40, 70, 72, 73]) {
        let bytes = with_length_field(&whole[..length], length as u32 - 4);
        cut.push((format!("B, cut to {length} bytes with their length"), bytes));
    }
    cut
}

fn refused_lists() -> Vec<Titled> {
    let lists = lists_of_b();
    let mut refused = Vec::new();
    for length in [0, 66, 69, 71, 74].into_iter().chain(great_lengths(70)) {
        let bytes = with_length_field(&lists, length);
        refused.push((format!("B, length {length} for 70"), bytes));
    }
    for version in [0, 2, 255] {
        refused.push((
            format!("B, version {version}"),
            with_byte(&lists, 4, version),
        ));
    }
    for m in [0, 2, 4, 8, 9, 255] {
        refused.push((format!("B, m {m} for 3"), with_byte(&lists, 5, m)));
    }
    for (at, byte) in [(7, 0), (7, 4), (7, 6), (6, 1), (6, 4), (6, 255)] {
        let n = u16::from_be_bytes(if at == 6 { [byte, 5] } else { [0, byte] });
        refused.push((format!("B, n {n} for 5"), with_byte(&lists, at, byte)));
    }
    let longer = joined(&lists, &[0]);
    refused.push(titled("B, one byte after", longer.clone()));
    let bytes = with_length_field(&longer, 71);
    refused.push(titled("B, one byte after and counted", bytes));
    let with_an_entry_more = with_length_field(&joined(&lists, &[0; 4]), 74);
    refused.push(titled("B, one entry after and counted", with_an_entry_more));
    refused
}

fn lists_with_two_faults() -> Vec<Titled> {
    let lists = lists_of_b();
    let other_version = with_byte(&lists, 4, 2);
    let nine_lists = with_byte(&lists, 5, 9);
    let longer = with_length_field(&joined(&lists, &[0]), 71);
    vec![
        titled("10 and 11", with_length_field(&lists[..7], 4)),
        titled("10 and 12", with_length_field(&other_version[..7], 3)),
        titled("11 and 12", with_length_field(&other_version, 69)),
        titled("11 and 1", with_length_field(&nine_lists, 71)),
        titled("11 and 13", with_length_field(&longer, 72)),
        titled("12 and 1", with_byte(&nine_lists, 4, 0)),
        titled("12 and 13", with_byte(&longer, 4, 2)),
        titled("1 and 13", nine_lists),
    ]
}

/// Test 6, the slices that just do, and the greatest record.
fn list_slice_cases() -> Vec<Recorded> {
    let lists = lists_of_b();
    let mut cases = Vec::new();
    for (items, scores) in [(15, 15), (14, 15), (15, 14), (0, 15), (15, 0), (0, 0)] {
        let title = format!("B into {items} items and {scores} scores");
        cases.push(list_case(&title, lists.clone(), items, scores));
    }
    let with_short_slices = [
        ("10 and 6", lists[..7].to_vec()),
        ("11 and 6", with_length_field(&lists, 71)),
        ("12 and 6", with_byte(&lists, 4, 2)),
        ("1 and 6", with_byte(&lists, 5, 9)),
        ("13 and 6", with_byte(&lists, 5, 2)),
    ];
    for (title, bytes) in with_short_slices {
        cases.push(list_case(title, bytes, 1, 1));
    }
    for (n, slice) in [(1_024, 1_024), (1_024, 1_023), (1_025, 1_025)] {
        let title = format!("flat, m 1, n {n} into {slice}");
        cases.push(list_case(&title, flat_record(1, n), slice, slice));
    }
    let greatest = greatest_lists();
    let cut = greatest[..greatest.len() - 1].to_vec();
    cases.push(list_case("m 8, n 1,024", greatest, 8_192, 8_193));
    cases.push(list_case(
        "m 8, n 1,024, cut by one byte",
        cut,
        8_192,
        8_192,
    ));
    cases.extend(lists_cut_in_the_middle());
    cases
}

fn greatest_lists() -> Vec<u8> {
    let mut generator = Generator::seeded(4);
    let set = random_set(&mut generator, Shape::Uniform, 8, 1_024);
    list_record(&set, &[1_000; 8])
}

/// A record of m 2, n 40 cut within an entry, between two and between the lists, once with the
/// length kept and once with a length that fits what is left.
fn lists_cut_in_the_middle() -> Vec<Recorded> {
    let mut generator = Generator::seeded(8);
    let set = random_set(&mut generator, Shape::Uniform, 2, 40);
    let whole = list_record(&set, &[3, 4]);
    let mut cases = vec![list_case("m 2, n 40", whole.clone(), 80, 80)];
    for (title, length) in [
        ("within list 1", 90),
        ("between two entries of list 1", 92),
        ("between the lists", 172),
        ("within list 2", 251),
        ("by one entry", 328),
        ("by one byte", 331),
    ] {
        let (kept, fitting) = (&whole[..length], length as u32 - 4);
        let title = format!("m 2, n 40, cut {title}");
        cases.push(list_case(&title, kept.to_vec(), 80, 80));
        let title = format!("{title}, its length fitting");
        cases.push(list_case(&title, with_length_field(kept, fitting), 80, 80));
    }
    cases
}

fn weights_case(title: &str, query: &[u8], lists: &[u8]) -> Recorded {
    let case = Case::ChosenWeights {
        query: query.to_vec(),
        lists: lists.to_vec(),
    };
    recorded(format!("chosen weights: {title}"), case)
}

fn weight_cases() -> Vec<Recorded> {
    let lists = lists_of_b();
    let mut cases = weights_of_all_counts();
    let mut queries = cut_queries();
    queries.extend(refused_queries());
    queries.extend(queries_with_two_faults());
    for (title, query) in queries {
        cases.push(weights_case(&format!("query, {title}"), &query, &lists));
    }
    // Both kinds of query: the query's own weights also need a list record that is read.
    let mut records = refused_lists();
    records.extend(lists_with_two_faults());
    records.extend((0..=12).map(|length| (format!("cut to {length}"), lists[..length].to_vec())));
    records.push(titled("cut by one byte", lists[..73].to_vec()));
    for (at, (title, bytes)) in records.into_iter().enumerate() {
        let query = if at % 2 == 0 {
            query_of_3()
        } else {
            query_record(0, 2, &[])
        };
        cases.push(weights_case(&format!("lists, {title}"), &query, &bytes));
    }
    cases.push(weights_case("both empty", &[], &[]));
    cases
}

fn weights_of_all_counts() -> Vec<Recorded> {
    let lists = lists_of_b();
    let mut cases = Vec::new();
    for count in [0, 1, 2, 3, 4, 8, 255] {
        let own: Vec<u16> = (0..count).map(|at| 300 + at).collect();
        let query = query_record(0, 2, &own);
        let followed = joined(&query, &lists);
        cases.push(weights_case(&format!("c {count}, m 3"), &query, &lists));
        let title = format!("c {count}, m 3, the lists after the query");
        cases.push(weights_case(&title, &followed, &lists));
    }
    let unread = query_record(255, 0, &[65_535, 1_001, 0]);
    cases.push(weights_case(
        "what the query read leaves alone",
        &unread,
        &lists,
    ));
    let mut faulty = set_b();
    faulty.items.fill(9);
    let house = list_record(&faulty, &[65_535, 1_001, 0]);
    let query = query_record(0, 2, &[]);
    cases.push(weights_case(
        "what the lists read leaves alone",
        &query,
        &house,
    ));
    for (m, n) in [(1, 1), (8, 1), (9, 1), (1, 1_024), (1, 1_025)] {
        let title = format!("c 0, m {m}, n {n}");
        cases.push(weights_case(&title, &query, &flat_record(m, n)));
    }
    cases
}
