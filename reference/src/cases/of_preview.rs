//! The recorded cases of the previewer's program.

use super::generator::{random_set, Generator, Shape, SHAPES};
use super::sets::{joined, list_record, query_record, with_byte, with_length_field, OwnedSet};
use super::worked::{self, set_b};
use super::{recorded, Case, Recorded};
use crate::preview::MOST_BYTES_TAKEN;

pub fn all() -> Vec<Recorded> {
    let mut cases = worked_sets();
    cases.extend(cut_inputs());
    cases.extend(refused_queries());
    cases.extend(refused_lists());
    cases.extend(refused_searches());
    cases.extend(orders_of_the_steps());
    cases.extend(orders_in_the_search());
    cases.extend(choices_of_weights());
    cases.extend(inputs_at_the_cap());
    cases.extend(sets_at_the_limit());
    cases.extend(random_inputs());
    cases
}

fn preview_case(title: &str, input: Vec<u8>) -> Recorded {
    recorded(format!("preview: {title}"), Case::Preview(input))
}

/// B's list record with house weights 1: 74 bytes.
fn lists_of_b() -> Vec<u8> {
    list_record(&set_b(), &[1, 1, 1])
}

/// The query of A, without weights: 9 bytes.
fn query_of_a() -> Vec<u8> {
    query_record(0, 2, &[])
}

/// Each with the house weights, and again with the same weights in the query.
fn worked_sets() -> Vec<Recorded> {
    let mut cases = Vec::new();
    for one in worked::all() {
        let (k, weights) = (one.k as u16, one.weights());
        let house = query_record(one.rule, k, &[]);
        let input = joined(&house, &list_record(&one.set, &weights));
        cases.push(preview_case(&format!("{}, house weights", one.name), input));
        let own = query_record(one.rule, k, &weights);
        let input = joined(&own, &list_record(&one.set, &vec![77; one.set.m]));
        cases.push(preview_case(&format!("{}, own weights", one.name), input));
    }
    cases
}

fn cut_inputs() -> Vec<Recorded> {
    let whole = joined(&query_of_a(), &lists_of_b());
    let mut cases = vec![preview_case("no input at all", Vec::new())];
    cases.extend((1..whole.len()).map(|length| {
        let title = format!("A, cut to {length} bytes");
        preview_case(&title, whole[..length].to_vec())
    }));
    let own = joined(&query_record(0, 2, &[1, 2, 3]), &lists_of_b());
    for length in [8, 9, 10, 14, 15, 16, 22, 23] {
        let title = format!("A with own weights, cut to {length} bytes");
        cases.push(preview_case(&title, own[..length].to_vec()));
    }
    cases.push(preview_case("A, one byte after", joined(&whole, &[0])));
    cases.push(preview_case(
        "A, the lists twice",
        joined(&whole, &lists_of_b()),
    ));
    cases
}

fn refused_queries() -> Vec<Recorded> {
    let (query, lists) = (query_of_a(), lists_of_b());
    let counting_255 = &query_record(0, 2, &[1; 255])[..9];
    [
        ("version 0", joined(&with_byte(&query, 4, 0), &lists)),
        ("version 2", joined(&with_byte(&query, 4, 2), &lists)),
        ("length 4", joined(&with_length_field(&query, 4), &lists)),
        ("length 6", joined(&with_length_field(&query, 6), &lists)),
        (
            "length 2^32 - 1",
            joined(&with_length_field(&query, u32::MAX), &lists),
        ),
        ("c 1 for length 5", joined(&with_byte(&query, 8, 1), &lists)),
        ("c 255 and no lists", counting_255.to_vec()),
        ("c 255 running over the lists", joined(counting_255, &lists)),
    ]
    .map(|(title, input)| preview_case(&format!("query, {title}"), input))
    .into()
}

fn refused_lists() -> Vec<Recorded> {
    let lists = lists_of_b();
    let changed = [
        ("length 69", with_length_field(&lists, 69)),
        ("length 71", with_length_field(&lists, 71)),
        ("length 2^32 - 1", with_length_field(&lists, u32::MAX)),
        ("version 0", with_byte(&lists, 4, 0)),
        ("version 2", with_byte(&lists, 4, 2)),
        ("m 0", with_byte(&lists, 5, 0)),
        ("m 9", with_byte(&lists, 5, 9)),
        ("m 2 for 3", with_byte(&lists, 5, 2)),
        ("n 0", with_byte(&lists, 7, 0)),
        ("n 4 for 5", with_byte(&lists, 7, 4)),
        ("n 1,029", with_byte(&lists, 6, 4)),
        ("none", Vec::new()),
        ("7 bytes", with_length_field(&lists[..7], 3)),
        ("8 bytes", with_length_field(&lists[..8], 4)),
        ("m 8, n 1", list_record(&OwnedSet::flat(8, 1, 9), &[1; 8])),
        ("m 9, n 1", list_record(&OwnedSet::flat(9, 1, 9), &[1; 9])),
        (
            "m 1, n 1,024",
            list_record(&OwnedSet::flat(1, 1_024, 9), &[1]),
        ),
        (
            "m 1, n 1,025",
            list_record(&OwnedSet::flat(1, 1_025, 9), &[1]),
        ),
    ];
    changed
        .into_iter()
        .map(|(title, bytes)| {
            // k of 1, so that n of 1 is answered.
            let input = joined(&query_record(0, 1, &[]), &bytes);
            preview_case(&format!("lists, {title}"), input)
        })
        .collect()
}

fn refused_searches() -> Vec<Recorded> {
    let mut cases = Vec::new();
    for k in [0, 1, 5, 6, 1_024, 65_535] {
        let input = joined(&query_record(0, k, &[]), &lists_of_b());
        cases.push(preview_case(&format!("k {k} with n 5"), input));
    }
    for rule in [1, 2, 3, 255] {
        let input = joined(&query_record(rule, 2, &[]), &lists_of_b());
        cases.push(preview_case(&format!("rule {rule}"), input));
    }
    for (list, position, item, score) in [
        (1, 1, 5, 30),
        (3, 5, 65_535, 3),
        (2, 2, 1, 26),
        (3, 5, 3, 3),
        (1, 2, 1, 30),
        (1, 2, 1, 31),
        (3, 5, 4, 10),
        (2, 4, 5, 26),
        (2, 4, 1, 26),
        (2, 1, 1, 65_535),
    ] {
        let mut set = set_b();
        let at = set.place(list, position);
        (set.items[at], set.scores[at]) = (item, score);
        let input = joined(&query_of_a(), &list_record(&set, &[1, 1, 1]));
        let title = format!("item {item} at {score} in list {list}, position {position}");
        cases.push(preview_case(&title, input));
    }
    cases
}

fn joined_cases<const COUNT: usize>(parts: [(&str, Vec<u8>, Vec<u8>); COUNT]) -> Vec<Recorded> {
    parts
        .map(|(title, query, lists)| preview_case(title, joined(&query, &lists)))
        .into()
}

/// Two faults at once: the query is read before the lists, and both before the search.
fn orders_of_the_steps() -> Vec<Recorded> {
    let lists = lists_of_b();
    let version_2 = with_byte(&lists, 4, 2);
    let nine_lists = with_byte(&lists, 5, 9);
    let six_items = with_byte(&lists, 7, 6);
    let query = query_of_a();
    let (query_of_12, query_of_13) = (with_byte(&query, 4, 2), with_byte(&query, 8, 1));
    let (k_of_0, rule_3) = (query_record(0, 0, &[]), query_record(3, 2, &[]));
    let weight_1_001 = query_record(0, 2, &[1_001]);
    joined_cases([
        ("query 12, lists 11", query_of_12, lists[..70].to_vec()),
        ("query 13, lists 12", query_of_13, version_2.clone()),
        ("lists 12, search 2", k_of_0.clone(), version_2),
        ("lists 1, search 2", k_of_0, nine_lists.clone()),
        ("lists 1, search 3", rule_3.clone(), nine_lists.clone()),
        ("lists 1, search 4", weight_1_001, nine_lists),
        ("lists 13, search 3", rule_3, six_items),
    ])
}

/// Two faults at once, both the search's.
fn orders_in_the_search() -> Vec<Recorded> {
    let lists = lists_of_b();
    let mut faulty = set_b();
    faulty.items[0] = 5;
    let item_5 = list_record(&faulty, &[1, 1, 1]);
    let greater = query_record(3, 2, &[1_001, 1, 1]);
    joined_cases([
        ("search 2 and 3", query_record(3, 0, &[]), lists.clone()),
        ("search 2 and 4", query_record(0, 6, &[1]), lists.clone()),
        ("search 3 and 4", greater, lists),
        ("search 2 and 7", query_record(0, 0, &[]), item_5.clone()),
        ("search 3 and 7", query_record(3, 2, &[]), item_5.clone()),
        ("search 4 and 7", query_record(0, 2, &[1; 4]), item_5),
    ])
}

/// House weights count only where they are taken.
fn choices_of_weights() -> Vec<Recorded> {
    let mut cases = Vec::new();
    for count in [0, 1, 2, 3, 4, 6, 255] {
        for house in [[1, 2, 3], [1_000, 1_000, 1_000], [1, 1_001, 1]] {
            let query = query_record(0, 2, &vec![10; count]);
            let input = joined(&query, &list_record(&set_b(), &house));
            let title = format!("c {count}, m 3, house weights {house:?}");
            cases.push(preview_case(&title, input));
        }
    }
    for own in [[1_000, 0, 1_000], [0, 0, 0], [1, 1, 1_001], [65_535, 1, 1]] {
        let input = joined(&query_record(0, 2, &own), &lists_of_b());
        cases.push(preview_case(&format!("own weights {own:?}"), input));
    }
    cases
}

fn greatest_lists() -> Vec<u8> {
    let mut generator = Generator::seeded(5);
    let set = random_set(&mut generator, Shape::Correlated, 8, 1_024);
    list_record(&set, &[1_000; 8])
}

/// The input with zeros after it, or cut, so that it has this length.
fn of_length(input: &[u8], length: usize) -> Vec<u8> {
    let mut padded = input.to_vec();
    padded.resize(length, 0);
    padded
}

/// Around the number of bytes taken. The greatest records that the reads accept make one byte less.
/// A list record that ends exactly where the input is cut passes 11, whatever follows the cut.
fn inputs_at_the_cap() -> Vec<Recorded> {
    let greatest = joined(&query_record(0, 2, &[1; 255]), &greatest_lists());
    let to_the_cut = (MOST_BYTES_TAKEN - 9 - 4) as u32;
    let lists = with_length_field(&lists_of_b(), to_the_cut);
    let ends_at_the_cut = joined(&query_of_a(), &lists);
    let mut cases = Vec::new();
    for length in [MOST_BYTES_TAKEN - 1, MOST_BYTES_TAKEN, MOST_BYTES_TAKEN + 1] {
        let title = format!("greatest records, {length} bytes");
        cases.push(preview_case(&title, of_length(&greatest, length)));
        let title = format!("length up to the cut, {length} bytes");
        cases.push(preview_case(&title, of_length(&ends_at_the_cut, length)));
    }
    let over = of_length(&ends_at_the_cut, MOST_BYTES_TAKEN + 1);
    for (title, at, byte) in [("version 2", 9 + 4, 2), ("m 9", 9 + 5, 9)] {
        let title = format!("length up to the cut, {title}, one byte over");
        cases.push(preview_case(&title, with_byte(&over, at, byte)));
    }
    cases
}

/// m = 8 with n = 1,024 under all four searches.
fn sets_at_the_limit() -> Vec<Recorded> {
    let mut generator = Generator::seeded(6);
    let mut at_the_limit = |shape, rule, k, own: &[u16]| {
        let set = random_set(&mut generator, shape, 8, 1_024);
        let input = joined(&query_record(rule, k, own), &list_record(&set, &[1; 8]));
        preview_case(
            &format!("m 8, n 1,024, rule {rule}, k {k}, {shape:?}"),
            input,
        )
    };
    let weights = [1_000, 0, 3, 700, 51, 1_000, 1, 999];
    let mut cases = vec![
        at_the_limit(Shape::Uniform, 0, 20, &weights),
        at_the_limit(Shape::Correlated, 0, 1_024, &weights),
        at_the_limit(Shape::AntiCorrelated, 0, 5, &[]),
        at_the_limit(Shape::Ties, 1, 100, &[]),
        at_the_limit(Shape::AllEqual, 2, 512, &[1_000; 8]),
    ];
    let mut input = joined(&query_of_a(), &greatest_lists());
    input.truncate(20_000);
    cases.push(preview_case("m 8, n 1,024, cut in list 5", input));
    let highest = list_record(&OwnedSet::flat(8, 1_024, 65_535), &[1_000; 8]);
    let input = joined(&query_record(0, 3, &[]), &highest);
    cases.push(preview_case("the greatest overall score", input));
    cases
}

fn random_inputs() -> Vec<Recorded> {
    let mut generator = Generator::seeded(7);
    (0..60)
        .map(|round| {
            let shape = SHAPES[round % SHAPES.len()];
            let (m, n) = (generator.between(1, 8), generator.between(1, 40));
            let set = random_set(&mut generator, shape, m, n);
            let rule = generator.between(0, 2) as u8;
            let k = generator.between(1, n);
            let own = if round % 4 == 0 {
                Vec::new()
            } else {
                generator.weights(m)
            };
            let query = query_record(rule, k as u16, &own);
            let input = joined(&query, &list_record(&set, &generator.weights(m)));
            let title = format!("random, m {m}, n {n}, rule {rule}, k {k}, {shape:?}");
            preview_case(&title, input)
        })
        .collect()
}
