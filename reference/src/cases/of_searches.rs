//! The recorded cases of the four searches.

use super::generator::{random_set, Generator, Shape, SHAPES};
use super::sets::{weight_bytes, OwnedSet};
use super::worked::{self, set_b, set_c};
use super::{recorded, Case, Recorded, SearchCase};
use crate::searches::SEARCHES;

/// A change of a call, with its title.
type Edit = (&'static str, fn(&mut SearchCase));

pub fn all() -> Vec<Recorded> {
    let mut cases = Vec::new();
    for which in 0..SEARCHES.len() as u8 {
        cases.extend(worked_sets(which));
        cases.extend(edited("A", &call_a(which), &EDITS_OF_A));
        cases.extend(edited("C", &call_c(which), &EDITS_OF_C));
        cases.extend(limits_of_the_sizes(which));
        cases.extend(pairs_of_faults(which));
        cases.extend(edited("A", &call_a(which), &FAULTS_AT_PLACES));
        cases.extend(edited("A", &call_a(which), &SLICES_BEFORE_LATER_TESTS));
        cases.extend(sets_at_the_limit(which));
    }
    cases.extend(random_sets());
    cases
}

fn search_case(title: &str, call: SearchCase) -> Recorded {
    let (name, _) = SEARCHES[usize::from(call.which)];
    recorded(format!("{name}: {title}"), Case::Search(call))
}

/// B's lists with k = 2: m 3, n 5, 15 entries.
fn call_a(which: u8) -> SearchCase {
    SearchCase::on(which, &set_b(), 0, 2, &[1, 1, 1])
}

/// m = n = k = 1, so that a greater number cut to its low bits would be answered.
fn call_c(which: u8) -> SearchCase {
    SearchCase::on(which, &set_c(), 0, 1, &[3])
}

fn worked_sets(which: u8) -> Vec<Recorded> {
    worked::all()
        .iter()
        .map(|one| {
            let call = SearchCase::on(which, &one.set, one.rule, one.k, &one.weights());
            search_case(one.name, call)
        })
        .collect()
}

fn edited(name: &str, call: &SearchCase, edits: &[Edit]) -> Vec<Recorded> {
    edits
        .iter()
        .map(|(title, edit)| {
            let mut changed = call.clone();
            edit(&mut changed);
            search_case(&format!("{name}, {title}"), changed)
        })
        .collect()
}

const EDITS_OF_C: [Edit; 21] = [
    ("m 0", |call| call.m = 0),
    ("m 257", |call| call.m = 257),
    ("m 65,537", |call| call.m = 65_537),
    ("m 2^32 + 1", |call| call.m = (1 << 32) + 1),
    ("m 2^63", |call| call.m = 1 << 63),
    ("m 2^64 - 1", |call| call.m = u64::MAX),
    ("n 0", |call| call.n = 0),
    ("n 1,281", |call| call.n = 1_281),
    ("n 65,537", |call| call.n = 65_537),
    ("n 2^32 + 1", |call| call.n = (1 << 32) + 1),
    ("n 2^63", |call| call.n = 1 << 63),
    ("n 2^64 - 1", |call| call.n = u64::MAX),
    ("m 2^63, n 2: the product wraps to 0", |call| {
        (call.m, call.n) = (1 << 63, 2)
    }),
    ("m and n 2^32: the product wraps to 0", |call| {
        (call.m, call.n) = (1 << 32, 1 << 32)
    }),
    ("m and n 2^64 - 1: the product wraps to 1", |call| {
        (call.m, call.n) = (u64::MAX, u64::MAX)
    }),
    ("k 257", |call| call.k = 257),
    ("k 65,537", |call| call.k = 65_537),
    ("k 2^32 + 1", |call| call.k = (1 << 32) + 1),
    ("k 2^63", |call| call.k = 1 << 63),
    ("k 2^64 - 1", |call| call.k = u64::MAX),
    ("rule 3", |call| call.rule = 3),
];

const EDITS_OF_A: [Edit; 58] = [
    ("as it is", |_| ()),
    ("k 0", |call| call.k = 0),
    ("k 1", |call| call.k = 1),
    ("k n in slices for it", |call| with_k(call, 5)),
    ("k n + 1 in slices for it", |call| with_k(call, 6)),
    ("rule 1", |call| call.rule = 1),
    ("rule 2", |call| call.rule = 2),
    ("rule 3", |call| call.rule = 3),
    ("rule 255", |call| call.rule = 255),
    ("first weight 1,000", |call| {
        with_weights(call, &[1_000, 1, 1])
    }),
    ("first weight 1,001", |call| {
        with_weights(call, &[1_001, 1, 1])
    }),
    ("middle weight 1,000", |call| {
        with_weights(call, &[1, 1_000, 1])
    }),
    ("middle weight 1,001", |call| {
        with_weights(call, &[1, 1_001, 1])
    }),
    ("last weight 1,000", |call| {
        with_weights(call, &[1, 1, 1_000])
    }),
    ("last weight 1,001", |call| {
        with_weights(call, &[1, 1, 1_001])
    }),
    // Low byte first it would be 1.
    ("weight 256", |call| with_weights(call, &[256, 1, 1])),
    ("weight 65,535", |call| with_weights(call, &[1, 65_535, 1])),
    ("first weight 0", |call| with_weights(call, &[0, 1, 1])),
    ("last weight 0, rule 1", |call| {
        call.rule = 1;
        with_weights(call, &[1, 1, 0]);
    }),
    ("all weights 0, rule 1", |call| {
        call.rule = 1;
        with_weights(call, &[0, 0, 0]);
    }),
    ("middle weight only, rule 2", |call| {
        call.rule = 2;
        with_weights(call, &[0, 7, 0]);
    }),
    ("no weight bytes", |call| call.weights.clear()),
    ("one weight byte", |call| call.weights.truncate(1)),
    ("weight bytes 2m - 2", |call| call.weights.truncate(4)),
    ("weight bytes 2m - 1", |call| call.weights.truncate(5)),
    ("weight bytes 2m + 1", |call| call.weights.push(0)),
    ("weight bytes 2m + 2", |call| call.weights.extend([0, 1])),
    ("all slices exact", |call| {
        *call = call.clone().in_exact_slices()
    }),
    ("items exact", |call| call.items.truncate(15)),
    ("items one less", |call| call.items.truncate(14)),
    ("no items", |call| call.items.clear()),
    ("scores exact", |call| call.scores.truncate(15)),
    ("scores one less", |call| call.scores.truncate(14)),
    ("no scores", |call| call.scores.clear()),
    ("picks exact", |call| call.picks = 2),
    ("picks one less", |call| call.picks = 1),
    ("no picks", |call| call.picks = 0),
    ("lows exact", |call| call.lows = 2),
    ("lows one less", |call| call.lows = 1),
    ("no lows", |call| call.lows = 0),
    ("highs exact", |call| call.highs = 2),
    ("highs one less", |call| call.highs = 1),
    ("no highs", |call| call.highs = 0),
    ("tally exact", |call| call.tally = 15),
    ("tally one less", |call| call.tally = 14),
    ("no tally", |call| call.tally = 0),
    ("work exact", |call| call.work = 15),
    ("work one less", |call| call.work = 14),
    ("no work", |call| call.work = 0),
    ("score equal to the one before", |call| {
        with_score(call, 1, 2, 30)
    }),
    ("score above the one before", |call| {
        with_score(call, 1, 2, 31)
    }),
    ("last score equal to the one before", |call| {
        with_score(call, 3, 5, 9)
    }),
    ("last score above the one before", |call| {
        with_score(call, 3, 5, 10)
    }),
    ("score 65,535 at a list's start", |call| {
        with_score(call, 2, 1, 65_535)
    }),
    ("score 0 after 0", |call| with_last_scores(call, 0, 0)),
    ("score 1 after 0", |call| with_last_scores(call, 0, 1)),
    ("item n", |call| with_item(call, 2, 3, 5)),
    ("item 65,535", |call| with_item(call, 2, 3, 65_535)),
];

/// 7, 8 and 9 against each other, at one position and at several.
const FAULTS_AT_PLACES: [Edit; 14] = [
    ("item n at the first place", |call| with_item(call, 1, 1, 5)),
    ("item n at the last place", |call| with_item(call, 3, 5, 5)),
    ("item twice at the first two places", |call| {
        with_item(call, 1, 2, 0)
    }),
    ("item twice at a list's ends", |call| {
        with_item(call, 3, 5, 2)
    }),
    ("item of the list before, and twice here", |call| {
        with_item(call, 2, 5, 4)
    }),
    ("7 and 9 at one place", |call| {
        with_item(call, 2, 4, 5);
        with_score(call, 2, 4, 26);
    }),
    ("8 and 9 at one place", |call| {
        with_item(call, 2, 4, 1);
        with_score(call, 2, 4, 26);
    }),
    ("9, then 7 in the same list", |call| {
        with_score(call, 2, 2, 30);
        with_item(call, 2, 3, 5);
    }),
    ("9, then 8 in the same list", |call| {
        with_score(call, 2, 2, 30);
        with_item(call, 2, 3, 1);
    }),
    ("8, then 7 in the same list", |call| {
        with_item(call, 2, 2, 1);
        with_item(call, 2, 3, 5);
    }),
    ("7, then 9 in the same list", |call| {
        with_item(call, 1, 3, 9);
        with_score(call, 1, 4, 28);
    }),
    (
        "9 at the end of a list, 7 at the start of the next",
        |call| {
            with_score(call, 1, 5, 11);
            with_item(call, 2, 1, 5);
        },
    ),
    ("7 at the end of a list, 8 and 9 in the next", |call| {
        with_item(call, 1, 5, 5);
        with_item(call, 2, 2, 1);
        with_score(call, 2, 3, 27);
    }),
    ("8 in the last list, 9 in the first", |call| {
        with_item(call, 3, 2, 2);
        with_score(call, 1, 5, 11);
    }),
];

fn with_k(call: &mut SearchCase, k: u16) {
    call.k = u64::from(k);
    (call.picks, call.lows, call.highs) = (k, k, k);
}

fn with_weights(call: &mut SearchCase, weights: &[u16]) {
    call.weights = weight_bytes(weights);
}

fn place(call: &SearchCase, list: usize, position: usize) -> usize {
    (list - 1) * call.n as usize + position - 1
}

fn with_item(call: &mut SearchCase, list: usize, position: usize, item: u16) {
    let at = place(call, list, position);
    call.items[at] = item;
}

fn with_score(call: &mut SearchCase, list: usize, position: usize, score: u16) {
    let at = place(call, list, position);
    call.scores[at] = score;
}

/// The last two scores of list 1.
fn with_last_scores(call: &mut SearchCase, before: u16, last: u16) {
    with_score(call, 1, 4, before);
    with_score(call, 1, 5, last);
}

/// m 8 and 9, n 1,024 and 1,025, in slices that would do.
fn limits_of_the_sizes(which: u8) -> Vec<Recorded> {
    [(8, 1), (9, 1), (1, 1_024), (1, 1_025)]
        .map(|(m, n)| {
            let set = OwnedSet::flat(m, n, 9);
            let call = SearchCase::on(which, &set, 0, 1, &vec![1; m]);
            search_case(&format!("flat set, m {m}, n {n}"), call)
        })
        .into()
}

/// One fault of each number from 1 to 9, none in the way of another.
const FAULTS: [Edit; 9] = [
    ("1 by m", |call| call.m = 9),
    ("2 by 0", |call| call.k = 0),
    ("3", |call| call.rule = 3),
    ("4 by size", |call| {
        call.weights[4..].copy_from_slice(&[3, 233])
    }),
    ("5 by scores", |call| call.scores.truncate(14)),
    ("6 by lows", |call| call.lows = 1),
    ("7", |call| call.items[7] = 5),
    ("8", |call| call.items[11] = 2),
    ("9", |call| call.scores[3] = 28),
];

/// The same numbers, each by another fault or at another place.
const OTHER_FAULTS: [Edit; 9] = [
    ("1 by n", |call| call.n = 0),
    ("2 by n + 1", |call| call.k = 6),
    ("3 by 255", |call| call.rule = 255),
    ("4 by length", |call| call.weights.push(0)),
    ("5 by items", |call| call.items.truncate(14)),
    ("6 by work", |call| call.work = 14),
    ("7 at the start", |call| call.items[0] = 5),
    ("8 at the start", |call| call.items[1] = 0),
    ("9 at the start", |call| call.scores[1] = 31),
];

/// Every two faults at once: the answer shows which test comes first.
fn pairs_of_faults(which: u8) -> Vec<Recorded> {
    let mut cases = Vec::new();
    for (at, (first, first_edit)) in FAULTS.iter().enumerate() {
        let later = FAULTS[at + 1..].iter().chain(&OTHER_FAULTS[at + 1..]);
        for (second, second_edit) in later {
            let mut call = call_a(which);
            first_edit(&mut call);
            second_edit(&mut call);
            let title = format!("A, faults {first} and {second} at once");
            cases.push(search_case(&title, call));
        }
    }
    cases
}

/// Each slice of 5 and 6 by itself, with a fault of the number after it.
const SLICES_BEFORE_LATER_TESTS: [Edit; 7] = [
    ("items and picks one less", |call| {
        call.items.truncate(14);
        call.picks = 1;
    }),
    ("items and tally one less", |call| {
        call.items.truncate(14);
        call.tally = 14;
    }),
    ("picks one less, item n", |call| {
        call.picks = 1;
        with_item(call, 1, 1, 5);
    }),
    ("lows one less, item n", |call| {
        call.lows = 1;
        with_item(call, 1, 1, 5);
    }),
    ("highs one less, item n", |call| {
        call.highs = 1;
        with_item(call, 1, 1, 5);
    }),
    ("tally one less, item n", |call| {
        call.tally = 14;
        with_item(call, 1, 1, 5);
    }),
    ("work one less, item n", |call| {
        call.work = 14;
        with_item(call, 1, 1, 5);
    }),
];

/// m = 8 with n = 1,024. The last makes TA and BPA read everything: 65,536 accesses, and has no
/// place to spare in any slice.
fn sets_at_the_limit(which: u8) -> Vec<Recorded> {
    let mut generator = Generator::seeded(8_192);
    let weights = generator.weights(8);
    let mut on_a_set = |shape, rule, k, weights: &[u16]| {
        let set = random_set(&mut generator, shape, 8, 1_024);
        SearchCase::on(which, &set, rule, k, weights)
    };
    let uniform = on_a_set(Shape::Uniform, 0, 20, &weights);
    let against = on_a_set(Shape::AntiCorrelated, 1, 10, &[1_000; 8]);
    let same = on_a_set(Shape::SameLists, 0, 1_024, &[1_000; 8]).in_exact_slices();
    vec![
        search_case("m 8, n 1,024, k 20, Uniform", uniform),
        search_case("m 8, n 1,024, k 10, AntiCorrelated", against),
        search_case("m 8, n 1,024, k 1,024, SameLists, exact slices", same),
    ]
}

/// Word edges among the lengths, since visited positions may be kept in words of 64 bits.
const RANDOM_LENGTHS: [usize; 16] = [1, 2, 3, 4, 5, 7, 9, 12, 16, 24, 33, 48, 63, 64, 65, 129];

/// Every shape with every length, each under all four searches.
fn random_sets() -> Vec<Recorded> {
    let mut generator = Generator::seeded(1);
    let mut cases = Vec::new();
    for n in RANDOM_LENGTHS {
        for shape in SHAPES {
            let m = generator.between(1, if n > 60 { 4 } else { 8 });
            let set = random_set(&mut generator, shape, m, n);
            cases.extend(random_queries(&mut generator, shape, &set));
        }
    }
    cases
}

fn random_queries(generator: &mut Generator, shape: Shape, set: &OwnedSet) -> Vec<Recorded> {
    let (m, n) = (set.m, set.n);
    let rule = generator.between(0, 2) as u8;
    let k = match generator.between(0, 3) {
        0 => 1,
        1 => n,
        _ => generator.between(1, n),
    };
    let weights = match generator.between(0, 3) {
        0 => vec![1; m],
        _ => generator.weights(m),
    };
    let title = format!("random, m {m}, n {n}, rule {rule}, k {k}, {shape:?}");
    (0..SEARCHES.len() as u8)
        .map(|which| search_case(&title, SearchCase::on(which, set, rule, k, &weights)))
        .collect()
}
