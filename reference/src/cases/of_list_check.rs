//! The recorded cases of the list check called by itself.

use super::generator::{random_set, Generator, Shape, SHAPES};
use super::sets::OwnedSet;
use super::worked::{self, set_b, set_c};
use super::{recorded, Case, ListCheckCase, Recorded};

/// A change of a call, with its title.
type Edit = (&'static str, fn(&mut ListCheckCase));

pub fn all() -> Vec<Recorded> {
    let mut cases = worked_sets();
    cases.extend(edited("B", &ListCheckCase::on(&set_b()), &EDITS_OF_B));
    cases.extend(edited("C", &ListCheckCase::on(&set_c()), &EDITS_OF_C));
    cases.extend(limits_of_the_sizes());
    cases.extend(pairs_of_faults());
    cases.extend(random_damage());
    cases.extend(sets_at_the_limit());
    cases
}

fn check_case(title: &str, call: ListCheckCase) -> Recorded {
    recorded(format!("list check: {title}"), Case::ListCheck(call))
}

fn worked_sets() -> Vec<Recorded> {
    worked::all()
        .iter()
        .map(|one| check_case(one.name, ListCheckCase::on(&one.set)))
        .collect()
}

fn edited(name: &str, call: &ListCheckCase, edits: &[Edit]) -> Vec<Recorded> {
    edits
        .iter()
        .map(|(title, edit)| {
            let mut changed = call.clone();
            edit(&mut changed);
            check_case(&format!("{name}, {title}"), changed)
        })
        .collect()
}

const EDITS_OF_C: [Edit; 11] = [
    ("m 0", |call| call.m = 0),
    ("m 257", |call| call.m = 257),
    ("m 65,537", |call| call.m = 65_537),
    ("m 2^32 + 1", |call| call.m = (1 << 32) + 1),
    ("m 2^63", |call| call.m = 1 << 63),
    ("n 0", |call| call.n = 0),
    ("n 65,537", |call| call.n = 65_537),
    ("n 2^32 + 1", |call| call.n = (1 << 32) + 1),
    ("n 2^63", |call| call.n = 1 << 63),
    ("m 2^63, n 2: the product wraps to 0", |call| {
        (call.m, call.n) = (1 << 63, 2)
    }),
    ("m and n 2^64 - 1: the product wraps to 1", |call| {
        (call.m, call.n) = (u64::MAX, u64::MAX)
    }),
];

/// B has m 3, n 5: list i, position p stands at 5 (i - 1) + p - 1.
const EDITS_OF_B: [Edit; 30] = [
    ("items exact", |call| call.items.truncate(15)),
    ("items one less", |call| call.items.truncate(14)),
    ("no items", |call| call.items.clear()),
    ("scores exact", |call| call.scores.truncate(15)),
    ("scores one less", |call| call.scores.truncate(14)),
    ("no scores", |call| call.scores.clear()),
    ("work exact", |call| call.work = 15),
    ("work one less", |call| call.work = 14),
    ("no work", |call| call.work = 0),
    ("item n at the first place", |call| call.items[0] = 5),
    ("item n at the last place", |call| call.items[14] = 5),
    ("item 65,535", |call| call.items[7] = 65_535),
    ("item twice at the first two places", |call| {
        call.items[1] = 0
    }),
    ("item twice at a list's ends", |call| call.items[14] = 2),
    ("score equal to the one before", |call| call.scores[1] = 30),
    ("score above the one before", |call| call.scores[1] = 31),
    ("last score equal to the one before", |call| {
        call.scores[14] = 9
    }),
    ("last score above the one before", |call| {
        call.scores[14] = 10
    }),
    ("score 0 after 0", |call| {
        (call.scores[13], call.scores[14]) = (0, 0)
    }),
    ("score 1 after 0", |call| {
        (call.scores[13], call.scores[14]) = (0, 1)
    }),
    ("scores and work one less", |call| {
        call.scores.truncate(14);
        call.work = 14;
    }),
    ("scores one less, item n", |call| {
        call.scores.truncate(14);
        call.items[0] = 5;
    }),
    ("score 65,535 at a list's start", |call| {
        call.scores[5] = 65_535
    }),
    ("7 and 9 at one place", |call| {
        (call.items[8], call.scores[8]) = (5, 26)
    }),
    ("8 and 9 at one place", |call| {
        (call.items[8], call.scores[8]) = (1, 26)
    }),
    ("9, then 7 in the same list", |call| {
        (call.scores[6], call.items[7]) = (30, 5)
    }),
    ("9, then 8 in the same list", |call| {
        (call.scores[6], call.items[7]) = (30, 1)
    }),
    ("8, then 7 in the same list", |call| {
        (call.items[6], call.items[7]) = (1, 5)
    }),
    (
        "9 at the end of a list, 7 at the start of the next",
        |call| (call.scores[4], call.items[5]) = (11, 5),
    ),
    ("7 at the end of a list, 8 in the next", |call| {
        (call.items[4], call.items[6]) = (5, 1)
    }),
];

/// m 8 and 9, n 1,024 and 1,025, in slices that would do.
fn limits_of_the_sizes() -> Vec<Recorded> {
    [(8, 1), (9, 1), (1, 1_024), (1, 1_025)]
        .map(|(m, n)| {
            let call = ListCheckCase::on(&OwnedSet::flat(m, n, 9));
            check_case(&format!("flat set, m {m}, n {n}"), call)
        })
        .into()
}

/// One fault of each number that the list check gives.
const FAULTS: [Edit; 6] = [
    ("1", |call| call.m = 9),
    ("5", |call| call.items.truncate(14)),
    ("6", |call| call.work = 14),
    ("7", |call| call.items[7] = 5),
    ("8", |call| call.items[11] = 2),
    ("9", |call| call.scores[3] = 28),
];

fn pairs_of_faults() -> Vec<Recorded> {
    let mut cases = Vec::new();
    for (at, (first, first_edit)) in FAULTS.iter().enumerate() {
        for (second, second_edit) in &FAULTS[at + 1..] {
            let mut call = ListCheckCase::on(&set_b());
            first_edit(&mut call);
            second_edit(&mut call);
            let title = format!("B, faults {first} and {second} at once");
            cases.push(check_case(&title, call));
        }
    }
    cases
}

/// Valid sets of many sizes with one to three entries overwritten.
fn random_damage() -> Vec<Recorded> {
    let mut generator = Generator::seeded(2);
    (1..=40)
        .map(|round| {
            let shape = SHAPES[round % SHAPES.len()];
            let (m, n) = (generator.between(1, 8), generator.between(1, 30));
            let mut set = random_set(&mut generator, shape, m, n);
            for _ in 0..generator.between(1, 3) {
                let at = generator.between(0, m * n - 1);
                // Up to n, so that an item of n is as likely as any other.
                set.items[at] = generator.between(0, n) as u16;
                let at = generator.between(0, m * n - 1);
                set.scores[at] = generator.score_up_to(65_535);
            }
            let title = format!("damaged at random, m {m}, n {n}, {shape:?}");
            check_case(&title, ListCheckCase::on(&set))
        })
        .collect()
}

/// m = 8 with n = 1,024: accepted, and refused at the very last place.
fn sets_at_the_limit() -> Vec<Recorded> {
    let mut generator = Generator::seeded(3);
    let set = random_set(&mut generator, Shape::Ties, 8, 1_024);
    let mut with_a_last_fault = set.clone();
    with_a_last_fault.items[8_191] = set.items[7_168];
    vec![
        check_case("m 8, n 1,024", ListCheckCase::on(&set)),
        check_case(
            "m 8, n 1,024, item twice at the last place",
            ListCheckCase::on(&with_a_last_fault),
        ),
    ]
}
