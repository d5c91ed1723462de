//! Refusals 1 to 9: when each is given, in which order, and what the slices hold afterwards.

use rutlark_reference::cases::sets::{weight_bytes, OwnedSet};
use rutlark_reference::cases::worked::{set_b, set_c};
use rutlark_reference::cases::{ListCheckCase, SearchCase};
use rutlark_reference::searches::Answer;

/// B's lists with k = 2, under each search.
fn calls_of_a() -> [SearchCase; 4] {
    [0, 1, 2, 3].map(|which| SearchCase::on(which, &set_b(), 0, 2, &[1, 1, 1]))
}

fn answer(number: u32, list: u32, position: u32) -> Answer {
    Answer {
        number,
        list,
        position,
        ..Answer::default()
    }
}

/// The answer, and that nothing but the work slice of 7 to 9 was written.
fn assert_refused(call: &SearchCase, number: u32, list: u32, position: u32) {
    let mut expected = call.as_lent();
    expected.answer = answer(number, list, position);
    if number >= 7 {
        expected.work[..(call.m * call.n) as usize].fill(0);
    }
    assert_eq!(call.run(), expected);
}

fn assert_accepted(call: &SearchCase) {
    let ran = call.run();
    assert_eq!(
        (ran.answer.number, ran.answer.list, ran.answer.position),
        (0, 0, 0)
    );
    assert!(ran.answer.rows > 0);
    assert_ne!(ran.tally, call.as_lent().tally);
}

/// The edit under every search, with the refusal it must meet; 0 is accepted.
fn assert_each(number: u32, edit: impl Fn(&mut SearchCase)) {
    for mut call in calls_of_a() {
        edit(&mut call);
        if number == 0 {
            assert_accepted(&call);
        } else {
            assert_refused(&call, number, 0, 0);
        }
    }
}

#[test]
fn sizes() {
    for (m, n, number) in [
        (8, 1, 0),
        (9, 1, 1),
        (1, 1_024, 0),
        (1, 1_025, 1),
        (0, 1, 1),
        (1, 0, 1),
    ] {
        let set = OwnedSet::flat(m, n, 5);
        for which in 0..4 {
            let call = SearchCase::on(which, &set, 0, 1, &vec![1; m]);
            if number == 0 {
                assert_accepted(&call);
            } else {
                assert_refused(&call, number, 0, 0);
            }
        }
        assert_eq!(ListCheckCase::on(&set).run().checked.number, number);
    }
}

#[test]
fn no_count_is_cut_before_its_test() {
    for which in 0..4 {
        let call = SearchCase::on(which, &set_c(), 0, 1, &[3]);
        for great in [1_281, 65_537, (1 << 32) + 1, 1 << 63, u64::MAX] {
            let [mut lists, mut items, mut both, mut places] = [(); 4].map(|()| call.clone());
            (lists.m, items.n, places.k) = (great, great, great);
            (both.m, both.n) = (great, great);
            assert_refused(&lists, 1, 0, 0);
            assert_refused(&items, 1, 0, 0);
            assert_refused(&both, 1, 0, 0);
            assert_refused(&places, 2, 0, 0);
        }
    }
}

#[test]
fn k_from_1_to_n() {
    let with_k = |k: u16| {
        move |call: &mut SearchCase| {
            (call.k, call.picks, call.lows, call.highs) = (u64::from(k), k, k, k)
        }
    };
    assert_each(2, with_k(0));
    assert_each(0, with_k(1));
    assert_each(0, with_k(5));
    assert_each(2, with_k(6));
}

#[test]
fn rules() {
    for (rule, number) in [(0, 0), (1, 0), (2, 0), (3, 3), (255, 3)] {
        assert_each(number, |call| call.rule = rule);
    }
}

#[test]
fn weights() {
    for at in 0..3 {
        for (weight, number) in [(0, 0), (1_000, 0), (1_001, 4), (65_535, 4)] {
            let mut weights = [1; 3];
            weights[at] = weight;
            assert_each(number, |call| call.weights = weight_bytes(&weights));
        }
    }
    for length in [0, 1, 2, 4, 5, 7, 8, 12] {
        assert_each(4, |call| call.weights.resize(length, 0));
    }
}

#[test]
fn list_slices_exact_and_one_less() {
    assert_each(0, |call| call.items.truncate(15));
    assert_each(0, |call| call.scores.truncate(15));
    for length in [0, 14] {
        assert_each(5, |call| call.items.truncate(length));
        assert_each(5, |call| call.scores.truncate(length));
    }
}

#[test]
fn written_slices_exact_and_one_less() {
    assert_each(0, |call| *call = call.clone().in_exact_slices());
    for (length, number) in [(2, 0), (1, 6), (0, 6)] {
        assert_each(number, |call| call.picks = length);
        assert_each(number, |call| call.lows = length);
        assert_each(number, |call| call.highs = length);
    }
    for (length, number) in [(15, 0), (14, 6), (0, 6)] {
        assert_each(number, |call| call.tally = length);
        assert_each(number, |call| call.work = length);
    }
}

/// An item and a score at a place of B, with what the walk must say.
fn assert_fault(places: &[(usize, usize, u16, u16)], number: u32, list: u32, position: u32) {
    let mut set = set_b();
    for &(list, position, item, score) in places {
        let at = set.place(list, position);
        (set.items[at], set.scores[at]) = (item, score);
    }
    for which in 0..4 {
        let call = SearchCase::on(which, &set, 0, 2, &[1, 1, 1]);
        if number == 0 {
            assert_accepted(&call);
        } else {
            assert_refused(&call, number, list, position);
        }
    }
    let checked = ListCheckCase::on(&set).run().checked;
    assert_eq!(
        (checked.number, checked.list, checked.position),
        (number, list, position)
    );
}

#[test]
fn items_of_n_or_more() {
    assert_fault(&[(1, 1, 5, 30)], 7, 1, 1);
    assert_fault(&[(2, 3, 65_535, 25)], 7, 2, 3);
    assert_fault(&[(3, 5, 5, 3)], 7, 3, 5);
}

#[test]
fn items_twice_in_a_list() {
    assert_fault(&[(1, 2, 0, 28)], 8, 1, 2);
    assert_fault(&[(3, 5, 2, 3)], 8, 3, 5);
}

#[test]
fn scores_above_the_one_before() {
    assert_fault(&[(1, 2, 1, 30)], 0, 0, 0);
    assert_fault(&[(1, 2, 1, 31)], 9, 1, 2);
    assert_fault(&[(3, 5, 4, 9)], 0, 0, 0);
    assert_fault(&[(3, 5, 4, 10)], 9, 3, 5);
    // The last score of list 1 is not before the first of list 2.
    assert_fault(&[(2, 1, 1, 65_535)], 0, 0, 0);
}

#[test]
fn the_first_fault_in_reading_order_is_the_answer() {
    assert_fault(&[(2, 4, 5, 26)], 7, 2, 4);
    assert_fault(&[(2, 4, 1, 26)], 8, 2, 4);
    assert_fault(&[(2, 4, 4, 26)], 9, 2, 4);
    assert_fault(&[(2, 2, 2, 30), (2, 3, 5, 25)], 9, 2, 2);
    assert_fault(&[(2, 2, 2, 30), (2, 3, 1, 25)], 9, 2, 2);
    assert_fault(&[(2, 2, 1, 26), (2, 3, 5, 25)], 8, 2, 2);
    assert_fault(&[(1, 5, 4, 11), (2, 1, 5, 29)], 9, 1, 5);
    assert_fault(&[(1, 5, 5, 5), (2, 2, 1, 26)], 7, 1, 5);
}

/// One fault of each number from 1 to 9.
const FAULTS: [fn(&mut SearchCase); 9] = [
    |call| call.n = 1_025,
    |call| call.k = 0,
    |call| call.rule = 3,
    |call| call.weights.push(0),
    |call| call.items.truncate(14),
    |call| call.tally = 14,
    |call| call.items[7] = 5,
    |call| call.items[11] = 2,
    |call| call.scores[3] = 28,
];

#[test]
fn of_all_later_faults_the_first_test_answers() {
    for first in 0..6 {
        assert_each(first as u32 + 1, |call| {
            FAULTS[first..].iter().for_each(|fault| fault(call));
        });
    }
}

#[test]
fn of_two_faults_the_earlier_test_answers() {
    for (at, first) in FAULTS[..6].iter().enumerate() {
        for second in &FAULTS[at + 1..] {
            assert_each(at as u32 + 1, |call| {
                first(call);
                second(call);
            });
        }
    }
}

#[test]
fn the_list_check_by_itself_tests_1_5_6_and_then_walks() {
    let mut call = ListCheckCase::on(&set_b());
    call.items[7] = 5;
    assert_check(&call, (7, 2, 3));
    call.work = 14;
    assert_check(&call, (6, 0, 0));
    call.scores.truncate(14);
    assert_check(&call, (5, 0, 0));
    call.m = 9;
    assert_check(&call, (1, 0, 0));
}

/// The answer with the work slice: as lent for 1, 5 and 6, zeros for the others.
fn assert_check(call: &ListCheckCase, expected: (u32, u32, u32)) {
    let ran = call.run();
    let checked = ran.checked;
    assert_eq!((checked.number, checked.list, checked.position), expected);
    let mut work: Vec<u16> = (0..call.work).map(|at| 50_000 + at % 1_000).collect();
    if checked.number >= 7 {
        work[..(call.m * call.n) as usize].fill(0);
    }
    assert_eq!(ran.work, work);
}

#[test]
fn the_list_check_leaves_its_work_slice_as_a_search_does() {
    let [call, ..] = calls_of_a();
    let alone = ListCheckCase::on(&set_b());
    assert_eq!(alone.run().work, call.run().work);
    let exact = ListCheckCase { work: 15, ..alone };
    assert_eq!(exact.run().work, call.run().work[..15]);
}
