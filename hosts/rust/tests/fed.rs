//! Cases of the test that is fed one amount a call, each held beside the test of the whole list. What each must answer was worked
//! from documents 01 and 02.
mod common;

use std::hint::black_box;
use std::thread;

use capping::{test, FedTest, Refusal, Verdict, FED_CELLS};
use common::{refused, MOST_AMOUNT};

const P: Verdict = Verdict::P;
const F: Verdict = Verdict::F;

/// How many amounts a test takes.
const MOST_AMOUNTS: usize = 32;

const TOO_LARGE: u64 = MOST_AMOUNT + 1;

type Answer = Result<(u64, Verdict), Refusal>;

fn out_of_limits() -> Answer {
    Err(refused(11, 0, 0))
}

fn fed(amounts: &[u64], place: usize, need: u64) -> FedTest {
    let mut fed = FedTest::begin(place, need);
    amounts.iter().for_each(|&amount| fed.feed(amount));
    fed
}

/// Asks for an answer; no cell changes. The compiler takes what is only borrowed as unchanged unless it is hidden from it.
fn expect_asked(fed: &FedTest, answer: Answer, about: &str) {
    let before = *fed.cells();
    assert_eq!(fed.ask(), answer, "{about}");
    assert_eq!(black_box(fed).cells(), &before, "{about}");
}

/// That a list is answered so fed one by one, fed by an iterator, and as a whole.
fn expect(amounts: &[u64], place: usize, need: u64, answer: Answer) {
    let about = format!("{} amounts, place {place}, need {need}", amounts.len());
    let one_by_one = fed(amounts, place, need);
    expect_asked(&one_by_one, answer, &about);
    expect_asked(&one_by_one, answer, &about);
    let mut extended = FedTest::begin(place, need);
    extended.extend(amounts.iter().copied());
    expect_asked(&extended, answer, &about);
    assert_eq!(test(amounts, place, need), answer, "{about}");
}

/// That a list is refused at any need.
fn expect_refused(amounts: &[u64], place: usize) {
    for need in [0, 1, u64::MAX] {
        expect(amounts, place, need, out_of_limits());
    }
}

/// Asks at once, and then behind each amount.
fn expect_stages(place: usize, need: u64, stages: &[(u64, Answer)]) {
    let mut fed = FedTest::begin(place, need);
    expect_asked(&fed, out_of_limits(), "at once");
    for &(amount, answer) in stages {
        fed.feed(amount);
        expect_asked(&fed, answer, &format!("behind {amount}"));
    }
}

#[test]
fn verdicts() {
    expect(&[4, 3, 2, 1], 3, 2, Ok((2, P)));
    expect(&[4, 3, 2, 1], 3, 3, Ok((2, F)));
    expect(&[5, 5], 0, 1, Ok((0, F)));
    expect(&[5], 0, 1, Ok((0, F)));
    expect(&[5], 0, 0, Ok((0, P)));
    expect(&[5, 5, 5, 5], 2, 5, Ok((5, P)));
    expect(&[5, 5, 5, 5], 2, 6, Ok((5, F)));
}

#[test]
fn the_two_largest_others_in_any_order() {
    let orders = [
        [9, 5, 1],
        [5, 9, 1],
        [9, 1, 5],
        [1, 9, 5],
        [5, 1, 9],
        [1, 5, 9],
    ];
    for [a, b, c] in orders {
        for (place, list) in [[7, a, b, c], [a, 7, b, c], [a, b, 7, c], [a, b, c, 7]]
            .iter()
            .enumerate()
        {
            expect(list, place, 1, Ok((1, P)));
            expect(list, place, 2, Ok((1, F)));
        }
    }
    expect(&[7, 9, 5], 0, 1, Ok((0, F)));
    expect(&[7, 5, 9], 0, 1, Ok((0, F)));
}

#[test]
fn the_own_amount_is_the_largest() {
    expect(&[9, 4, 3, 2], 0, 2, Ok((2, P)));
    expect(&[4, 9, 3, 2], 1, 2, Ok((2, P)));
    expect(&[4, 3, 2, 9], 3, 3, Ok((2, F)));
}

#[test]
fn amounts_and_their_number_at_the_limits() {
    let left = 29 * MOST_AMOUNT;
    expect(&[MOST_AMOUNT; MOST_AMOUNTS], 31, left, Ok((left, P)));
    expect(&[MOST_AMOUNT; MOST_AMOUNTS], 0, left + 1, Ok((left, F)));
    expect(&[MOST_AMOUNT; 4], 1, u64::MAX, Ok((MOST_AMOUNT, F)));
    expect(&[1, MOST_AMOUNT], 1, 0, Ok((0, P)));
}

#[test]
fn too_many_amounts() {
    for count in [33, 257, 256 + MOST_AMOUNTS, 1_000, 65_537] {
        expect_refused(&vec![1; count], 0);
        expect_refused(&vec![0; count], 0);
        expect_refused(&vec![1; count], count - 1);
        expect_refused(&vec![1; count], usize::MAX);
    }
}

#[test]
fn an_amount_that_is_too_large() {
    expect_refused(&[1, TOO_LARGE], 0);
    expect_refused(&[1, TOO_LARGE], 1);
    for good in [1, 31, 300] {
        let early = [vec![TOO_LARGE], vec![1; good]].concat();
        expect_refused(&early, 0);
        expect_refused(&early, 1);
    }
}

#[test]
fn amounts_whose_sums_would_wrap() {
    for count in [1, 2, 3, 4, 5, MOST_AMOUNTS, 33, 257] {
        expect_refused(&vec![u64::MAX; count], 0);
        expect_refused(&vec![1 << 63; count], count - 1);
    }
    expect_refused(&[0, 1 << 63, 1 << 63], 0);
}

#[test]
fn no_such_place() {
    expect_refused(&[], 0);
    expect_refused(&[4, 3], 3);
    for place in [4, 31, 32, 256, 1 << 32, 1 << 63, usize::MAX] {
        expect_refused(&[4, 3, 2, 1], place);
    }
    expect_refused(&[1; 31], 31);
}

#[test]
fn asked_in_between() {
    let refused = out_of_limits();
    let last_of_four = [
        (4, refused),
        (3, refused),
        (2, refused),
        (1, Ok((2, P))),
        (5, Ok((5, P))),
        (TOO_LARGE, refused),
        (1, refused),
    ];
    expect_stages(3, 2, &last_of_four);
    let second_of_six = [
        (6, refused),
        (2, Ok((0, F))),
        (5, Ok((0, F))),
        (3, Ok((3, F))),
        (1, Ok((4, P))),
        (9, Ok((9, P))),
    ];
    expect_stages(1, 4, &second_of_six);
}

/// Amounts of 1: all but the own and two others are left, until there are too many.
#[test]
fn asked_behind_each_of_many() {
    let mut fed = FedTest::begin(0, 29);
    for count in 1..=300 {
        fed.feed(1);
        let answer = match count {
            1..=31 => Ok((u64::saturating_sub(count, 3), F)),
            32 => Ok((29, P)),
            _ => out_of_limits(),
        };
        expect_asked(&fed, answer, &format!("{count} amounts of 1"));
    }
}

#[test]
fn a_test_begun_anew() {
    let mut fed = fed(&[1; 33], 0, 0);
    expect_asked(&fed, out_of_limits(), "33 amounts");
    fed = FedTest::begin(3, 2);
    expect_asked(&fed, out_of_limits(), "begun anew");
    fed.extend([4, 3, 2, 1]);
    expect_asked(&fed, Ok((2, P)), "fed anew");
}

#[test]
fn fed_by_any_iterator() {
    let mut fed = FedTest::begin(3, 2);
    fed.extend(vec![4, 3]);
    fed.extend([]);
    fed.extend(
        "2,1"
            .split(',')
            .map(|word| word.parse::<u64>().expect("a number")),
    );
    expect_asked(&fed, Ok((2, P)), "4, 3, 2, 1");
    fed.extend(0..1_000_000);
    expect_asked(&fed, out_of_limits(), "a million more");
}

#[test]
fn a_clone_goes_its_own_way() {
    let first = fed(&[4, 3, 2, 1], 3, 2);
    let mut second = first.clone();
    second.feed(TOO_LARGE);
    assert_eq!(second.ask(), out_of_limits());
    assert_eq!(first.ask(), Ok((2, P)));
    assert!(format!("{first:?}").starts_with("FedTest"));
}

#[test]
fn stored_cells_go_on() {
    let mut stored = FedTest::from_cells(*fed(&[4, 3, 2], 3, 2).cells());
    assert_eq!(stored.ask(), out_of_limits());
    stored.feed(1);
    assert_eq!(stored.ask(), Ok((2, P)));
}

/// It is open what cells answer that no test was begun in, but it is an answer.
fn expect_any_cells(cells: [u64; FED_CELLS]) {
    let mut fed = FedTest::from_cells(cells);
    for amount in [0, 1, MOST_AMOUNT, TOO_LARGE, u64::MAX, u64::MAX] {
        match fed.ask() {
            Ok((_, verdict)) => assert!(verdict == P || verdict == F, "{cells:?}"),
            refusal => assert_eq!(refusal, out_of_limits(), "{cells:?}"),
        }
        fed.feed(amount);
    }
}

#[test]
fn any_cells() {
    let edges = [0, 1, MOST_AMOUNTS as u64, MOST_AMOUNT, u64::MAX];
    for way in 0..edges.len().pow(FED_CELLS as u32) {
        let mut rest = way;
        expect_any_cells([0; FED_CELLS].map(|_: u64| {
            let edge = edges[rest % edges.len()];
            rest /= edges.len();
            edge
        }));
    }
    let mut random = 1;
    for _ in 0..1_000 {
        expect_any_cells(
            [0; FED_CELLS]
                .map(|_: u64| next_random(&mut random) >> (next_random(&mut random) % 64)),
        );
    }
}

/// The next of a row of numbers that look random (Marsaglia's xorshift, with one of his triples of shifts).
fn next_random(last: &mut u64) -> u64 {
    *last ^= *last << 13;
    *last ^= *last >> 7;
    *last ^= *last << 17;
    *last
}

#[test]
fn threads_with_a_test_each() {
    let shared = fed(&[5, 5], 0, 1);
    thread::scope(|scope| {
        for _ in 0..4 {
            scope.spawn(|| {
                for _ in 0..100 {
                    assert_eq!(fed(&[4, 3, 2, 1], 3, 2).ask(), Ok((2, P)));
                    assert_eq!(shared.ask(), Ok((0, F)));
                }
            });
        }
    });
}
