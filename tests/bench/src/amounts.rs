//! The test of one supplier, which is given a list or fed one amount a call: the lists, made up from a seed, an
//! implementation's two calls, whether they answer as the model does, and their rounds. A call takes hardly longer than
//! it takes to read the clock, so that what is timed is a batch: one call on each list.

use std::hint::black_box;

pub use capping_model::case::Lone;
use capping_model::fed::test_fed;
use capping_model::generator::random::Random;
use capping_model::pivotal::{self, LARGEST_AMOUNT};
use capping_model::rules::SUPPLIERS;

use crate::engine::Engine;
use crate::study::SEED;
use crate::timing::{time, Times};

/// Amounts of a list: the most that there may be.
pub const AMOUNTS: usize = SUPPLIERS;

/// So many lists that no branch is learnt from one, and so few that all are in the nearest cache. Each place is tested
/// in two of them.
pub const LISTS: usize = 64;

/// More than studies have, since one takes microseconds.
const ROUNDS: usize = 4_000;

/// What a test tells: what is left and whether the supplier passes, or nothing where it is refused.
pub type Told = Option<(u64, bool)>;

/// Makes a test.
pub type Test = fn(&Lone) -> Told;

/// An implementation's two calls. Those in Rust may be compiled into their callers, so that what is fed stays in
/// registers from amount to amount; the engine that is proved is called for each amount, and its cells are in memory.
pub struct Tests {
    /// Tests a list.
    pub listed: Test,
    /// Feeds a test the list, one amount a call, and asks it.
    pub fed: Test,
}

/// How a test has its amounts.
#[derive(Clone, Copy)]
pub enum Given {
    Listed,
    Fed,
}

/// How long the calls took, by engine.
pub struct Measured(Vec<[Times; Given::ALL.len()]>);

impl Given {
    pub const ALL: [Given; 2] = [Given::Listed, Given::Fed];

    /// The call's name, which is the word of its cases too.
    pub fn name(self) -> &'static str {
        match self {
            Given::Listed => "test",
            Given::Fed => "fed",
        }
    }
}

impl Tests {
    /// Those of the engine that is proved.
    pub const OURS: Tests = Tests {
        listed: |lone| told_by_ours(capping::test(&lone.amounts, lone.place as usize, lone.need)),
        fed: |lone| {
            let mut fed = capping::FedTest::begin(lone.place as usize, lone.need);
            lone.amounts.iter().for_each(|&amount| fed.feed(amount));
            told_by_ours(fed.ask())
        },
    };

    /// Those of the model. What it tells of a list is what every answer is compared with, its own when it is fed too.
    pub const MODEL: Tests = Tests {
        listed: |lone| told_by_model(pivotal::test(&lone.amounts, lone.place, lone.need)),
        fed: |lone| told_by_model(test_fed(&lone.amounts, lone.place, lone.need)),
    };

    fn call(&self, given: Given) -> Test {
        match given {
            Given::Listed => self.listed,
            Given::Fed => self.fed,
        }
    }
}

impl Measured {
    pub fn times(&self, engine: usize, given: Given) -> &Times {
        &self.0[engine][given as usize]
    }
}

fn told_by_ours(tested: Result<(u64, capping::Verdict), capping::Refusal>) -> Told {
    tested.ok().map(|(left, verdict)| (left, verdict == capping::Verdict::P))
}

fn told_by_model(tested: Result<pivotal::Tested, capping_model::refusal::Refusal>) -> Told {
    tested.ok().map(|tested| (tested.left, tested.verdict == pivotal::Verdict::P))
}

/// All lists.
pub fn make_all() -> Vec<Lone> {
    (0..LISTS as u64).map(make).collect()
}

/// A list by its number. The need is what is left, so that the supplier passes, or one more, so that it fails.
fn make(number: u64) -> Lone {
    let random = &mut Random::of(SEED, number);
    let amounts: Vec<u64> = (0..AMOUNTS).map(|_| random.between(0, LARGEST_AMOUNT)).collect();
    let place = number % AMOUNTS as u64;
    let left = pivotal::test(&amounts, place, 0).expect("the list is within the limits").left;
    Lone { need: random.between(left, left + 1), place, amounts }
}

/// That an engine tells of a list what the model does, whether it has the list at once or is fed.
pub fn compare(engine: &Engine, lone: &Lone) -> Result<(), String> {
    let told = (Tests::MODEL.listed)(lone);
    match Given::ALL.into_iter().find(|&given| engine.tests.call(given)(lone) != told) {
        Some(given) => {
            Err(format!("{} has another answer than the model to {} {lone}", engine.name, given.name()))
        }
        None => Ok(()),
    }
}

/// Times both calls of all engines, which take turns, so that a load of the machine hits all alike.
pub fn measure(engines: &[Engine], lists: &[Lone]) -> Measured {
    let mut measured = Measured(vec![Default::default(); engines.len()]);
    for round in 0..ROUNDS {
        let turns = engines.iter().zip(&mut measured.0).filter(|(engine, _)| engine.has_turn(round));
        for (engine, times) in turns {
            for given in Given::ALL {
                times[given as usize].add(time_batch(engine.tests.call(given), lists));
            }
        }
    }
    measured
}

/// The mean of the nanoseconds that a call takes, over all lists.
fn time_batch(test: Test, lists: &[Lone]) -> f64 {
    let call = |lone| {
        black_box(test(black_box(lone)));
    };
    time(|| lists.iter().for_each(call)) / lists.len() as f64
}

#[cfg(test)]
mod tests {
    use std::collections::BTreeSet;

    use super::*;

    fn compare_all(tests: Tests) -> Result<(), String> {
        let engine = Engine { name: "this", tests, ..Engine::MODEL };
        make_all().iter().try_for_each(|lone| compare(&engine, lone))
    }

    #[test]
    fn lists_are_at_the_limit_and_within_it() {
        let lists = make_all();
        assert_eq!(lists.len(), 64);
        assert!(lists.iter().all(|lone| lone.amounts.len() == 32));
        assert!(lists.iter().flat_map(|lone| &lone.amounts).all(|&amount| amount <= 1_000_000_000_000));
    }

    #[test]
    fn lists_differ_and_have_every_place() {
        let lists = make_all();
        let different: BTreeSet<&Vec<u64>> = lists.iter().map(|lone| &lone.amounts).collect();
        let places: BTreeSet<u64> = lists.iter().map(|lone| lone.place).collect();
        assert_eq!((different.len(), places), (64, (0..32).collect()));
    }

    #[test]
    fn suppliers_pass_and_fail() {
        let told = make_all().iter().map(Tests::MODEL.listed).collect::<Option<Vec<_>>>();
        let passing = told.expect("no list is refused").iter().filter(|(_, passes)| *passes).count();
        assert!((16..=48).contains(&passing), "{passing}");
    }

    #[test]
    fn the_engine_tells_what_the_model_does() {
        assert_eq!(compare_all(Tests::OURS), Ok(()));
        assert_eq!(compare_all(Tests::MODEL), Ok(()));
    }

    #[test]
    fn a_wrong_test_is_not_timed_listed_or_fed() {
        let at_the_next_place: Test = |lone| {
            let place = (lone.place + 1) % AMOUNTS as u64;
            (Tests::MODEL.listed)(&Lone { place, ..lone.clone() })
        };
        let failing_at_the_need: Test = |lone| {
            let (left, _) = (Tests::MODEL.listed)(lone)?;
            Some((left, left > lone.need))
        };
        let refusing: Test = |_| None;
        for wrong in [at_the_next_place, failing_at_the_need, refusing] {
            let listed = compare_all(Tests { listed: wrong, ..Tests::MODEL }).unwrap_err();
            assert!(listed.starts_with("this has another answer than the model to test "), "{listed}");
            let fed = compare_all(Tests { fed: wrong, ..Tests::MODEL }).unwrap_err();
            assert!(fed.starts_with("this has another answer than the model to fed "), "{fed}");
        }
    }

    #[test]
    fn a_test_that_is_not_fed_the_last_amount_is_not_timed() {
        let all_but_one: Test = |lone| {
            let amounts = lone.amounts[..AMOUNTS - 1].to_vec();
            (Tests::MODEL.fed)(&Lone { amounts, ..lone.clone() })
        };
        assert!(compare_all(Tests { fed: all_but_one, ..Tests::MODEL }).is_err());
    }

    #[test]
    fn every_engine_has_times_of_both_calls() {
        let measured = measure(&[Engine::OURS, Engine::MODEL], &[make(0)]);
        let counts = |engine| Given::ALL.map(|given| measured.times(engine, given).count());
        assert_eq!((counts(0), counts(1)), ([4_000; 2], [400; 2]));
    }
}
