//! The benchmark with a peer: a package of any name with these public functions. tests/bench/run writes the
//! package that this is built in.

use std::process::ExitCode;

use capping_bench::amounts::{Tests, Told};
use capping_bench::engine::{Engine, Files};
use peer::{Day, Outcome, Refusal, Rules, Tested, TidyFile, Verdict, WholeDay};

/// The requests of document 02 that bring tidy files, previews, the fed test and parents.
const TIDY_FILES: u8 = 1;
const PREVIEWS: u8 = 2;
const FED_TEST: u8 = 5;
const AFFILIATED_OWNERS: u8 = 6;

/// The peer with the fed test. Its rules are made when this is compiled, since a test is over in the time that it may
/// take to make them.
const FEEDING: peer::Engine = peer::Engine::new(Rules::up_to(FED_TEST));

const PEER: Engine = Engine {
    name: "peer",
    study: |files, buffer| match files.parents {
        [] => study_alone(files, buffer),
        _ => study_affiliated(files, buffer),
    },
    preview: |files, unit| {
        let (engine, files) =
            (peer::Engine::new(Rules::landed(&[PREVIEWS, AFFILIATED_OWNERS])), with_parents(files));
        let unit = u16::try_from(unit).expect("a unit has four digits at most");
        engine.preview(&WholeDay::fresh(), &files, unit).map_or(0, |line| line.cost)
    },
    check: |[constraint, supply, schedules]| u64::from(peer::check(constraint, supply, schedules)),
    curves: false,
    tidy: Some(|schedules, buffer| {
        let engine = peer::Engine::new(Rules::landed(&[TIDY_FILES]));
        engine.tidy(TidyFile::Schedules, schedules, buffer).unwrap_or(0)
    }),
    tests: Tests {
        listed: |lone| told(peer::test(lone.need, lone.place as usize, &lone.amounts)),
        fed: |lone| {
            let mut fed = FEEDING.begin(lone.place, lone.need);
            lone.amounts.iter().for_each(|&amount| fed.feed(amount));
            told(FEEDING.ask(&fed))
        },
    },
    rounds_a_call: 1,
};

/// Without parents: the peer's study by document 01 alone, for which it is tuned.
fn study_alone(files: &Files, buffer: &mut [u8]) -> usize {
    match peer::study(&Day::fresh(), files.constraint, files.supply, files.schedules, buffer) {
        Outcome::Accepted { written, .. } => written,
        Outcome::Refused(_) => 0,
    }
}

/// With parents: its study by any set of requests, here that one.
fn study_affiliated(files: &Files, buffer: &mut [u8]) -> usize {
    let engine = peer::Engine::new(Rules::landed(&[AFFILIATED_OWNERS]));
    engine.study(&WholeDay::fresh(), &with_parents(files), buffer).map_or(0, |studied| studied.written)
}

/// All files that there are by then.
fn with_parents<'a>(files: &Files<'a>) -> peer::Files<'a> {
    let three = peer::Files::three(files.constraint, files.supply, files.schedules);
    peer::Files { parents: files.parents, ..three }
}

/// What a test tells.
fn told(tested: Result<Tested, Refusal>) -> Told {
    tested.ok().map(|tested| (tested.left, tested.verdict == Verdict::Pass))
}

fn main() -> ExitCode {
    capping_bench::main(Some(PEER))
}
