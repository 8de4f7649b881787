//! All batches of a run, as many at once as the machine has cores. They are begun in rising order and each
//! that is begun is ended, so the lowest of the differences found is the first of the run.

use std::collections::BTreeMap;
use std::iter::StepBy;
use std::num::NonZero;
use std::ops::Range;
use std::sync::mpsc::{self, Receiver, Sender};
use std::sync::Mutex;
use std::thread;
use std::time::{Duration, Instant};

use crate::batch::{compare_batch, Compared};
use crate::found::Found;
use crate::run::{Run, BATCH};

/// How often a long run tells how far it is.
const PROGRESS: Duration = Duration::from_secs(10);

/// A batch that has ended: the index of its first case, and what became of it.
type Ended = (u64, Result<Compared, String>);

/// The first cases of the batches that aren't begun yet.
struct Batches(Mutex<StepBy<Range<u64>>>);

impl Batches {
    fn up_to(count: u64) -> Batches {
        Batches(Mutex::new((0..count).step_by(BATCH as usize)))
    }

    fn begin(&self) -> Option<u64> {
        self.0.lock().expect("whoever holds it doesn't panic").next()
    }

    /// None is begun any more.
    fn stop(&self) {
        *self.0.lock().expect("whoever holds it doesn't panic") = (0..0).step_by(1);
    }
}

/// Runs all cases, up to the first difference.
pub fn compare(run: &Run) -> Result<String, String> {
    let start = Instant::now();
    let batches = Batches::up_to(run.count);
    let (sender, ended) = mpsc::channel();
    let found = thread::scope(|scope| {
        for _ in 0..thread::available_parallelism().map_or(1, NonZero::get) {
            let (batches, sender) = (&batches, sender.clone());
            scope.spawn(move || work(run, batches, &sender));
        }
        drop(sender);
        gather(run, ended, start)
    })?;
    found.conclude(run, start.elapsed())
}

/// Batch after batch, while there is one to begin.
fn work(run: &Run, batches: &Batches, ended: &Sender<Ended>) {
    while let Some(first) = batches.begin() {
        let compared = compare_batch(run, first);
        if compared.is_err() {
            batches.stop();
        }
        ended.send((first, compared)).expect("batches are gathered to the last");
    }
}

/// What the batches found together, or the report of the first difference.
fn gather(run: &Run, ended: Receiver<Ended>, start: Instant) -> Result<Found, String> {
    let mut found = Found::default();
    let mut differences = BTreeMap::new();
    let (mut done, mut told) = (0, start);
    for (first, compared) in ended {
        match compared {
            Ok(compared) => found.add(compared),
            Err(report) => drop(differences.insert(first, report)),
        }
        done = run.count.min(done + BATCH);
        if told.elapsed() >= PROGRESS && differences.is_empty() {
            told = Instant::now();
            eprintln!("{done} of {} cases, no difference, {} s", run.count, start.elapsed().as_secs());
        }
    }
    match differences.pop_first() {
        Some((_, report)) => Err(report),
        None => Ok(found),
    }
}

#[cfg(test)]
mod tests {
    use capping_model::case;

    use super::*;
    use crate::asking::Engine;

    const SEED: u64 = 7;

    fn run(count: u64, answer: fn(&[u8]) -> String) -> Result<String, String> {
        compare(&Run { seed: SEED, count, common: false, engine: Engine::Linked(answer) })
    }

    /// Wrong in the releases whose unit is 9999, which are few.
    fn wrong_at_times(line: &[u8]) -> String {
        match line {
            [b'r', .., b' ', b'9', b'9', b'9', b'9'] => "ok -".to_string(),
            _ => case::answer(line),
        }
    }

    #[test]
    fn the_model_is_the_model() {
        let report = run(2 * BATCH + 1, case::answer).unwrap();
        assert!(report.contains(&format!("{} cases of seed {SEED}: no difference", 2 * BATCH + 1)));
    }

    #[test]
    fn the_first_difference_is_reported() {
        let count = 8 * BATCH;
        let all = Run { seed: SEED, count, common: false, engine: Engine::Linked(wrong_at_times) };
        let cases = (0..count).step_by(BATCH as usize).flat_map(|first| all.batch(first));
        let wrong: Vec<u64> = cases
            .filter(|asked| wrong_at_times(&asked.line) != case::answer(&asked.line))
            .map(|asked| asked.index)
            .collect();
        assert!(wrong.len() > 1, "{wrong:?}");
        let report = run(count, wrong_at_times).unwrap_err();
        assert!(report.starts_with(&format!("case {} of seed {SEED} ", wrong[0])), "{report}");
    }

    #[test]
    fn an_engine_that_answers_nothing_differs_at_once() {
        let report = run(4 * BATCH, |_| String::new()).unwrap_err();
        assert!(report.starts_with("case 0 of seed"), "{report}");
    }
}
