//! The rounds on studies: in each, every engine studies every study once and previews its last unit, and checks it and
//! tidies its schedules where nothing is beside the three files, so that a load of the machine hits all alike.

use std::hint::black_box;
use std::time::Instant;

use capping_model::answer::LONGEST;

use crate::engine::{Call, Engine, LONGEST_TIDY};
use crate::study::Study;

pub const ROUNDS: usize = 400;

/// How long the calls of one engine on the same input took, in nanoseconds.
#[derive(Clone, Default)]
pub struct Times(Vec<f64>);

impl Times {
    pub fn add(&mut self, nanoseconds: f64) {
        self.0.push(nanoseconds);
    }

    pub fn count(&self) -> usize {
        self.0.len()
    }

    pub fn least(&self) -> f64 {
        self.0.iter().copied().fold(f64::INFINITY, f64::min)
    }

    /// The middle one, or the mean of the two.
    pub fn median(&self) -> f64 {
        let mut sorted = self.0.clone();
        sorted.sort_by(f64::total_cmp);
        let middle = sorted.len() / 2;
        (sorted[middle] + sorted[(sorted.len() - 1) / 2]) / 2.0
    }
}

/// What was measured on a study, by engine and call.
pub struct Measured<'a> {
    pub study: &'a Study,
    times: Vec<[Times; Call::ALL.len()]>,
}

impl Measured<'_> {
    pub fn times(&self, engine: usize, call: Call) -> &Times {
        &self.times[engine][call as usize]
    }
}

/// Times all calls.
pub fn measure<'a>(engines: &[Engine], studies: &'a [Study]) -> Vec<Measured<'a>> {
    let none = |study| Measured { study, times: vec![Default::default(); engines.len()] };
    let mut all: Vec<Measured> = studies.iter().map(none).collect();
    for round in 0..ROUNDS {
        for measured in &mut all {
            measure_round(round, engines, measured);
        }
    }
    all
}

/// The calls that one round has on one study.
fn measure_round(round: usize, engines: &[Engine], measured: &mut Measured) {
    let study = measured.study;
    let (files, three) = (study.lend(), study.files.lend());
    let (mut buffer, mut tidy_buffer) = ([0; LONGEST], [0; LONGEST_TIDY]);
    for (engine, times) in engines.iter().zip(&mut measured.times) {
        if !engine.has_turn(round) || !engine.makes(Call::Study, study) {
            continue;
        }
        times[Call::Study as usize].add(time(|| (engine.study)(black_box(&files), black_box(&mut buffer))));
        let preview = || (engine.preview)(black_box(&files), black_box(study.last_unit));
        times[Call::Preview as usize].add(time(preview));
        if engine.makes(Call::Check, study) {
            times[Call::Check as usize].add(time(|| (engine.check)(black_box(three))));
        }
        if let Some(tidy) = engine.tidy.filter(|_| engine.makes(Call::Tidy, study)) {
            let call = || tidy(black_box(files.schedules), black_box(&mut tidy_buffer));
            times[Call::Tidy as usize].add(time(call));
        }
    }
}

/// How many nanoseconds a call takes right after another such call: so none pays for what the one of another engine has
/// left in the processor's caches.
pub fn time<T>(mut call: impl FnMut() -> T) -> f64 {
    black_box(call());
    let start = Instant::now();
    black_box(call());
    start.elapsed().as_nanos() as f64
}

#[cfg(test)]
mod tests {
    use super::*;

    #[test]
    fn the_median_is_in_the_middle() {
        assert_eq!(Times(vec![5.0, 1.0, 9.0]).median(), 5.0);
        assert_eq!(Times(vec![5.0, 1.0, 9.0, 7.0]).median(), 6.0);
        assert_eq!(Times(vec![5.0, 1.0, 9.0]).least(), 1.0);
    }
}
