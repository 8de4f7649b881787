//! Cases that an engine's own answers call for, to be asked beside those that were made.

use crate::run::{Asked, Run};
use crate::showing::show_difference;

/// Cases to ask for, and the answer that each has to have.
#[derive(Default)]
pub struct Beside {
    asked: Vec<Asked>,
    expected: Vec<String>,
}

impl Beside {
    /// One more, called for by the case with an index.
    pub fn add(&mut self, index: u64, line: String, expected: String) {
        self.asked.push(Asked { index, line: line.into_bytes() });
        self.expected.push(expected);
    }

    /// Asks for all. How many there are, or the report of the first that is answered otherwise.
    pub fn ask(self, run: &Run) -> Result<u64, String> {
        let mut expected = self.expected.iter();
        run.engine.each_answer(self.asked, |asked, answer| match expected.next() {
            Some(expected) if *expected != answer => Err(show_difference(run, &asked, expected, &answer)),
            _ => Ok(()),
        })?;
        Ok(self.expected.len() as u64)
    }

    /// All of them, each line with its answer.
    #[cfg(test)]
    pub fn pairs(&self) -> Vec<(String, &str)> {
        let lines = self.asked.iter().map(|asked| String::from_utf8_lossy(&asked.line).to_string());
        lines.zip(self.expected.iter().map(String::as_str)).collect()
    }
}

#[cfg(test)]
pub mod tests {
    use capping_model::case;
    use capping_model::generator;

    use super::*;
    use crate::asking::Engine;

    const SEED: u64 = 7;
    const COUNT: u64 = 400;

    /// How many cases some made ones call for, or the report where an engine answers one otherwise than the
    /// model answers what calls for it.
    pub fn ask(add: fn(&mut Beside, &Asked, &str), answer: fn(&[u8]) -> String) -> Result<u64, String> {
        let mut beside = Beside::default();
        for index in 0..COUNT {
            let made = Asked { index, line: generator::make(SEED, index).bytes };
            add(&mut beside, &made, &case::answer(&made.line));
        }
        beside.ask(&Run { seed: SEED, count: COUNT, common: false, engine: Engine::Linked(answer) })
    }
}
