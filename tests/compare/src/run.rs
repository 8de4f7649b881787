//! What to run, and the cases of a batch.

use capping_model::generator::{self, GATE_CASES, GATE_SEED};

use crate::asking::Engine;

/// Cases that are asked together. A program is started anew for them.
pub const BATCH: u64 = 500;

/// What to run.
pub struct Run {
    pub seed: u64,
    pub count: u64,
    /// Whether lines that other readers may answer otherwise are left out.
    pub common: bool,
    pub engine: Engine,
}

/// A case with the index that it has in its seed.
pub struct Asked {
    pub index: u64,
    pub line: Vec<u8>,
}

impl Run {
    /// The run that the words of a command ask for.
    pub fn read(words: &[String]) -> Option<Run> {
        let words: Vec<&str> = words.iter().map(String::as_str).collect();
        let (common, words) = match words.split_first() {
            Some((&"--common", rest)) => (true, rest),
            _ => (false, &words[..]),
        };
        let (seed, count, program) = match *words {
            ["gate", ref program @ ..] => (GATE_SEED, GATE_CASES, program),
            [seed, count, ref program @ ..] => (seed.parse().ok()?, count.parse().ok()?, program),
            _ => return None,
        };
        Some(Run { seed, count, common, engine: Engine::named(program)? })
    }

    /// The cases of the batch that begins with an index.
    pub fn batch(&self, first: u64) -> Vec<Asked> {
        let end = first.saturating_add(BATCH).min(self.count);
        let lines = (first..end).map(|index| (index, generator::make(self.seed, index)));
        let kept = lines.filter(|(_, line)| line.common || !self.common);
        kept.map(|(index, line)| Asked { index, line: line.bytes }).collect()
    }
}

#[cfg(test)]
mod tests {
    use super::*;

    fn read(words: &str) -> Option<Run> {
        Run::read(&words.split(' ').map(str::to_string).collect::<Vec<_>>())
    }

    #[test]
    fn words_of_a_command() {
        let run = read("gate a-program").unwrap();
        assert_eq!((run.seed, run.count, run.common), (GATE_SEED, GATE_CASES, false));
        assert_eq!(run.engine.name(), "a-program");
        let run = read("--common 7 30 a-program").unwrap();
        assert_eq!((run.seed, run.count, run.common), (7, 30, true));
        for words in ["", "7", "7 x a-program", "gate a-program more", "7 30 a-program more", "7 --common 30"]
        {
            assert!(read(words).is_none(), "{words}");
        }
    }

    #[test]
    fn batches_end_with_the_run() {
        let run = Run { count: BATCH + 3, ..read("7 1 a-program").unwrap() };
        assert_eq!(run.batch(0).len() as u64, BATCH);
        let last: Vec<u64> = run.batch(BATCH).iter().map(|asked| asked.index).collect();
        assert_eq!(last, [BATCH, BATCH + 1, BATCH + 2]);
    }
}
