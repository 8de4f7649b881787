//! What is timed: an implementation's study and check, its preview of a unit, its tidying of a schedules file, and its tests
//! of amounts, which [`crate::amounts`] is about.

use capping::File;
use capping_model::answer::LONGEST;
use capping_model::check::check;
use capping_model::day::Day;
pub use capping_model::rules::Files;

use crate::amounts::Tests;
use crate::study::Study;

/// How many bytes the longest tidy schedules file has.
pub const LONGEST_TIDY: usize = File::Schedules.longest_tidy();

/// An implementation.
pub struct Engine {
    pub name: &'static str,
    /// Studies the files on a fresh day: the answer's length in the buffer, or 0 where it refuses them.
    pub study: fn(&Files, &mut [u8]) -> usize,
    /// Previews a unit on a fresh day: the cost that its row shows, or 0 where it is refused.
    pub preview: fn(&Files, u64) -> u64,
    /// 0, or the number of the first refusal.
    pub check: fn([&[u8]; 3]) -> u64,
    /// Whether its study and its preview take curves.
    pub curves: bool,
    /// Hands a schedules file back tidy: the tidy file's length in the buffer, or 0 where it refuses the file.
    pub tidy: Option<fn(&[u8], &mut [u8]) -> usize>,
    /// Tests one supplier by the amounts of all.
    pub tests: Tests,
    /// How many rounds have one call; a slow engine is spared some.
    pub rounds_a_call: usize,
}

/// What an engine is asked of a study.
#[derive(Clone, Copy)]
pub enum Call {
    Study,
    Preview,
    Check,
    Tidy,
}

impl Call {
    pub const ALL: [Call; 4] = [Call::Study, Call::Preview, Call::Check, Call::Tidy];

    /// Whether the call is timed on a study: one that takes no other files than three isn't where there are some.
    fn takes(self, study: &Study) -> bool {
        matches!(self, Call::Study | Call::Preview) || study.is_alone()
    }

    /// How many bytes of a study the call reads.
    pub fn bytes(self, study: &Study) -> usize {
        match self {
            Call::Study | Call::Preview | Call::Check => study.bytes(),
            Call::Tidy => study.lend().schedules.len(),
        }
    }

    pub fn name(self) -> &'static str {
        match self {
            Call::Study => "study",
            Call::Preview => "preview",
            Call::Check => "check",
            Call::Tidy => "tidy",
        }
    }
}

impl Engine {
    /// The engine that is proved.
    pub const OURS: Engine = Engine {
        name: "ours",
        study: |files, buffer| capping::study_into(lent(files), buffer).unwrap_or(0),
        preview: |files, unit| capping::Day::fresh().preview(lent(files), unit).map_or(0, |row| row.cost),
        check: |[constraint, supply, schedules]| match capping::check(constraint, supply, schedules) {
            Ok(()) => 0,
            Err(number) => number,
        },
        curves: true,
        tidy: Some(|schedules, buffer| capping::tidy_into(File::Schedules, schedules, buffer).unwrap_or(0)),
        tests: Tests::OURS,
        rounds_a_call: 1,
    };

    /// The model, which every answer is compared with. Tidy files are compared with what they were made of.
    pub const MODEL: Engine = Engine {
        name: "model",
        study: |files, buffer| Day::fresh().study(files, buffer).1.unwrap_or(0),
        preview: |files, unit| Day::fresh().preview(files, unit).map_or(0, |row| row.chosen.cost),
        check,
        curves: true,
        tidy: None,
        tests: Tests::MODEL,
        rounds_a_call: 10,
    };

    /// Whether the engine is called in a round.
    pub fn has_turn(&self, round: usize) -> bool {
        round.is_multiple_of(self.rounds_a_call)
    }

    /// Whether the engine has a call.
    pub fn has(&self, call: Call) -> bool {
        !matches!(call, Call::Tidy) || self.tidy.is_some()
    }

    /// Whether the engine is asked to make a call on a study.
    pub fn makes(&self, call: Call, study: &Study) -> bool {
        self.has(call) && call.takes(study) && (self.curves || study.curves.is_empty())
    }

    /// That the engine accepts a study and answers it byte for byte as the model does, that it previews the cost which stands
    /// there, and that the tidy schedules are the rows they were made of.
    pub fn compare(&self, study: &Study) -> Result<(), String> {
        let files = study.lend();
        let differs = |what: &str| Err(format!("{} {what} the study {study}", self.name));
        let answer = self.answer(&files);
        match (self.check)(study.files.lend()) {
            0 if answer.is_empty() => differs("refuses"),
            0 if answer != Engine::MODEL.answer(&files) => differs("has another answer than the model to"),
            0 if (self.preview)(&files, study.last_unit) != last_cost(&answer) => {
                differs("previews another cost in")
            }
            0 if !self.tidies(study) => differs("doesn't tidy the schedules of"),
            0 => Ok(()),
            number => differs(&format!("checks with {number}")),
        }
    }

    /// The answer file, empty where the files are refused.
    fn answer(&self, files: &Files) -> Vec<u8> {
        let mut buffer = vec![0; LONGEST];
        let length = (self.study)(files, &mut buffer);
        buffer.truncate(length);
        buffer
    }

    /// Whether the engine hands the schedules of a study back as they are tidy, or is never asked to.
    fn tidies(&self, study: &Study) -> bool {
        let mut buffer = vec![0; LONGEST_TIDY];
        self.tidy.is_none_or(|tidy| {
            let length = tidy(study.lend().schedules, &mut buffer);
            buffer[..length] == study.tidy_schedules
        })
    }
}

/// The files as the engine that is proved takes them.
fn lent<'a>(files: &Files<'a>) -> capping::Files<'a> {
    let three = capping::Files::new(files.constraint, files.supply, files.schedules);
    three.with_curves(files.curves).with_parents(files.parents)
}

/// The last field of an answer file.
fn last_cost(answer: &[u8]) -> u64 {
    let text = String::from_utf8_lossy(answer);
    text.trim_end().rsplit(',').next().and_then(|cost| cost.parse().ok()).unwrap_or_default()
}

#[cfg(test)]
mod tests {
    use super::*;
    use crate::study::{Layout, Study};

    fn study() -> Study {
        Study::make(16, Layout::Plain)
    }

    #[test]
    fn the_engine_answers_as_the_model() {
        assert_eq!(Engine::OURS.compare(&study()), Ok(()));
        assert_eq!(Engine::OURS.compare(&Study::make(16, Layout::Quoted)), Ok(()));
        assert_eq!(Engine::OURS.compare(&Study::make(256, Layout::Affiliated)), Ok(()));
        assert_eq!(Engine::OURS.compare(&Study::make(256, Layout::Longest)), Ok(()));
        assert_eq!(Engine::OURS.compare(&Study::make(256, Layout::Curves(4))), Ok(()));
    }

    #[test]
    fn an_engine_that_leaves_curves_out_is_not_timed() {
        let alone = |files: &Files, buffer: &mut [u8]| {
            (Engine::MODEL.study)(&Files { curves: b"", ..*files }, buffer)
        };
        let alone = Engine { study: alone, ..Engine::MODEL };
        assert_eq!(alone.compare(&study()), Ok(()));
        assert!(alone.compare(&Study::make(256, Layout::Curves(1))).is_err());
    }

    #[test]
    fn an_engine_is_asked_for_what_it_has() {
        let without = Engine { curves: false, ..Engine::MODEL };
        let (plain, curved) = (study(), Study::make(256, Layout::Curves(1)));
        assert!(without.makes(Call::Study, &plain) && !without.makes(Call::Study, &curved));
        assert!(Engine::MODEL.makes(Call::Preview, &curved) && !Engine::MODEL.makes(Call::Check, &curved));
        assert!(Engine::OURS.makes(Call::Tidy, &plain) && !Engine::MODEL.makes(Call::Tidy, &plain));
    }

    #[test]
    fn an_engine_that_leaves_parents_out_is_not_timed() {
        let alone = |files: &Files, buffer: &mut [u8]| {
            (Engine::MODEL.study)(&Files { parents: b"", ..*files }, buffer)
        };
        let alone = Engine { study: alone, ..Engine::MODEL };
        assert_eq!(alone.compare(&study()), Ok(()));
        assert!(alone.compare(&Study::make(256, Layout::Affiliated)).is_err());
    }

    #[test]
    fn a_wrong_engine_is_not_timed() {
        let refusing = Engine { study: |_, _| 0, ..Engine::MODEL };
        assert!(refusing.compare(&study()).is_err());
        let checking_wrong = Engine { check: |_| 3, ..Engine::MODEL };
        assert!(checking_wrong.compare(&study()).is_err());
        let one_byte_off = |files: &Files, buffer: &mut [u8]| {
            let length = (Engine::MODEL.study)(files, buffer);
            buffer[length - 3] ^= 1;
            length
        };
        assert!(Engine { study: one_byte_off, ..Engine::MODEL }.compare(&study()).is_err());
    }

    #[test]
    fn an_engine_that_previews_another_cost_is_not_timed() {
        let one_on = |files: &Files, unit: u64| (Engine::MODEL.preview)(files, unit + 1);
        assert!(Engine { preview: one_on, ..Engine::MODEL }.compare(&study()).is_err());
        let dearer = |files: &Files, unit: u64| (Engine::MODEL.preview)(files, unit) + 1;
        assert!(Engine { preview: dearer, ..Engine::MODEL }.compare(&study()).is_err());
    }

    #[test]
    fn an_engine_that_copies_files_is_not_timed() {
        let copy = |schedules: &[u8], buffer: &mut [u8]| {
            buffer[..schedules.len()].copy_from_slice(schedules);
            schedules.len()
        };
        let copying = Engine { tidy: Some(copy), ..Engine::MODEL };
        assert_eq!(copying.compare(&study()), Ok(()));
        assert!(copying.compare(&Study::make(16, Layout::Quoted)).is_err());
        let refusing = Engine { tidy: Some(|_, _| 0), ..Engine::MODEL };
        assert!(refusing.compare(&study()).is_err());
    }

    #[test]
    fn a_refused_study_is_not_timed() {
        let mut refused = study();
        refused.files.0[0].push(b'\t');
        assert!(Engine::MODEL.compare(&refused).is_err());
    }
}
