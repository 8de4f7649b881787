//! What a run has found, and its report where there was no difference.

use std::fmt::Write;
use std::time::Duration;

use capping_model::tally::Tally;

use crate::batch::{Compared, Judged};
use crate::run::Run;

/// From so many cases on, everything that can occur has to be reached.
const ENOUGH: u64 = 20_000;

#[derive(Default)]
pub struct Found {
    cases: u64,
    tally: Tally,
    judged: Judged,
    previewed: u64,
    listed: u64,
}

impl Found {
    pub fn add(&mut self, compared: Compared) {
        for case in &compared.cases {
            self.tally.count(&case.line, &case.answer);
        }
        self.cases += compared.cases.len() as u64;
        self.judged.add(compared.judged);
        self.previewed += compared.previewed;
        self.listed += compared.listed;
    }

    /// The report; an error where something was never reached that has to be.
    pub fn conclude(&self, run: &Run, time: Duration) -> Result<String, String> {
        let mut report = self.tally.to_string();
        let Judged { accepted, rejected } = self.judged;
        let _ = writeln!(
            report,
            "\njudged by demand 3: {accepted} answers accepted, {rejected} changed ones rejected"
        );
        let _ = writeln!(report, "rows of accepted studies that previews show too: {}", self.previewed);
        let _ = writeln!(report, "fed lists that the test on a list answers alike: {}", self.listed);
        let seconds = time.as_secs_f64();
        let _ = write!(report, "{} cases of seed {}: no difference, {seconds:.1} s", self.cases, run.seed);
        let missing = self.tally.missing();
        if run.count >= ENOUGH && !missing.is_empty() {
            return Err(format!("{report}\nnever reached: {missing:?}"));
        }
        Ok(report)
    }
}
