//! One batch: an engine's answers beside the model's, each judged by demand 3 where the study is small, every
//! row of a study beside its preview, and every list that was fed beside the test of it.

use capping_model::case::{self, read_hex, Case};
use capping_model::changes::changed;
use capping_model::judge::Judge;

use crate::beside::Beside;
use crate::run::{Asked, Run};
use crate::showing::{readable, show_case, show_difference};
use crate::{lists, previews};

/// A batch without a difference.
#[derive(Default)]
pub struct Compared {
    pub cases: Vec<Answered>,
    pub judged: Judged,
    /// How many rows of accepted studies were previewed.
    pub previewed: u64,
    /// How many lists that the test was fed with were tested at once.
    pub listed: u64,
}

/// A case and its right answer.
pub struct Answered {
    pub line: Vec<u8>,
    pub answer: String,
}

/// How many answers the judge accepted, and how many changed ones it rejected.
#[derive(Clone, Copy, Default)]
pub struct Judged {
    pub accepted: u64,
    pub rejected: u64,
}

/// The batch that begins with an index, or the report of its first difference.
pub fn compare_batch(run: &Run, first: u64) -> Result<Compared, String> {
    let mut compared = Compared::default();
    let (mut of_studies, mut of_fed) = (Beside::default(), Beside::default());
    run.engine.each_answer(run.batch(first), |asked, answer| {
        compared.judged.add(compare_case(run, &asked, &answer)?);
        previews::add(&mut of_studies, &asked, &answer);
        lists::add(&mut of_fed, &asked, &answer);
        compared.cases.push(Answered { line: asked.line, answer });
        Ok(())
    })?;
    compared.previewed = of_studies.ask(run)?;
    compared.listed = of_fed.ask(run)?;
    Ok(compared)
}

fn compare_case(run: &Run, asked: &Asked, answer: &str) -> Result<Judged, String> {
    let expected = case::answer(&asked.line);
    if answer != expected {
        return Err(show_difference(run, asked, &expected, answer));
    }
    judge(&asked.line, answer).map_err(|report| format!("{report}\n{}", show_case(run, asked)))
}

/// Judges what a case was answered with by demand 3, where it is an accepted study or a preview of one, and
/// small.
fn judge(line: &[u8], answer: &str) -> Result<Judged, String> {
    let shown = answer.strip_prefix("ok ").unwrap_or_default();
    match Case::read(line) {
        Some(Case::Study { day, files, .. }) if !shown.is_empty() => {
            judge_answer(Judge::of(&files.lend(), &day), shown)
        }
        Some(Case::Preview { day, files, unit }) if !shown.is_empty() => {
            judge_row(Judge::of(&files.lend(), &day), unit, shown)
        }
        _ => Ok(Judged::default()),
    }
}

/// The answer of a study is accepted, and every changed one rejected.
fn judge_answer(judge: Option<Judge>, shown: &str) -> Result<Judged, String> {
    let Some(judge) = judge else { return Ok(Judged::default()) };
    let bytes = shown.split(' ').next().and_then(read_hex).unwrap_or_default();
    judge.weigh(&bytes).map_err(|reason| format!("the judge rejects the answer: {reason}"))?;
    let changes = changed(&bytes, &judge);
    if let Some(change) = changes.iter().find(|change| judge.weigh(change).is_ok()) {
        return Err(format!("the judge accepts a changed answer:\n{}", readable(change)));
    }
    Ok(Judged { accepted: 1, rejected: changes.len() as u64 })
}

/// The row of a preview is accepted for its unit.
fn judge_row(judge: Option<Judge>, unit: u64, shown: &str) -> Result<Judged, String> {
    let Some(judge) = judge else { return Ok(Judged::default()) };
    let weighed = judge.weigh_previewed(unit, shown.as_bytes());
    weighed.map_err(|reason| format!("the judge rejects the previewed row: {reason}"))?;
    Ok(Judged { accepted: 1, rejected: 0 })
}

impl Judged {
    pub fn add(&mut self, other: Judged) {
        self.accepted += other.accepted;
        self.rejected += other.rejected;
    }
}
