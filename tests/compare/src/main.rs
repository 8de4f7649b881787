//! Holds an engine against the model, case by case.
//!
//! `compare gate` runs the cases that every change is held against, `compare SEED COUNT` so many cases of
//! any seed. The engine is asked in this process; with the name of a program behind these words, that
//! program is asked instead. With `--common` before them, lines that other readers may answer otherwise
//! are left out.
//!
//! | module | what it has |
//! |---|---|
//! | [`run`] | what to run, and the cases of a batch |
//! | [`asking`] | an engine's answers to a batch |
//! | [`batch`] | one batch: the answers beside the model's, and judged by demand 3 |
//! | [`beside`] | cases that an engine's own answers call for |
//! | [`previews`] | every unit of an accepted study, previewed |
//! | [`lists`] | every list that the test was fed with, tested at once |
//! | [`found`] | what a run has found, and its report |
//! | [`comparing`] | all batches, as many at once as the machine has cores |
//! | [`showing`] | cases and answers as people read them |

mod run;
mod asking;
mod batch;
mod beside;
mod previews;
mod lists;
mod found;
mod comparing;
mod showing;

use std::process::ExitCode;

use run::Run;

fn main() -> ExitCode {
    let words: Vec<String> = std::env::args().skip(1).collect();
    let Some(run) = Run::read(&words) else {
        eprintln!("usage: compare [--common] gate [PROGRAM]");
        eprintln!("       compare [--common] SEED COUNT [PROGRAM]");
        return ExitCode::from(2);
    };
    let (report, code) = match comparing::compare(&run) {
        Ok(report) => (report, ExitCode::SUCCESS),
        Err(report) => (report, ExitCode::FAILURE),
    };
    println!("{report}");
    code
}
