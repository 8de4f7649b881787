//! How long a study, a preview and a check take, how long it takes to tidy a schedules file, and how long to test one supplier by
//! a list of amounts or fed with them one by one: the engine's own, the model's (which isn't asked to tidy) and, where there is
//! one, a peer's, which is another implementation of document 01. All are called in this process, on the same bytes, in the same
//! rounds.
//! Nothing here says how long a call may take.
//!
//! | module | what it has |
//! |---|---|
//! | [`study`] | the studies, made up from a seed |
//! | [`engine`] | an implementation's calls, and whether it answers as the model does |
//! | [`timing`] | the rounds on studies |
//! | [`amounts`] | the lists of amounts, the calls that test them, and their rounds |
//! | [`report`] | tables of what was measured |
//! | [`picture`] | time against rows as SVG |

pub mod study;
pub mod engine;
pub mod timing;
pub mod amounts;
pub mod report;
pub mod picture;

use std::path::Path;
use std::process::ExitCode;

use amounts::Lone;
use engine::{Call, Engine};
use study::Study;

/// The program: its one argument is where the picture goes.
pub fn main(peer: Option<Engine>) -> ExitCode {
    let Some(picture) = std::env::args_os().nth(1) else {
        eprintln!("usage: bench PICTURE");
        return ExitCode::from(2);
    };
    match run(peer, Path::new(&picture)) {
        Ok(()) => ExitCode::SUCCESS,
        Err(reason) => {
            println!("{reason}");
            ExitCode::FAILURE
        }
    }
}

/// Compares all answers, then times all calls, prints the tables and writes the picture.
fn run(peer: Option<Engine>, picture: &Path) -> Result<(), String> {
    let engines: Vec<Engine> = [Engine::OURS, Engine::MODEL].into_iter().chain(peer).collect();
    let (studies, lists) = (study::make_all(), amounts::make_all());
    compare(&engines, &studies, &lists)?;
    let measured = timing::measure(&engines, &studies);
    let tests = amounts::measure(&engines, &lists);
    print!("{}\n{}", report::of(&engines, &measured), report::of_tests(&engines, &tests));
    let drawn = picture::draw(&engines, &measured);
    std::fs::write(picture, drawn).map_err(|error| format!("{}: {error}", picture.display()))?;
    println!("\npicture: {}", picture.display());
    Ok(())
}

/// That each engine answers the studies that it takes, and all lists, as the model does.
fn compare(engines: &[Engine], studies: &[Study], lists: &[Lone]) -> Result<(), String> {
    for engine in engines {
        let mut taken = studies.iter().filter(|study| engine.makes(Call::Study, study));
        taken.try_for_each(|study| engine.compare(study))?;
        lists.iter().try_for_each(|lone| amounts::compare(engine, lone))?;
    }
    Ok(())
}
