//! An engine's answers to a batch: of the engine in this process, or of a program that reads cases on
//! standard input and prints an answer a line.

use std::io::{self, Read, Write};
use std::process::{Command, ExitStatus, Stdio};
use std::thread;

use crate::run::Asked;

/// Answers a line.
type Answer = fn(&[u8]) -> String;

/// Who is held against the model.
pub enum Engine {
    Linked(Answer),
    Program(String),
}

/// What was answered, and how a program ended that didn't end well.
struct Answers {
    lines: Vec<String>,
    failure: Option<ExitStatus>,
}

impl Engine {
    /// The engine in this process where no program is named.
    pub fn named(program: &[&str]) -> Option<Engine> {
        match program {
            [] => Some(Engine::Linked(capping_replay::answer)),
            [program] => Some(Engine::Program(program.to_string())),
            _ => None,
        }
    }

    pub fn name(&self) -> &str {
        match self {
            Engine::Linked(_) => "engine",
            Engine::Program(program) => program,
        }
    }

    /// Asks a batch, and hands on each case with its answer, up to the first that isn't as it should be.
    pub fn each_answer(
        &self,
        batch: Vec<Asked>,
        mut hand_on: impl FnMut(Asked, String) -> Result<(), String>,
    ) -> Result<(), String> {
        let name = self.name();
        let Answers { lines, failure } = self.ask(&batch).map_err(|error| format!("{name}: {error}"))?;
        let mut answers = lines.into_iter();
        for asked in batch {
            hand_on(asked, answers.next().unwrap_or_else(|| "(no answer)".to_string()))?;
        }
        match (answers.next(), failure) {
            (Some(answer), _) => Err(format!("one answer more than cases: {answer}")),
            (None, Some(status)) => Err(format!("{name}: {status}")),
            (None, None) => Ok(()),
        }
    }

    fn ask(&self, batch: &[Asked]) -> io::Result<Answers> {
        match self {
            Engine::Linked(answer) => {
                let lines = batch.iter().map(|asked| answer(&asked.line)).collect();
                Ok(Answers { lines, failure: None })
            }
            Engine::Program(program) => ask_program(program, batch),
        }
    }
}

/// What a program prints when it reads the cases.
fn ask_program(program: &str, batch: &[Asked]) -> io::Result<Answers> {
    let lines: Vec<&[u8]> = batch.iter().flat_map(|asked| [asked.line.as_slice(), b"\n"]).collect();
    let input = lines.concat();
    let mut child = Command::new(program).stdin(Stdio::piped()).stdout(Stdio::piped()).spawn()?;
    let mut stdin = child.stdin.take().expect("a piped input");
    let mut stdout = child.stdout.take().expect("a piped output");
    let mut output = Vec::new();
    thread::scope(|scope| {
        // A program that ends early is found by the answers it doesn't give.
        scope.spawn(move || stdin.write_all(&input).ok());
        stdout.read_to_end(&mut output)
    })?;
    let status = child.wait()?;
    let lines = String::from_utf8_lossy(&output).split_terminator('\n').map(str::to_string).collect();
    Ok(Answers { lines, failure: (!status.success()).then_some(status) })
}

#[cfg(test)]
mod tests {
    use super::*;

    fn ask(program: &str, lines: &[&str]) -> io::Result<Answers> {
        let asked = |line: &&str| Asked { index: 0, line: line.as_bytes().to_vec() };
        Engine::Program(program.to_string()).ask(&lines.iter().map(asked).collect::<Vec<_>>())
    }

    #[test]
    fn a_program_answers_a_line_each() {
        let answers = ask("cat", &["one", "", "two"]).unwrap();
        assert_eq!(answers.lines, ["one", "", "two"]);
        assert_eq!(answers.failure, None);
    }

    #[test]
    fn a_program_that_fails_or_is_missing() {
        let answers = ask("false", &["one"]).unwrap();
        assert!(answers.lines.is_empty());
        assert!(answers.failure.is_some());
        assert!(ask("no such program", &["one"]).is_err());
    }
}
