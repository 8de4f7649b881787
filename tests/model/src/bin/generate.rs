//! `generate SEED COUNT [FIRST]` prints cases of a seed, one a line, from the case FIRST on (else 0). With
//! `gate` for the seed they are those of the gate, and none behind its last.

use std::io::{self, BufWriter, Write};
use std::ops::Range;
use std::process::ExitCode;

use capping_model::generator::{self, GATE_CASES, GATE_SEED};

fn main() -> ExitCode {
    let words: Vec<String> = std::env::args().skip(1).collect();
    let Some((seed, cases)) = read(&words) else {
        eprintln!("usage: generate SEED COUNT [FIRST]");
        eprintln!("       generate gate COUNT [FIRST]");
        return ExitCode::from(2);
    };
    if print(seed, cases).is_ok() {
        ExitCode::SUCCESS
    } else {
        ExitCode::FAILURE
    }
}

/// The seed and the cases that the words of a command ask for.
fn read(words: &[String]) -> Option<(u64, Range<u64>)> {
    let (seed, numbers) = words.split_first()?;
    let numbers: Vec<u64> = numbers.iter().map(|word| word.parse().ok()).collect::<Option<_>>()?;
    let (count, first) = match numbers[..] {
        [count] => (count, 0),
        [count, first] => (count, first),
        _ => return None,
    };
    let end = first.saturating_add(count);
    match seed.as_str() {
        "gate" => Some((GATE_SEED, first..end.min(GATE_CASES))),
        seed => Some((seed.parse().ok()?, first..end)),
    }
}

fn print(seed: u64, cases: Range<u64>) -> io::Result<()> {
    let mut output = BufWriter::new(io::stdout().lock());
    for index in cases {
        output.write_all(&generator::make(seed, index).bytes)?;
        output.write_all(b"\n")?;
    }
    output.flush()
}
