//! Cases and answers as people read them.

use std::fmt::Write;

use capping_model::case::{read_hex, Case};

use crate::run::{Asked, Run};

/// The files of a study or a preview; a check has the first three, and one of these is handed back tidy.
const FILES: [&str; 5] = ["constraint", "supply", "schedules", "curves", "parents"];

/// A difference: the case and both answers.
pub fn show_difference(run: &Run, asked: &Asked, expected: &str, answer: &str) -> String {
    let mut report = show_case(run, asked);
    for (who, said) in [("model", expected), (run.engine.name(), answer)] {
        let _ = write!(report, "{who} answers\n  {}\n{}", shortened(said), show_answer(said));
    }
    report.trim_end().to_string()
}

/// A case, with its files as text.
pub fn show_case(run: &Run, asked: &Asked) -> String {
    let (seed, index) = (run.seed, asked.index);
    let line = String::from_utf8_lossy(&asked.line);
    let mut report =
        format!("case {index} of seed {seed} (generate {seed} 1 {index})\n  {}\n", shortened(&line));
    for (name, file) in files_of(&asked.line) {
        let _ = writeln!(report, "{name}\n{}", readable(&file));
    }
    report
}

/// The files of a case, each with its name.
fn files_of(line: &[u8]) -> Vec<(&'static str, Vec<u8>)> {
    let (first, files) = match Case::read(line) {
        Some(Case::Study { files, .. } | Case::Preview { files, .. }) => (1, files.0.to_vec()),
        Some(Case::Check { files }) => (1, files.0.to_vec()),
        Some(Case::Tidy { kind, file, .. }) => (kind.number() as usize, vec![file]),
        _ => (1, Vec::new()),
    };
    FILES.into_iter().skip(first - 1).zip(files).collect()
}

/// The file that an accepted study wrote, or one that was handed back tidy, as text.
fn show_answer(answer: &str) -> String {
    let hex = answer.strip_prefix("ok ").and_then(|rest| rest.split(' ').next());
    match hex.filter(|hex| hex.len() > 40).and_then(read_hex) {
        Some(bytes) => format!("{}\n", readable(&bytes)),
        None => String::new(),
    }
}

/// Bytes as text, a record a line, with everything unusual escaped.
pub fn readable(bytes: &[u8]) -> String {
    let escaped = |byte: &u8| match byte {
        b'\n' => "\n  ".to_string(),
        b'\r' => "\\r".to_string(),
        0x20..=0x7e => char::from(*byte).to_string(),
        byte => format!("\\x{byte:02x}"),
    };
    let text: String = bytes.iter().map(escaped).collect();
    format!("  {text}").replace("\\r\n", "\n")
}

/// A line, cut where it is long.
fn shortened(line: &str) -> String {
    const MOST: usize = 2_000;
    match line.char_indices().nth(MOST) {
        Some((end, _)) => format!("{}... ({} bytes)", &line[..end], line.len()),
        None => line.to_string(),
    }
}

#[cfg(test)]
mod tests {
    use super::*;
    use crate::asking::Engine;

    fn show(line: &str) -> String {
        let run = Run { seed: 7, count: 1, common: false, engine: Engine::Program("none".to_string()) };
        show_case(&run, &Asked { index: 0, line: line.as_bytes().to_vec() })
    }

    #[test]
    fn every_file_of_a_case_is_shown() {
        let files = "constraint\n  a\nsupply\n  b\nschedules\n  c\n";
        let of_a_study = format!("{files}curves\n  d\nparents\n  e\n");
        assert!(show("study - 61 62 63 64 65 0").ends_with(&of_a_study));
        assert!(show("preview - 61 62 63 64 65 11").ends_with(&of_a_study));
        assert!(show("check 61 62 63").ends_with(files));
        assert!(show("tidy 1 61 0").ends_with("tidy 1 61 0\nconstraint\n  a\n"));
        assert!(show("tidy 3 61 0").ends_with("tidy 3 61 0\nschedules\n  a\n"));
        assert!(show("release - 1").ends_with("release - 1\n"));
    }
}
