//! Cases on standard input, one a line; the engine's answers on standard output, one a line.

use std::io::{self, BufRead, BufWriter, Write};

fn main() -> io::Result<()> {
    let mut input = io::stdin().lock();
    let mut output = BufWriter::new(io::stdout().lock());
    let mut line = Vec::new();
    while input.read_until(b'\n', &mut line)? > 0 {
        let case = line.strip_suffix(b"\n").unwrap_or(&line);
        writeln!(output, "{}", capping_replay::answer(case))?;
        line.clear();
    }
    output.flush()
}
