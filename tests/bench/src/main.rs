//! The benchmark without a peer.

use std::process::ExitCode;

fn main() -> ExitCode {
    capping_bench::main(None)
}
