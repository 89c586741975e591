//! Reads a host's calls on standard input, one a line, and writes the answers to standard output.

use std::io::{self, BufReader};
use std::process::ExitCode;

fn main() -> ExitCode {
    let input = BufReader::with_capacity(1 << 16, io::stdin());
    match reference::host::run(input, io::stdout().lock()) {
        Ok(()) => ExitCode::SUCCESS,
        Err(error) => {
            eprintln!("host_answer: {}", error);
            ExitCode::FAILURE
        }
    }
}
