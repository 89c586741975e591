//! Reads a case script on standard input and writes the answers to standard output.

use std::io::{self, BufReader};
use std::process::ExitCode;

fn main() -> ExitCode {
    let input = BufReader::with_capacity(1 << 16, io::stdin());
    match reference::script::run(input, io::stdout().lock()) {
        Ok(()) => ExitCode::SUCCESS,
        Err(error) => {
            eprintln!("answer: {}", error);
            ExitCode::FAILURE
        }
    }
}
