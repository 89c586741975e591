//! The operator's command.

use std::io::{self, Read, Write};
use std::os::unix::ffi::OsStringExt;
use std::process::ExitCode;

use reference::command::{self, Contents};

fn main() -> ExitCode {
    let words: Vec<Vec<u8>> = std::env::args_os().skip(1).map(OsStringExt::into_vec).collect();
    let run = command::run(&words, command::read_file, input);
    let mut output = io::stdout().lock();
    if let Err(error) = output.write_all(&run.output).and_then(|()| output.flush()) {
        let _ = writeln!(io::stderr(), "sclk: standard output: {}", error);
        return ExitCode::from(4);
    }
    let _ = io::stderr().write_all(&run.errors);
    ExitCode::from(run.status)
}

fn input() -> Contents {
    let mut bytes = vec![];
    io::stdin().read_to_end(&mut bytes).map_err(|error| error.to_string())?;
    Ok(bytes)
}
