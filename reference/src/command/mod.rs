//! The operator's command `sclk`: kernels, stamps, messages and numbers in, lines of fields out. README.md says what it prints.

mod compare;
mod describe;
mod kernel;
mod lines;
mod put;
mod usage;

use std::fs::File;
use std::io::Read;

use crate::{print_stamp, Refusal};
use kernel::Kernel;
use usage::{Job, Words};

/// The largest kernel that is read: 4 MiB.
pub const LARGEST_FILE: usize = 4_194_304;

/// What a run writes, and the status it ends with.
#[derive(Debug, PartialEq, Eq)]
pub struct Run {
    pub output: Vec<u8>,
    pub errors: Vec<u8>,
    pub status: u8,
}

/// All that can be said of a file or of standard input that cannot be read.
pub type Contents = Result<Vec<u8>, String>;

/// Runs the command with the words behind its name. Files are read by the first function, standard input, if it is asked for,
/// by the second.
pub fn run(words: &[Vec<u8>], file: impl Fn(&[u8]) -> Contents, input: impl FnOnce() -> Contents) -> Run {
    let (job, hex, seconds, kernels, clock) = match usage::read(words) {
        Words::Help => return Run { output: usage::help().into_bytes(), errors: vec![], status: 0 },
        Words::Wrong => return Run { output: vec![], errors: usage::USAGE.as_bytes().to_vec(), status: 2 },
        Words::Asked { job, hex, seconds, kernels, clock } => (job, hex, seconds, kernels, clock),
    };
    let mut read = vec![];
    for path in kernels {
        match kernel(path, clock, &file) {
            Ok(kernel) => read.push(kernel),
            Err(ended) => return ended,
        }
    }
    let mut output = String::new();
    if job == Job::Describe {
        describe::put(&mut output, &read[0], clock, seconds);
        return Run { output: output.into_bytes(), errors: vec![], status: 0 };
    }
    if job == Job::Compare {
        compare::put_tables(&mut output, &read[0], &read[1]);
    }
    let input = match input() {
        Ok(input) => input,
        Err(why) => return ended(4, format!("standard input: {}", why).as_bytes()),
    };
    let mut good = true;
    for line in lines::of(&input) {
        good &= match job {
            Job::Time => put_answer(&mut output, timed(&read[0], line, seconds, hex)),
            Job::Stamp => put_answer(&mut output, lines::count(line).and_then(|e| stamp(&read[0], e))),
            Job::Count => {
                let t = if seconds { lines::seconds(line) } else { lines::nanoseconds(line) };
                put_answer(&mut output, t.and_then(|t| read[0].count_at(t)).map(|e| e.to_string()))
            }
            Job::Compare => compare::put_line(&mut output, &read[0], &read[1], line, seconds, hex),
            Job::Describe => unreachable!("describe reads no standard input"),
        };
    }
    Run { output: output.into_bytes(), errors: vec![], status: u8::from(!good) }
}

/// A line on standard error, nothing on standard output.
fn ended(status: u8, why: &[u8]) -> Run {
    Run { output: vec![], errors: [b"sclk: ", why, b"\n"].concat(), status }
}

/// "3 a kernel is refused"; "4 a file that cannot be read".
fn kernel(path: &[u8], clock: i64, file: &impl Fn(&[u8]) -> Contents) -> Result<Kernel, Run> {
    let ended = |status, why: &str| ended(status, &[path, b": ", why.as_bytes()].concat());
    let text = file(path).map_err(|why| ended(4, &why))?;
    if text.len() > LARGEST_FILE {
        return Err(ended(4, "larger than 4 MiB"));
    }
    Kernel::read(&text, clock).map_err(|refusal| ended(3, &put::refused(refusal)))
}

/// One line: the answer, or the refusal. False where it is refused.
fn put_answer(output: &mut String, answer: Result<String, Refusal>) -> bool {
    let answered = answer.is_ok();
    *output += &answer.unwrap_or_else(put::refused);
    output.push('\n');
    answered
}

/// "`E` `T` `STAMP` (the stamp that E prints as)".
fn timed(kernel: &Kernel, line: &[u8], seconds: bool, hex: bool) -> Result<String, Refusal> {
    let (e, t) = kernel.timed(line, hex)?;
    Ok(format!("{}\t{}\t{}", e, put::time(t.into(), seconds), stamp(kernel, e)?))
}

/// "12 where it is above the total, else its stamp".
fn stamp(kernel: &Kernel, e: u64) -> Result<String, Refusal> {
    // No stamp is longer than 66 bytes.
    let mut lent = [0; 96];
    let length = print_stamp(&kernel.tables.layout, kernel.tables.partitions(), e, &mut lent)?;
    Ok(String::from_utf8_lossy(&lent[..length]).into_owned())
}

/// A file's bytes, of a large one no more than show that it is too large.
pub fn read_file(path: &[u8]) -> Contents {
    // A name that is not UTF-8 is a file that cannot be read.
    let path = std::str::from_utf8(path).map_err(|_| "invalid filename".to_string())?;
    let file = File::open(path).map_err(|error| error.to_string())?;
    let mut bytes = vec![];
    file.take(LARGEST_FILE as u64 + 1).read_to_end(&mut bytes).map_err(|error| error.to_string())?;
    Ok(bytes)
}
