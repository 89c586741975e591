//! Asks a program that speaks the script protocol fresh random questions and compares its answers with the library's.

use std::io::{Read, Write};
use std::process::{Command, ExitCode, Stdio};

use reference::generate::{fresh, fresh_kernels, fresh_packets, fresh_pairs, fresh_raw, put_counter, put_tables};
use reference::random::Random;
use reference::script::{answers, parse, Line, Question, Session, MOST_KERNEL};

const USAGE: &str = "compare --program PATH --seed S --questions N [--only kernel|raw|packet|tables]";
/// Questions asked of one run of the program.
const CHUNK: u64 = 25_000;
/// Kernel texts and pieces of dumps are longer.
const LONG: u64 = 10_000;

fn main() -> ExitCode {
    match run() {
        Ok(compared) => {
            println!("{} answers compared, no difference", compared);
            ExitCode::SUCCESS
        }
        Err(report) => {
            println!("{}", report);
            ExitCode::FAILURE
        }
    }
}

fn run() -> Result<u64, String> {
    let (mut program, mut seed, mut questions, mut only) = (None, None, None, String::new());
    let mut words = std::env::args().skip(1);
    while let Some(word) = words.next() {
        let value = words.next().ok_or(USAGE)?;
        match word.as_str() {
            "--program" => program = Some(value),
            "--seed" => seed = Some(value.parse::<u64>().map_err(|_| USAGE)?),
            "--questions" => questions = Some(value.parse::<u64>().map_err(|_| USAGE)?),
            "--only" if ["kernel", "raw", "packet", "tables"].contains(&value.as_str()) => only = value,
            _ => return Err(USAGE.to_string()),
        }
    }
    let (program, seed) = (program.ok_or(USAGE)?, seed.ok_or(USAGE)?);
    let mut left = questions.ok_or(USAGE)?;
    let mut seeds = Random::new(seed);
    let mut compared = 0;
    while left > 0 {
        let long = only == "kernel" || only == "packet";
        let (chunk_seed, asked) = (seeds.word(), left.min(if long { LONG } else { CHUNK }));
        let script = match only.as_str() {
            "kernel" => fresh_kernels(chunk_seed, asked),
            "raw" => fresh_raw(chunk_seed, asked),
            "packet" => fresh_packets(chunk_seed, asked),
            "tables" => fresh_pairs(chunk_seed, asked),
            _ => fresh(chunk_seed, asked),
        };
        let (expected, given) = ask(&program, &script)?;
        if expected != given {
            return Err(format!("chunk seed {}, {} questions\n{}", chunk_seed, asked, difference(&script, &given)));
        }
        compared += expected.iter().filter(|&&byte| byte == 10).count() as u64;
        left -= asked;
    }
    Ok(compared)
}

/// The library's answers and the program's.
fn ask(program: &str, script: &[u8]) -> Result<(Vec<u8>, Vec<u8>), String> {
    let failed = |error: std::io::Error| format!("{}: {}", program, error);
    let mut child = Command::new(program).stdin(Stdio::piped()).stdout(Stdio::piped()).spawn().map_err(failed)?;
    let mut input = child.stdin.take().ok_or("no input")?;
    let mut output = child.stdout.take().ok_or("no output")?;
    let (expected, given) = std::thread::scope(|scope| {
        // A program that stops reading is found by its answers.
        scope.spawn(move || input.write_all(script).ok());
        let expected = scope.spawn(|| answers(script));
        let mut given = vec![];
        let read = output.read_to_end(&mut given);
        (expected.join(), read.map(|_| given))
    });
    let status = child.wait().map_err(failed)?;
    let (expected, given) = (expected.map_err(|_| "the library failed")?, given.map_err(failed)?);
    if expected == given && !status.success() {
        return Err(format!("{}: all answers are right, but it ended with {}", program, status));
    }
    Ok((expected, given))
}

/// The first answer that differs, with its question and the tables and raw counter in force; for a question about two tables
/// also the older ones, for a walk also the walks since the last from an empty tail.
fn difference(script: &[u8], given: &[u8]) -> String {
    let mut session = Session::new();
    let mut given = given.split(|&byte| byte == 10);
    let mut answer = vec![];
    let mut buffer = [0; MOST_KERNEL];
    let mut walks: Vec<&[u8]> = vec![];
    for (number, line) in script.split(|&byte| byte == 10).enumerate() {
        answer.clear();
        let counter = session.counter;
        session.line(line, &mut answer);
        if answer.is_empty() {
            continue;
        }
        answer.pop();
        let other = given.next().unwrap_or(b"no answer");
        let (walk, pair) = match parse(line, &mut buffer) {
            Some(Line::Ask(Question::Walk { tail, .. })) => (Some(tail), false),
            Some(Line::Ask(Question::Succeeds | Question::Horizon)) => (None, true),
            _ => (None, false),
        };
        if walk == Some(0) {
            walks.clear();
        }
        if answer != other {
            let before = if walk.is_some() { walks.join(&10) } else { vec![] };
            let older = if pair {
                let older = put_tables(&session.older);
                [&older[..], b"older\npartitions\nsegments\n"].concat()
            } else {
                vec![]
            };
            return format!(
                "{}{}{}{}\n{}\n# line {} of the chunk\n# the library: {}\n# the program: {}",
                String::from_utf8_lossy(&older),
                String::from_utf8_lossy(&put_tables(&session.tables)),
                put_counter(counter),
                String::from_utf8_lossy(&before),
                String::from_utf8_lossy(line),
                number + 1,
                String::from_utf8_lossy(&answer),
                String::from_utf8_lossy(other),
            );
        }
        if walk.is_some() {
            walks.push(line);
        }
    }
    "the program answers more lines than were asked".to_string()
}
