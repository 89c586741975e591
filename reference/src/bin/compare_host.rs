//! Makes a host program make fresh random calls and compares its answers with the library's.

use std::io::{self, BufRead, BufReader, Write};
use std::process::{Command, ExitCode, Stdio};
use std::sync::mpsc::{channel, Receiver, Sender};

use reference::generate::host::Calls;
use reference::host::{put_answer, put_call};
use reference::tally::HostTally;

const USAGE: &str =
    "compare_host --program PATH [--seed S] [--calls N] [-- WORDS], or compare_host --show K [--seed S]";
/// Bytes written at once.
const BATCH: usize = 1 << 18;
/// From so many calls on each possible refusal of each call must come up.
const MANY: u64 = 200_000;

fn main() -> ExitCode {
    match run() {
        Ok(report) => {
            println!("{}", report);
            ExitCode::SUCCESS
        }
        Err(report) => {
            println!("{}", report);
            ExitCode::FAILURE
        }
    }
}

fn run() -> Result<String, String> {
    let (mut program, mut seed, mut calls, mut shown) = (None, 1, MANY, None);
    let mut words = std::env::args().skip(1);
    while let Some(word) = words.next() {
        if word == "--" {
            break;
        }
        let value = words.next().ok_or(USAGE)?;
        let number = value.parse::<u64>().map_err(|_| USAGE);
        match word.as_str() {
            "--program" => program = Some(value),
            "--seed" => seed = number?,
            "--calls" => calls = number?,
            "--show" => shown = Some(number?),
            _ => return Err(USAGE.to_string()),
        }
    }
    if let Some(number) = shown {
        return Ok(call_of(seed, number));
    }
    let program = program.ok_or(USAGE)?;
    let tally = compare(&program, words.collect(), seed, calls)?;
    let missing = tally.under(1);
    if calls >= MANY && !missing.is_empty() {
        return Err(format!("no call of some kind: {}", missing.join(", ")));
    }
    Ok(format!("{}; seed {}, no difference", tally.summary(), seed))
}

/// The program's answers are read while calls are written to it; only the library's answers wait, so a program that reads all
/// calls first is good too.
fn compare(program: &str, words: Vec<String>, seed: u64, calls: u64) -> Result<HostTally, String> {
    let failed = |error: io::Error| format!("{}: {}", program, error);
    let mut child =
        Command::new(program).args(words).stdin(Stdio::piped()).stdout(Stdio::piped()).spawn().map_err(failed)?;
    let input = child.stdin.take().ok_or("no input")?;
    let output = BufReader::with_capacity(1 << 16, child.stdout.take().ok_or("no output")?);
    std::thread::scope(|scope| {
        let (sender, receiver) = channel();
        let writer = scope.spawn(move || write(input, sender, seed, calls));
        let compared = read(output, receiver, seed);
        // After a difference the program gets no more calls.
        if compared.is_err() {
            let _ = child.kill();
        }
        let status = child.wait().map_err(failed)?;
        let tally = writer.join().map_err(|_| "the library failed")?;
        compared?;
        if !status.success() {
            return Err(format!("{}: all answers are right, but it ended with {}", program, status));
        }
        Ok(tally)
    })
}

/// Writes the calls, and sends the answers that they must have.
fn write(mut input: impl Write, sender: Sender<Vec<u8>>, seed: u64, calls: u64) -> HostTally {
    let mut tally = HostTally::default();
    let (mut lines, mut answers) = (vec![], vec![]);
    for (left, mut call) in (0..calls).rev().zip(Calls::new(seed)) {
        put_call(&mut lines, &call);
        let came_back = call.make();
        put_answer(&mut answers, came_back, &call);
        tally.note(call.name, came_back);
        if lines.len() > BATCH || left == 0 {
            // A program that stops reading is found by its answers.
            if sender.send(std::mem::take(&mut answers)).is_err() || input.write_all(&lines).is_err() {
                break;
            }
            lines.clear();
        }
    }
    tally
}

/// Compares the program's answers with those that it must give.
fn read(mut output: impl BufRead, receiver: Receiver<Vec<u8>>, seed: u64) -> Result<(), String> {
    let (mut number, mut line) = (0, vec![]);
    for answers in receiver {
        for expected in answers.split_inclusive(|&byte| byte == 10) {
            number += 1;
            line.clear();
            output.read_until(10, &mut line).map_err(|error| error.to_string())?;
            if line != expected {
                return Err(difference(seed, number, expected, &line));
            }
        }
    }
    line.clear();
    output.read_until(10, &mut line).map_err(|error| error.to_string())?;
    if line.is_empty() {
        Ok(())
    } else {
        Err(format!("one answer too many after {} calls: {}", number, String::from_utf8_lossy(&line)))
    }
}

fn difference(seed: u64, number: u64, expected: &[u8], given: &[u8]) -> String {
    let call = call_of(seed, number);
    let given = match given {
        [] => "no answer".to_string(),
        [line @ .., 10] => shortened(&String::from_utf8_lossy(line)),
        _ => shortened(&String::from_utf8_lossy(given)) + ", without byte 10",
    };
    let expected = String::from_utf8_lossy(expected);
    format!(
        "{}\n# call {} of seed {} (whole: --show {} --seed {})\n# the library: {}\n# the program: {}",
        shortened(&call),
        number,
        seed,
        number,
        seed,
        shortened(expected.trim_end()),
        given,
    )
}

/// The so-many-eth call, from 1.
fn call_of(seed: u64, number: u64) -> String {
    let call = Calls::new(seed).nth(number.saturating_sub(1) as usize).expect("calls do not end");
    let mut line = vec![];
    put_call(&mut line, &call);
    line.pop();
    String::from_utf8_lossy(&line).into_owned()
}

/// Long words by their front, their end and their length.
fn shortened(line: &str) -> String {
    let word = |word: &str| match word.len() {
        0..=400 => word.to_string(),
        len => {
            let word: Vec<char> = word.chars().collect();
            let part = |part: &[char]| part.iter().collect::<String>();
            format!("{}..{}({}_digits)", part(&word[..32]), part(&word[word.len() - 32..]), len)
        }
    };
    line.split(' ').map(word).collect::<Vec<_>>().join(" ")
}
