//! Writes a seeded script and the answers it expects, and says on standard error what the script brings up. Without a seed it
//! writes what is stored: the script, a host's calls with their answers, and what the operator's command prints.

use std::path::Path;
use std::process::ExitCode;

use reference::generate::{host, runs, script, STORED_COUNT, STORED_SEED};
use reference::{script::answers, tally::tally};

const USAGE: &str = "generate [SEED COUNT] [--script PATH] [--answers PATH]";

fn main() -> ExitCode {
    match run() {
        Ok(()) => ExitCode::SUCCESS,
        Err(error) => {
            eprintln!("generate: {}", error);
            ExitCode::FAILURE
        }
    }
}

fn run() -> Result<(), String> {
    let mut script_path = "../crates/cases/stdin".to_string();
    let mut answers_path = "../crates/cases/stdout".to_string();
    let mut numbers = vec![];
    let mut words = std::env::args().skip(1);
    while let Some(word) = words.next() {
        match word.as_str() {
            "--script" => script_path = words.next().ok_or(USAGE)?,
            "--answers" => answers_path = words.next().ok_or(USAGE)?,
            _ => numbers.push(word.parse::<u64>().map_err(|_| USAGE)?),
        }
    }
    let (seed, count) = match numbers[..] {
        [] => (STORED_SEED, STORED_COUNT),
        [seed, count] => (seed, count),
        _ => return Err(USAGE.to_string()),
    };
    if numbers.is_empty() {
        write_calls()?;
        write_runs()?;
    }
    let script = script(seed, count);
    let answers = answers(&script);
    write(&script_path, &script)?;
    write(&answers_path, &answers)?;
    let tally = tally(&script);
    for (outcome, times) in &tally.outcomes {
        eprintln!("{:>8} {}", times, outcome);
    }
    for (rule, times) in &tally.rules {
        eprintln!("{:>8} rule {}", times, rule);
    }
    for (label, times) in &tally.places {
        eprintln!("{:>8} place {}", times, label);
    }
    for (show, times) in &tally.counters {
        eprintln!("{:>8} shows {}", times, show);
    }
    eprintln!("{:>8} questions, {} answered, {} bad lines", tally.questions, tally.answered, tally.bad_lines);
    eprintln!("{:>8} kernel texts, {} answered", tally.kernels, tally.kernels_answered);
    eprintln!("{:>8} of raw counters and microseconds, {} answered", tally.raws, tally.raws_answered);
    eprintln!("{:>8} of packets, {} answered", tally.packets, tally.packets_answered);
    eprintln!("{:>8} of two tables, {} answered", tally.pairs, tally.pairs_answered);
    for unexpected in &tally.unexpected {
        eprintln!("unexpected {}", unexpected);
    }
    eprintln!("{:>8} bytes of script, {} bytes of answers", script.len(), answers.len());
    Ok(())
}

fn write(path: &str, bytes: &[u8]) -> Result<(), String> {
    std::fs::write(path, bytes).map_err(|error| format!("{}: {}", path, error))
}

/// The host's calls and their answers.
fn write_calls() -> Result<(), String> {
    const FOLDER: &str = "../host/samples";
    std::fs::create_dir_all(FOLDER).map_err(|error| format!("{}: {}", FOLDER, error))?;
    let calls = host::stored_calls(host::STORED_SEED);
    let answers = reference::host::answers(&calls);
    write(&[FOLDER, "/calls"].concat(), &calls)?;
    write(&[FOLDER, "/answers"].concat(), &answers)?;
    let lines = answers.iter().filter(|&&byte| byte == 10).count();
    eprintln!("{:>8} calls of a host, {} bytes, {} bytes of answers", lines, calls.len(), answers.len());
    Ok(())
}

/// What the operator's command prints on its stored runs and on the samples.
fn write_runs() -> Result<(), String> {
    let root = Path::new("..");
    for run in runs::RUNS {
        run.write(root)?;
    }
    runs::write_samples(root)?;
    eprintln!("{:>8} runs of the command, {} on the samples", runs::RUNS.len(), runs::SAMPLES.len());
    Ok(())
}
