//! What the proved programs are held to is what this library answers.

use reference::generate::runs::{RUNS, SAMPLES};
use reference::script::answers;
use reference::stamp_program;
use std::collections::BTreeSet;
use std::fs::{read, File};
use std::path::Path;
use std::process::{Command, Stdio};

fn stored(program: &str, name: &str) -> Vec<u8> {
    stored_in(&["crates/", program].concat(), name)
}

fn stored_in(folder: &str, name: &str) -> Vec<u8> {
    read(["../", folder, "/", name].concat()).unwrap()
}

#[test]
fn stamps() {
    for program in ["stamp", "stamp_edges", "stamp_buffers", "stamp_last"] {
        assert!(stored(program, "stdout") == stamp_program(&stored(program, "stdin")), "{}", program);
    }
}

/// The script and its answers are typed from document 01.
#[test]
fn examples() {
    assert!(stored("examples", "stdout") == answers(&stored("examples", "stdin")));
}

#[test]
fn checksums() {
    let words = [("bench", None), ("bench_host", Some("host")), ("bench_dump", Some("packets")), ("bench_tables", Some("tables"))];
    for (program, word) in words {
        let bench = Command::new(env!("CARGO_BIN_EXE_bench")).args(word).output().unwrap();
        assert!(bench.status.success());
        assert!(stored(program, "stdout") == bench.stdout, "{}", program);
    }
}

/// Two tables: each answer is the same over and over, yes or a total. The older's partitions are 4,999 or 9,999 of 314,603 ticks.
#[test]
fn checksums_of_two_tables() {
    let sum = |answer: u64| (0..100).fold(0, |sum, _| (sum * 31 + answer % 1_000_000_007) % 1_000_000_007);
    let lines = [("longer", 4_999), ("equal", 9_999)].map(|(name, partitions)| {
        let (yes, total) = (sum(1), sum(partitions * 314_603));
        format!("succeeds-{} 100 {}\nhorizon-{} 100 {}\n", name, yes, name, total)
    });
    let bench = Command::new(env!("CARGO_BIN_EXE_bench")).arg("tables").output().unwrap();
    assert_eq!(String::from_utf8(bench.stdout).unwrap(), lines.concat());
}

/// The operator's command, run in a folder: what it prints, and its status.
fn sclk(folder: &str, words: &[String], input: Stdio) -> (Vec<u8>, i32) {
    let run = Command::new(env!("CARGO_BIN_EXE_sclk")).args(words).current_dir(folder).stdin(input).output().unwrap();
    assert_eq!(run.stderr, b"");
    (run.stdout, run.status.code().unwrap())
}

/// `cargo run --release --bin generate` makes what is stored again.
#[test]
fn runs_of_the_command() {
    for run in RUNS {
        let folder = format!("../{}", run.folder);
        for source in run.data {
            let name = Path::new(source).file_name().unwrap().to_str().unwrap();
            assert!(
                stored_in(run.folder, &format!("data/{}", name)) == read(format!("../{}", source)).unwrap(),
                "{}",
                source
            );
        }
        if let Some(source) = run.input {
            assert!(stored_in(run.folder, "stdin") == read(format!("../{}", source)).unwrap(), "{}", source);
        }
        let input = File::open(format!("{}/stdin", folder)).map_or(Stdio::null(), Stdio::from);
        let (printed, status) = sclk(&format!("{}/data", folder), &run.words(Path::new("..")).unwrap(), input);
        assert!(stored_in(run.folder, "stdout") == printed, "{}", run.folder);
        // Each of the others has lines that are refused.
        assert_eq!(status, i32::from(run.folder != "crates/sclk_describe"), "{}", run.folder);
    }
}

#[test]
fn samples_of_the_command() {
    for (name, words, input) in SAMPLES {
        let words: Vec<String> = words.split(' ').map(str::to_string).collect();
        let input =
            if input.is_empty() { Stdio::null() } else { File::open(format!("../samples/{}", input)).unwrap().into() };
        let (printed, _) = sclk("../samples", &words, input);
        assert!(read(format!("../samples/answers/{}", name)).unwrap() == printed, "{}", name);
    }
}

/// Each verdict and each refusal that a line can have, with and without a place; lines that end in 13 and 10, empty ones, a last
/// one without byte 10.
#[test]
fn what_the_runs_show() {
    let outcomes = |folder: &str| -> BTreeSet<String> {
        let output = String::from_utf8(stored_in(folder, "stdout")).unwrap();
        let outcome = |line: &str| {
            let fields: Vec<&str> = line.split('\t').collect();
            match fields[..] {
                ["refused", older, _, _, newer, ..] => format!("refused {} {}", older, newer),
                ["refused", number, ..] => format!("refused {}", number),
                ["same", "refused", number, ..] => format!("same refused {}", number),
                ["older refuses" | "newer refuses", number, ..] => format!("{} {}", fields[0], number),
                ["same" | "differ" | "succeeds" | "horizon", ..] => fields[0].to_string(),
                _ => "answered".to_string(),
            }
        };
        output.lines().map(outcome).collect()
    };
    let shows = |folder: &str, list: &str| {
        let expected: BTreeSet<String> = list.split(", ").map(str::to_string).collect();
        assert_eq!(outcomes(folder), expected, "{}", folder);
        let input = stored_in(folder, "stdin");
        let lines: Vec<&[u8]> = input.split(|&byte| byte == 10).collect();
        if folder != "crates/sclk_compare" {
            assert!(lines.iter().any(|line| line.ends_with(b"\r")) && lines.contains(&&b""[..]), "{}", folder);
            assert!(input.last() != Some(&10), "{}", folder);
        }
    };
    shows(
        "crates/sclk_time",
        "answered, refused 4, refused 5, refused 6, refused 7, refused 9, refused 10, refused 11, refused 13",
    );
    shows(
        "command/runs/messages",
        "answered, refused 4, refused 5, refused 6, refused 7, refused 8, refused 9, refused 10, refused 11, refused 13, \
         refused 21, refused 22, refused 23",
    );
    shows("crates/sclk_stamp", "answered, refused 4, refused 5, refused 6, refused 12");
    shows("crates/sclk_count", "answered, refused 4, refused 5, refused 6, refused 13, refused 14, refused 20");
    shows(
        "crates/sclk_compare",
        "succeeds, horizon, same, same refused 5, same refused 13, older refuses 10, older refuses 11, refused 10 11",
    );
    shows(
        "command/runs/exchanged",
        "succeeds, horizon, same, same refused 4, same refused 5, same refused 6, same refused 7, same refused 9, \
         same refused 10, same refused 11, same refused 13, same refused 21, same refused 22, same refused 23, \
         newer refuses 10, newer refuses 11, refused 11 10",
    );
    shows(
        "command/runs/galileo",
        "succeeds, horizon, same, differ, same refused 5, same refused 6, same refused 7, same refused 10, same refused 11",
    );
    shows(
        "command/runs/table_a",
        "succeeds, horizon, same, same refused 4, same refused 5, same refused 6, same refused 7, same refused 9, \
         same refused 10, same refused 11, older refuses 10, older refuses 11, refused 10 11",
    );
    assert!(stored("sclk_describe", "stdout").ends_with(b"segments\t35\ngaps\t24\nsteps back\t10\n"));
}
