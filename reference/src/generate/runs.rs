//! Stored runs of the operator's command. Kernels and lines were typed by hand; what is printed is the command's.

use std::fs;
use std::path::Path;

use crate::command::{self, Run};

/// A run in a folder's `data/`, with the words of `args` and the lines of `stdin`. The folder is that of a program of `crates/`, or
/// one of `command/runs`.
pub struct StoredRun {
    /// From the repository's root.
    pub folder: &'static str,
    /// Whose copies the files of `data/` are, from the repository's root.
    pub data: &'static [&'static str],
    /// Whose copy `stdin` is, if it is one.
    pub input: Option<&'static str>,
}

const LAST_YEAR: &str = "samples/last-year.tsc";
const THIS_YEAR: &str = "samples/this-year.tsc";
const GALILEO: &str = "reference/tests/kernels/galileo.tsc";

#[rustfmt::skip]
pub const RUNS: &[StoredRun] = &[
    StoredRun { folder: "crates/sclk_time", data: &[THIS_YEAR], input: None },
    StoredRun { folder: "command/runs/messages", data: &["reference/tests/kernels/offsets.tsc"], input: None },
    StoredRun { folder: "crates/sclk_stamp", data: &[THIS_YEAR], input: None },
    StoredRun { folder: "crates/sclk_count", data: &[THIS_YEAR], input: None },
    StoredRun { folder: "crates/sclk_describe", data: &[GALILEO], input: None },
    StoredRun { folder: "crates/sclk_compare", data: &[LAST_YEAR, THIS_YEAR], input: Some("samples/stamps.txt") },
    StoredRun { folder: "command/runs/exchanged", data: &[LAST_YEAR, THIS_YEAR], input: None },
    StoredRun { folder: "command/runs/galileo", data: &["reference/tests/kernels/galileo_cut.tsc", GALILEO], input: None },
    StoredRun { folder: "command/runs/table_a", data: &["reference/tests/kernels/table_a_cut.tsc", "reference/tests/kernels/table_a.tsc"], input: None },
];

/// What the command prints on the samples, in `samples/answers`: the words, and the file of standard input.
pub const SAMPLES: &[(&str, &str, &str)] = &[
    ("time", "time this-year.tsc -731", "stamps.txt"),
    ("messages", "time --hex --seconds this-year.tsc -731", "messages.txt"),
    ("describe", "describe --seconds this-year.tsc -731", ""),
    ("compare", "compare last-year.tsc this-year.tsc -731", "stamps.txt"),
];

impl StoredRun {
    /// The words of `args`, one to a line.
    pub fn words(&self, root: &Path) -> Result<Vec<String>, String> {
        let args = read(&root.join(self.folder).join("args"))?;
        Ok(String::from_utf8_lossy(&args).lines().map(str::to_string).collect())
    }

    /// Copies what is a copy, and makes `stdout` again.
    pub fn write(&self, root: &Path) -> Result<(), String> {
        let folder = root.join(self.folder);
        let data = folder.join("data");
        fs::create_dir_all(&data).map_err(|error| format!("{}: {}", data.display(), error))?;
        for source in self.data {
            let name = Path::new(source).file_name().ok_or("no file name")?;
            write(&data.join(name), &read(&root.join(source))?)?;
        }
        if let Some(source) = self.input {
            write(&folder.join("stdin"), &read(&root.join(source))?)?;
        }
        let input = read(&folder.join("stdin")).unwrap_or_default();
        let words = self.words(root)?;
        let words: Vec<&str> = words.iter().map(String::as_str).collect();
        write(&folder.join("stdout"), &run_in(&data, &words, &input).output)
    }
}

/// Makes the answers to the samples again.
pub fn write_samples(root: &Path) -> Result<(), String> {
    let samples = root.join("samples");
    let answers = samples.join("answers");
    fs::create_dir_all(&answers).map_err(|error| format!("{}: {}", answers.display(), error))?;
    for (name, words, input) in SAMPLES {
        let input = if input.is_empty() { vec![] } else { read(&samples.join(input))? };
        let words: Vec<&str> = words.split(' ').collect();
        write(&answers.join(name), &run_in(&samples, &words, &input).output)?;
    }
    Ok(())
}

/// The command, as if it were run in this folder.
fn run_in(folder: &Path, words: &[&str], input: &[u8]) -> Run {
    let words: Vec<Vec<u8>> = words.iter().map(|word| word.as_bytes().to_vec()).collect();
    let file = |path: &[u8]| read(&folder.join(String::from_utf8_lossy(path).as_ref()));
    command::run(&words, file, || Ok(input.to_vec()))
}

fn read(path: &Path) -> Result<Vec<u8>, String> {
    fs::read(path).map_err(|error| format!("{}: {}", path.display(), error))
}

fn write(path: &Path, bytes: &[u8]) -> Result<(), String> {
    fs::write(path, bytes).map_err(|error| format!("{}: {}", path.display(), error))
}
