//! Changes one rule of the library at a time in a temporary copy, and shows that the answers to the samples differ.

mod host;
mod list;
mod packets;
mod pairs;

use std::fs;
use std::io;
use std::path::{Path, PathBuf};
use std::process::{Command, ExitCode, Stdio};

use list::Mutant;
use reference::generate;

fn main() -> ExitCode {
    match run() {
        Ok(report) => {
            println!("{}", report);
            ExitCode::SUCCESS
        }
        Err(report) => {
            println!("{}", report);
            ExitCode::FAILURE
        }
    }
}

/// What shows a change: a program of the package, what it reads, and the library's answers.
struct Samples {
    program: &'static str,
    input: PathBuf,
    expected: Vec<u8>,
}

/// In reference/, or whatever folder the package is in.
fn run() -> Result<String, String> {
    let package = std::env::var("CARGO_MANIFEST_DIR").unwrap_or_else(|_| ".".to_string());
    let package = Path::new(&package);
    let chosen = chosen(std::env::args().skip(1).collect())?;
    let place = package.join("../target/reference/mutants");
    let copy = place.join("copy");
    let _ = fs::remove_dir_all(&copy);
    let failed = |error: io::Error| format!("mutants: {}", error);
    fs::create_dir_all(&copy).map_err(failed)?;
    copy_all(&package.join("src"), &copy.join("src")).map_err(failed)?;
    for name in ["Cargo.toml", "Cargo.lock"] {
        fs::copy(package.join(name), copy.join(name)).map_err(failed)?;
    }
    // What makes samples is not built again each time.
    let library = fs::read_to_string(copy.join("src/lib.rs")).map_err(failed)?;
    let library = library.replace("pub mod generate;\n", "").replace("pub mod tally;\n", "");
    fs::write(copy.join("src/lib.rs"), library).map_err(failed)?;
    let mut samples: Vec<Samples> = vec![];
    let mut alike = vec![];
    for mutant in &chosen {
        let program = if mutant.name.starts_with("host-") { "host_answer" } else { "answer" };
        if !samples.iter().any(|samples| samples.program == program) {
            samples.push(samples_of(package, &place, program)?);
        }
        let samples = samples.iter().find(|samples| samples.program == program).ok_or("no samples")?;
        let path = copy.join("src").join(mutant.file);
        let source = fs::read_to_string(&path).map_err(failed)?;
        if source.matches(mutant.from).count() != 1 {
            return Err(format!("mutants: {} has no single place in {}", mutant.name, mutant.file));
        }
        fs::write(&path, source.replacen(mutant.from, mutant.to, 1)).map_err(failed)?;
        let given = answers_of(&place, samples).map_err(|error| format!("{}: {}", mutant.name, error));
        fs::write(&path, &source).map_err(failed)?;
        let (given, ended) = given?;
        let differing = differing(&samples.expected, &given);
        println!("{:<42} {:>6} answers differ{}", mutant.name, differing, if ended { "" } else { ", and it failed" });
        if differing == 0 {
            alike.push(mutant.name);
        }
    }
    if alike.is_empty() {
        Ok(format!("{} mutants, all seen", chosen.len()))
    } else {
        Err(format!("{} mutants, not seen: {}", chosen.len(), alike.join(", ")))
    }
}

/// The stored samples of a program, fresh ones if none are stored. Without a change the copy answers as the library does.
fn samples_of(package: &Path, place: &Path, program: &'static str) -> Result<Samples, String> {
    let (stored, fresh): (_, fn() -> Vec<u8>) = match program {
        "host_answer" => ("../host/samples/calls", || generate::host::stored_calls(generate::host::STORED_SEED)),
        _ => ("../crates/cases/stdin", || generate::script(generate::STORED_SEED, generate::STORED_COUNT)),
    };
    let bytes = fs::read(package.join(stored)).unwrap_or_else(|_| fresh());
    let expected = match program {
        "host_answer" => reference::host::answers(&bytes),
        _ => reference::script::answers(&bytes),
    };
    let samples = Samples { program, input: place.join(program), expected };
    fs::write(&samples.input, &bytes).map_err(|error| format!("mutants: {}", error))?;
    let (unchanged, _) = answers_of(place, &samples)?;
    if unchanged != samples.expected {
        return Err("mutants: the copy itself answers otherwise".to_string());
    }
    Ok(samples)
}

fn mutants() -> impl Iterator<Item = &'static Mutant> {
    list::MUTANTS.iter().chain(packets::MUTANTS).chain(pairs::MUTANTS).chain(host::MUTANTS)
}

/// All, or those whose names begin with one of the words.
fn chosen(words: Vec<String>) -> Result<Vec<&'static Mutant>, String> {
    if let Some(word) = words.iter().find(|word| !mutants().any(|mutant| mutant.name.starts_with(word.as_str()))) {
        return Err(format!("mutants: none begins with {}", word));
    }
    let begins = |mutant: &&Mutant| words.iter().any(|word| mutant.name.starts_with(word.as_str()));
    Ok(mutants().filter(|mutant| words.is_empty() || begins(mutant)).collect())
}

fn copy_all(from: &Path, to: &Path) -> io::Result<()> {
    fs::create_dir_all(to)?;
    for entry in fs::read_dir(from)? {
        let entry = entry?;
        let (source, target) = (entry.path(), to.join(entry.file_name()));
        if source.is_dir() {
            copy_all(&source, &target)?;
        } else {
            fs::copy(&source, &target)?;
        }
    }
    Ok(())
}

/// Builds the copy and answers the samples; false if the program failed.
fn answers_of(place: &Path, samples: &Samples) -> Result<(Vec<u8>, bool), String> {
    let failed = |error: io::Error| error.to_string();
    let built = Command::new(std::env::var("CARGO").unwrap_or_else(|_| "cargo".to_string()))
        .args(["build", "--quiet", "--offline", "--bin", samples.program, "--manifest-path"])
        .arg(place.join("copy/Cargo.toml"))
        .arg("--target-dir")
        .arg(place.join("build"))
        .env("CARGO_PROFILE_DEV_OVERFLOW_CHECKS", "false")
        .env("CARGO_PROFILE_DEV_DEBUG_ASSERTIONS", "false")
        .env("RUSTFLAGS", "-A warnings")
        .status()
        .map_err(failed)?;
    if !built.success() {
        return Err("does not build".to_string());
    }
    let output = Command::new(place.join("build/debug").join(samples.program))
        .stdin(fs::File::open(&samples.input).map_err(failed)?)
        .stderr(Stdio::null())
        .output()
        .map_err(failed)?;
    Ok((output.stdout, output.status.success()))
}

/// How many lines are not alike; missing and surplus ones count.
fn differing(expected: &[u8], given: &[u8]) -> usize {
    let lines = |answers: &[u8]| answers.split(|&byte| byte == 10).map(<[u8]>::to_vec).collect::<Vec<_>>();
    let (expected, given) = (lines(expected), lines(given));
    let alike = expected.iter().zip(&given).filter(|(expected, given)| expected == given).count();
    expected.len().max(given.len()) - alike
}

#[cfg(test)]
mod tests {
    use super::mutants;
    use std::collections::BTreeSet;
    use std::fs::read_to_string;

    /// Each change has its place, and README.md lists it.
    #[test]
    fn mutants_are_current() {
        let readme = read_to_string("README.md").unwrap();
        let names: BTreeSet<_> = mutants().map(|mutant| mutant.name).collect();
        assert_eq!(names.len(), mutants().count());
        for mutant in mutants() {
            let source = read_to_string(["src/", mutant.file].concat()).unwrap();
            assert_eq!(source.matches(mutant.from).count(), 1, "{}", mutant.name);
            assert_ne!(mutant.from, mutant.to);
            assert!(readme.contains(&format!("| {} |", mutant.name)), "README.md lacks {}", mutant.name);
        }
    }
}
