//! The words behind the command's name.

use crate::script;

#[derive(Clone, Copy, PartialEq)]
pub enum Job {
    Time,
    Stamp,
    Count,
    Describe,
    Compare,
}

pub enum Words<'a> {
    Help,
    Wrong,
    Asked { job: Job, hex: bool, seconds: bool, kernels: Vec<&'a [u8]>, clock: i64 },
}

/// Bytes of a word that is read. A longer one names no file, and is no clock's number.
const LONGEST_WORD: usize = 4_095;

pub const USAGE: &str = "usage: sclk time     [--hex] [--seconds] KERNEL CLOCK
       sclk stamp    KERNEL CLOCK
       sclk count    [--seconds] KERNEL CLOCK
       sclk describe [--seconds] KERNEL CLOCK
       sclk compare  [--hex] [--seconds] OLDER NEWER CLOCK
       sclk --help
";

pub fn help() -> String {
    [
        "Turns stamps, encoded counts and times of a spacecraft clock into each other, by its SCLK kernel.\n\n",
        USAGE,
        "
  time      each line of standard input is a stamp: its encoded count, its time, and the stamp as it is printed
  stamp     each line is an encoded count: its stamp
  count     each line is a time: its encoded count
  describe  the clock's tables, with the gaps and the steps back between their rows
  compare   whether NEWER succeeds OLDER, below which encoded count the two agree, then each line's stamp under both

  KERNEL    a file of kernel text, up to 4 MiB
  CLOCK     the clock's number, such as -77
  --hex     each line is a message in hex, two digits a byte
  --seconds times are decimal seconds, not nanoseconds

Each line has one line of output, its fields apart by tabs. A refusal is its number, its place or `-`, and a sentence.
Status: 0 every line was answered (compare: alike by both), 1 some line was not, 2 wrong usage, 3 a kernel is refused,
4 a file, standard input or standard output failed.
",
    ]
    .concat()
}

/// "The command word comes first; words that begin with `--` are options and may stand anywhere behind it, each at most once;
/// the other words are KERNEL (or OLDER NEWER) and CLOCK, in this order. Anything else is wrong usage".
pub fn read(words: &[Vec<u8>]) -> Words<'_> {
    if words.first().map_or(false, |word| word == b"--help") {
        return Words::Help;
    }
    let job = match words.first().map(|word| &word[..]) {
        Some(b"time") => Job::Time,
        Some(b"stamp") => Job::Stamp,
        Some(b"count") => Job::Count,
        Some(b"describe") => Job::Describe,
        Some(b"compare") => Job::Compare,
        _ => return Words::Wrong,
    };
    if words.iter().any(|word| word == b"--help") {
        return Words::Help;
    }
    asked(job, &words[1..]).unwrap_or(Words::Wrong)
}

fn asked(job: Job, words: &[Vec<u8>]) -> Option<Words<'_>> {
    let (options, others): (Vec<&[u8]>, Vec<&[u8]>) =
        words.iter().map(|word| &word[..]).partition(|word| word.starts_with(b"--"));
    let allowed: &[&[u8]] = match job {
        Job::Time | Job::Compare => &[b"--hex", b"--seconds"],
        Job::Count | Job::Describe => &[b"--seconds"],
        Job::Stamp => &[],
    };
    let times = |option: &[u8]| options.iter().filter(|&&other| other == option).count();
    if options.iter().any(|option| !allowed.contains(option) || times(option) > 1) {
        return None;
    }
    let (clock, kernels) = others.split_last()?;
    if kernels.len() != if job == Job::Compare { 2 } else { 1 } {
        return None;
    }
    // "a decimal number with `-` in front of a negative one, in 64 bits".
    if clock.len() > LONGEST_WORD {
        return None;
    }
    let clock = script::time(clock)?;
    Some(Words::Asked {
        job,
        hex: times(b"--hex") > 0,
        seconds: times(b"--seconds") > 0,
        kernels: kernels.to_vec(),
        clock,
    })
}
