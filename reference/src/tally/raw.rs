//! Raw counters and microseconds a second time: what a call must answer, in wide numbers, and what it shows.

use super::tables::{layout_faults, partition_faults, place};
use crate::script::{Question, Tables};
use crate::RawCounter;

const TURN: u128 = 1 << 32;

/// What a call must answer.
pub struct Expected {
    pub answer: String,
    /// Which of an answer's or a refusal's clauses it is.
    pub clause: &'static str,
    /// What else it shows, without the call's name.
    pub shows: Vec<String>,
}

/// What is remembered from call to call, until a line sets the counter.
#[derive(Default)]
pub struct Memory {
    /// The last call, if it was refused.
    refused: Option<String>,
    /// The total of the last accepted call.
    total: Option<u128>,
}

pub fn expected(memory: &mut Memory, tables: &Tables, before: RawCounter, question: &Question) -> Expected {
    let (refusal, clause, mut shows) = match *question {
        Question::Microseconds { seconds, us } => return microseconds(seconds, us),
        Question::RawReset { number, raw } => match reset(tables, number) {
            Ok((count, shows)) => {
                let again = if before.reset { "again" } else { "the first" };
                return accepted(memory, tables, raw, count, "", vec![shows, again.to_string()]);
            }
            Err((refusal, clause)) => (refusal, clause, vec![]),
        },
        Question::RawRead(raw) => match read(memory, tables, before, raw) {
            Ok((count, clause, shows)) => return accepted(memory, tables, raw, count, clause, shows),
            Err(refused) => refused,
        },
        _ => unreachable!("a question about raw counters"),
    };
    let state = if before.reset { format!("{} {}", before.raw, before.count) } else { "none".to_string() };
    let number = refusal.split(' ').next().unwrap_or("");
    shows.push(format!("{}{}, {}", number, clause, if before.reset { "kept" } else { "none" }));
    let call = if matches!(question, Question::RawRead(_)) { "a refused reading" } else { "a refused reset" };
    memory.refused = Some(format!("after {}, {}", call, number));
    Expected { answer: format!("refused {} {}", refusal, state), clause, shows }
}

fn accepted(
    memory: &mut Memory,
    tables: &Tables,
    raw: u32,
    count: u128,
    clause: &'static str,
    mut shows: Vec<String>,
) -> Expected {
    shows.extend(memory.refused.take());
    memory.total = Some(total(tables));
    Expected { answer: format!("ok {} {}", raw, count), clause, shows }
}

/// "1, 2", with the place.
pub fn faults(tables: &Tables) -> Option<String> {
    if !layout_faults(tables).is_empty() {
        return Some("1".to_string());
    }
    place(&partition_faults(tables)).map(|place| format!("2 {}", place))
}

/// The sums of the lengths of the first so many rows, from none.
pub fn sums(tables: &Tables) -> Vec<u128> {
    let mut sums = vec![0];
    for (start, end) in tables.start.iter().zip(&tables.end) {
        sums.push(sums[sums.len() - 1] + u128::from(*end) - u128::from(*start));
    }
    sums
}

fn total(tables: &Tables) -> u128 {
    sums(tables).pop().unwrap_or(0)
}

/// The count and what the partition shows, or a refusal and its clause.
fn reset(tables: &Tables, number: u64) -> Result<(u128, String), (String, &'static str)> {
    if let Some(refusal) = faults(tables) {
        return Err((refusal, ""));
    }
    let rows = tables.start.len();
    // The row is looked for, not worked out.
    let row = match (1..=rows as u64).position(|row| row == number) {
        Some(row) => row,
        None => return Err(("10".to_string(), if number == 0 { ", zero" } else { ", above" })),
    };
    let partition = match row {
        _ if rows == 1 => "the only partition",
        0 => "the first partition",
        _ if row + 1 == rows => "the last partition",
        _ => "an inner partition",
    };
    let start = if tables.start[row] > 0 { ", its start above 0" } else { "" };
    Ok((sums(tables)[row], [partition, start].concat()))
}

type Refused = (String, &'static str, Vec<String>);

fn read(
    memory: &Memory,
    tables: &Tables,
    before: RawCounter,
    raw: u32,
) -> Result<(u128, &'static str, Vec<String>), Refused> {
    if let Some(refusal) = faults(tables) {
        return Err((refusal, "", vec![]));
    }
    let sums = sums(tables);
    let total = sums[sums.len() - 1];
    let mut shows = vec![];
    let mut show = |holds: bool, what: &str| {
        if holds {
            shows.push(what.to_string());
        }
    };
    if !before.reset {
        show(u128::from(raw) > total, "27, a raw number above the total");
        show(u128::from(raw) <= total, "27, a raw number up to the total");
        return Err(("27".to_string(), "", shows));
    }
    // A counter that is behind its last number has rolled over once.
    let rollover = raw < before.raw;
    let now = u128::from(raw) + if rollover { TURN } else { 0 };
    let difference = now - u128::from(before.raw);
    let count = u128::from(before.count) + difference;
    let changed = memory.total.map_or(false, |last| last != total);
    if count > total {
        let clause = if count >> 64 > 0 { ", past 2^64" } else { ", past the total" };
        show(count == total + 1, "12, by one");
        show(rollover, "12, rollover");
        show(difference == 0, "12, an equal raw number");
        show(difference == TURN - 1, "12, a difference of 2^32 - 1");
        show(changed, "12, another total than before");
        show(count >> 64 > 0 && count - (1 << 64) <= total, "12, past 2^64, the low 64 bits within the total");
        return Err(("12".to_string(), clause, shows));
    }
    let clause = match difference {
        0 => ", an equal raw number",
        _ if rollover => ", rollover",
        _ => ", no rollover",
    };
    let row = |count: u128| sums.iter().filter(|&&sum| sum <= count).count();
    show(count == total, "the total itself");
    show(count < total && row(count) > row(u128::from(before.count)), "past a partition's end");
    show(difference == 1, "a difference of 1");
    show(difference == TURN - 1, "a difference of 2^32 - 1");
    show(changed, "another total than before");
    Ok((count, clause, shows))
}

/// The subtick is the whole number nearest to 256×(us + 1/2) / 1,000,000, found by comparing, doubled, with each.
fn microseconds(seconds: u32, us: u32) -> Expected {
    if u128::from(us) * 1_000 >= 1_000_000_000 {
        let show = match us {
            1_000_000 => "24, a million",
            _ if us < 1 << 20 => "24, below 2^20",
            _ => "24, from 2^20 on",
        };
        return Expected { answer: "refused 24".to_string(), clause: "", shows: vec![show.to_string()] };
    }
    let nearest = |us: u32| {
        let doubled = 512 * i128::from(us) + 256;
        let near = |subtick: &i128| (-1_000_000..1_000_000).contains(&(doubled - 2_000_000 * subtick));
        (0..=256).find(near).expect("a subtick is near")
    };
    let subtick = nearest(us);
    let clause = if subtick == 256 { ", carried" } else { ", not carried" };
    let mut shows = vec![];
    if us > 0 && nearest(us - 1) < subtick {
        shows.push("a subtick's first microsecond".to_string());
    }
    if us < 999_999 && nearest(us + 1) > subtick {
        shows.push("a subtick's last microsecond".to_string());
    }
    if subtick == 256 && seconds == u32::MAX {
        shows.push("carried to second 2^32".to_string());
    }
    Expected { answer: format!("ok {}", i128::from(seconds) * 256 + subtick), clause, shows }
}
