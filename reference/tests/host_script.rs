//! "Each equals the inner call on the same numbers": random calls asked as a host asks them, and as a script does.

use std::collections::BTreeMap;

use reference::generate::host::Calls;
use reference::host::*;
use reference::script::answers;

/// A list's numbers, low byte first.
fn numbers(slice: &[u8]) -> Vec<u64> {
    let number = |eight: &[u8]| eight.iter().rev().fold(0, |number, &byte| number << 8 | u64::from(byte));
    slice.chunks(8).map(number).collect()
}

/// A time is its number, less 2^64 from 2^63 on.
fn time(number: u64) -> i128 {
    i128::from(number) - if number >> 63 == 1 { 1 << 64 } else { 0 }
}

fn hex(bytes: &[u8]) -> String {
    match bytes {
        [] => ".".to_string(),
        _ => bytes.iter().map(|byte| format!("{:02x}", byte)).collect(),
    }
}

/// The call as a script, if it can be one: lists in eights that hold n, a delimiter of one byte.
fn script(call: &Call) -> Option<String> {
    let lists: Vec<_> = call.lists.iter().map(|list| numbers(list)).collect();
    let slots = |list: &[u64]| (0..10).map(|i| format!(" {}", list.get(i).unwrap_or(&0))).collect::<String>();
    let holds = |list: &Vec<u64>| list.len() as u64 >= call.n;
    if call.lists.iter().any(|list| list.len() % 8 > 0) || !lists[..2].iter().all(holds) || call.delimiter > 255 {
        return None;
    }
    let mut script = format!("layout {} {}{}{}\n", call.n, call.delimiter, slots(&lists[0]), slots(&lists[1]));
    for (i, word) in ["start", "end", "count", "time", "rate"].iter().enumerate() {
        for &number in &lists[i + 2] {
            let number = if *word == "time" { time(number) } else { i128::from(number) };
            script += &format!("{} {}\n", word, number);
        }
    }
    script += call.name.word();
    script += &match &call.given {
        Given::Text(text) => format!(" {}\n", hex(text)),
        Given::Count(count, _) if call.name == Name::TimeOf => format!(" {}\n", count),
        Given::Count(count, lent) => format!(" {} {} {}\n", count, lent.first().unwrap_or(&0), lent.len()),
        Given::Time(t) => format!(" {}\n", t),
    };
    Some(script)
}

/// The script's answer as a host's.
fn host_answer(call: &Call, answer: &str) -> String {
    let words: Vec<&str> = answer.trim_end().split(' ').collect();
    let before = match &call.given {
        Given::Count(_, lent) => lent.clone(),
        _ => vec![],
    };
    match (words[0], call.name) {
        ("ok", Name::TimeOf) if before.len() < 8 => format!("-16 {}\n", hex(&before)),
        ("ok", Name::TimeOf) => {
            let mut number: i128 = words[1].parse().unwrap();
            if number < 0 {
                number += 1 << 64;
            }
            let eight = (0..8).map(|i| (number >> (8 * i) & 255) as u8);
            let after: Vec<u8> = eight.chain(before[8..].iter().copied()).collect();
            format!("0 {}\n", hex(&after))
        }
        ("ok", Name::PrintCount | Name::PrintStamp) => format!("{} {}\n", words[1], words[2]),
        ("ok", _) => format!("{}\n", words[1]),
        ("refused", Name::PrintCount | Name::PrintStamp | Name::TimeOf) => format!("-{} {}\n", words[1], hex(&before)),
        ("refused", _) => format!("-{}\n", words[1]),
        _ => panic!("{}", answer),
    }
}

#[test]
fn a_host_and_a_script() {
    let mut asked = BTreeMap::new();
    for mut call in Calls::new(3).take(24_000) {
        if let Given::Count(_, lent) = &mut call.given {
            // A script's buffer has one byte throughout.
            let fill = lent.first().copied().unwrap_or(0);
            lent.fill(fill);
        }
        if let Some(script) = script(&call) {
            let mut line = vec![];
            put_call(&mut line, &call);
            let given = String::from_utf8(reference::host::answers(&line)).unwrap();
            let expected = String::from_utf8(answers(script.as_bytes())).unwrap();
            assert_eq!(given, host_answer(&call, &expected), "{}", String::from_utf8_lossy(&line));
            *asked.entry(call.name).or_insert(0) += 1;
        }
    }
    assert!(asked.len() == 7 && asked.values().all(|&times| times > 1_500), "{:?}", asked);
}
