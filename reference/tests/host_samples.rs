//! The stored calls of a host, and random ones.

use reference::generate::host::{stored_calls, Calls, STORED_SEED};
use reference::host::*;
use reference::tally::{HostTally, POSSIBLE};

/// The comment before a call states what must come back, a colon, and why.
fn check_comment(comment: &str, call: &Call, came_back: i64, after: &Call) {
    let stated = comment.split(": ").next().unwrap();
    let (number, rest) = stated.split_once(' ').unwrap_or((stated, ""));
    assert_eq!(number, came_back.to_string(), "{}", comment);
    let (buffer, lent) = match (&call.given, &after.given) {
        (Given::Count(_, before), Given::Count(_, after)) => (before, after),
        _ => return assert_eq!(rest, ""),
    };
    let written = match call.name {
        _ if came_back < 0 => vec![],
        Name::TimeOf => rest.parse::<i64>().unwrap().to_le_bytes().to_vec(),
        _ => rest.as_bytes().to_vec(),
    };
    if came_back > 0 {
        assert_eq!(written.len() as i64, came_back);
    }
    // The front is written, the rest is as it was.
    assert_eq!(lent[..], [&written, &buffer[written.len()..]].concat(), "{}", comment);
}

/// Every call with the comment directly before it. A line that is no call has its own.
fn all(calls: &[u8]) -> Vec<(Option<String>, Call)> {
    let mut comment = None;
    let mut all = vec![];
    for line in calls.split(|&byte| byte == 10).filter(|line| !line.is_empty()) {
        match (line.strip_prefix(b"# "), parse(line)) {
            (Some(text), _) => comment = Some(String::from_utf8(text.to_vec()).unwrap()),
            (None, Some(call)) => all.push((comment.take(), call)),
            (None, None) => assert_eq!(comment.take().as_deref(), Some("bad line: no call")),
        }
    }
    all
}

#[test]
fn comments_are_true() {
    let calls = stored_calls(STORED_SEED);
    let mut checked = 0;
    let mut random = false;
    for (comment, call) in all(&calls) {
        let mut after = call.clone();
        let came_back = after.make();
        random |= comment.as_deref() == Some("at random");
        match comment {
            Some(comment) if !random => check_comment(&comment, &call, came_back, &after),
            _ => assert!(random, "no comment"),
        }
        checked += u64::from(!random);
    }
    assert!(checked >= 2_500, "{}", checked);
}

#[test]
fn every_outcome_comes_up() {
    let calls = stored_calls(STORED_SEED);
    let mut tally = HostTally::default();
    for (_, mut call) in all(&calls) {
        let came_back = call.make();
        tally.note(call.name, came_back);
    }
    assert!(tally.all() >= 6_000, "{}", tally.summary());
    assert!(tally.answered * 100 >= tally.all() * 40, "{}", tally.summary());
    let none: Vec<String> = vec![];
    assert_eq!(tally.under(20), none);
    // And no other refusal, such as 4 of a message or 9 of a stamp.
    for &(name, number) in tally.refused.keys() {
        let possible = POSSIBLE.iter().any(|possible| possible.0 == name && possible.1.contains(&number));
        assert!(possible, "{} -{}", name.word(), number);
    }
    assert!(calls.len() + answers(&calls).len() < 1_600_000, "{} bytes", calls.len());
    assert!(calls.iter().all(|byte| (32..127).contains(byte) || *byte == 10));
    assert_eq!(calls.last(), Some(&10));
}

#[test]
fn stored_calls_are_current() {
    let read = |name: &str| std::fs::read(["../host/samples/", name].concat()).unwrap();
    let calls = stored_calls(STORED_SEED);
    assert!(read("calls") == calls, "host/samples/calls is not the generator's");
    assert!(read("answers") == answers(&calls), "host/samples/answers is not the library's answers");
}

#[test]
fn random_calls() {
    assert!(Calls::new(7).take(300).eq(Calls::new(7).take(300)));
    assert!(!Calls::new(7).take(300).eq(Calls::new(8).take(300)));
    let mut tally = HostTally::default();
    let (mut bytes, mut longest, mut large, mut line) = (0, 0, 0, vec![]);
    for mut call in Calls::new(11).take(50_000) {
        line.clear();
        put_call(&mut line, &call);
        bytes += line.len();
        longest = longest.max(line.len());
        large += u64::from(line.len() > 300_000);
        let came_back = call.make();
        tally.note(call.name, came_back);
    }
    assert!(bytes < 50_000 * 2_000 && longest < 1_000_000 && large >= 5, "{} {} {}", bytes, longest, large);
    assert!(tally.answered * 100 >= tally.all() * 40, "{}", tally.summary());
    let none: Vec<String> = vec![];
    assert_eq!(tally.under(10), none);
}
