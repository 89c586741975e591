//! Counts what a script brings up: each call's outcomes, each clause of a refusal and of its place, each rule of the tables
//! broken alone. The clauses, rules and places are found here a second time, from the question and the tables, not by the
//! library. For kernel text the comment before a question says what it breaks, and where; for raw counters, packets and two
//! tables it says so too.

mod host;
mod packets;
mod pairs;
mod raw;
mod tables;
mod text;

use std::collections::BTreeMap;

use crate::script::{parse, Line, Question, Session, Tables, MOST_KERNEL};
use crate::DoubleSegment;
pub use host::{HostTally, POSSIBLE};
pub use tables::first_fault;
use tables::{layout_faults, partition_faults, segment_faults};
use text::Text;

const E15: u128 = 1_000_000_000_000_000;
const E12: u128 = 1_000_000_000_000;
const LATEST: i128 = 4_000_000_000_000_000_000;

#[derive(Default)]
pub struct Tally {
    /// Bad lines not counted.
    pub questions: u64,
    pub answered: u64,
    pub bad_lines: u64,
    /// By call and outcome, with the clause where a refusal has several.
    pub outcomes: BTreeMap<String, u64>,
    /// Questions refused 1, 2 or 3 for one rule alone.
    pub rules: BTreeMap<&'static str, u64>,
    /// What the places of refusals show: of text by call, of tables by rule. A question may have several.
    pub places: BTreeMap<String, u64>,
    /// Kernel texts, and those of them answered.
    pub kernels: u64,
    pub kernels_answered: u64,
    /// Questions about raw counters and microseconds, and those of them answered.
    pub raws: u64,
    pub raws_answered: u64,
    /// Questions about packets, and those of them answered.
    pub packets: u64,
    pub packets_answered: u64,
    /// Questions about two tables, and those of them answered.
    pub pairs: u64,
    pub pairs_answered: u64,
    /// What questions about raw counters, microseconds, packets and two tables show. A question may have several.
    pub counters: BTreeMap<String, u64>,
    /// Comments that say another outcome, with the outcome; prints of another length; other places; other answers of raw
    /// counters, microseconds, packets and two tables.
    pub unexpected: Vec<String>,
}

pub fn tally(script: &[u8]) -> Tally {
    let mut tally = Tally::default();
    let mut session = Session::new();
    let mut buffer = [0; MOST_KERNEL];
    let mut answer = vec![];
    let mut comment = String::new();
    let mut memory = raw::Memory::default();
    let mut walks = packets::Memory::default();
    for line in script.split(|&byte| byte == 10) {
        answer.clear();
        let before = session.counter;
        session.line(line, &mut answer);
        match parse(line, &mut buffer) {
            Some(Line::Counter(_)) => memory = raw::Memory::default(),
            _ if answer.is_empty() => {}
            Some(Line::Ask(Question::ReadKernel(_))) => tally.note_kernel(&comment, &answer),
            Some(Line::Ask(
                question @ (Question::RawReset { .. } | Question::RawRead(_) | Question::Microseconds { .. }),
            )) => {
                let expected = raw::expected(&mut memory, &session.tables, before, &question);
                let answered = tally.note_call(&comment, &session.tables, question, expected, &answer);
                tally.raws += 1;
                tally.raws_answered += u64::from(answered);
            }
            Some(Line::Ask(
                question @ (Question::ReadPacket(_) | Question::WritePacket(_) | Question::Walk { .. }),
            )) => {
                let expected = packets::expected(&mut walks, &session.tables, &question);
                let answered = tally.note_call(&comment, &session.tables, question, expected, &answer);
                tally.packets += 1;
                tally.packets_answered += u64::from(answered);
            }
            Some(Line::Ask(question @ (Question::Succeeds | Question::Horizon))) => {
                let expected = pairs::expected(&session.older, &session.tables, &question);
                tally.note_pair(&comment, question, expected, &answer);
            }
            Some(Line::Ask(question)) => tally.note(&session.tables, question, &answer),
            _ => tally.bad_lines += 1,
        }
        comment = line.strip_prefix(b"# ").map_or(String::new(), |text| String::from_utf8_lossy(text).into_owned());
    }
    tally
}

impl Tally {
    fn note(&mut self, tables: &Tables, question: Question, answer: &[u8]) {
        let answer = String::from_utf8_lossy(answer);
        let words: Vec<&str> = answer.trim_end().split(' ').collect();
        let call = name(&question);
        self.questions += 1;
        let outcome = if words[0] == "refused" {
            let refusal = words[1];
            let (place, labels) = self.refused(tables, &question, refusal);
            // Behind a print's refusal stands the buffer.
            let buffer = usize::from(matches!(question, Question::PrintCount { .. } | Question::PrintStamp { .. }));
            let given = &words[2..words.len() - buffer];
            if given.iter().map(|word| word.to_string()).ne(place.map(|place| place.to_string())) {
                self.unexpected.push(format!("{} at {:?}: {}", call, place, answer));
            }
            for label in labels {
                *self.places.entry(label).or_insert(0) += 1;
            }
            [call, " refused ", refusal, &clause(tables, &question, refusal)].concat()
        } else {
            self.answered += 1;
            let lengths = lengths(tables, &question);
            if lengths.map_or(false, |(len, _)| words[1] != len.to_string()) {
                self.unexpected.push(format!("{}: {}", call, answer));
            }
            let clause = match lengths {
                Some((len, before)) if len > before => ", wider by an offset",
                _ if call == "steps-back" => &answer[2..answer.len() - 1],
                _ => "",
            };
            [call, " ok", clause].concat()
        };
        *self.outcomes.entry(outcome).or_insert(0) += 1;
    }

    /// A refusal's place, and what it shows.
    fn refused(&mut self, tables: &Tables, question: &Question, refusal: &str) -> (Option<usize>, Vec<String>) {
        if refusal == "1" {
            if let [fault] = layout_faults(tables)[..] {
                self.rule(fault);
            }
        }
        if refusal == "2" || refusal == "3" {
            let (faults, rows) = match refusal {
                "2" => (partition_faults(tables), tables.start.len()),
                _ => (segment_faults(tables), tables.count.len()),
            };
            if let [(fault, _)] = faults[..] {
                self.rule(fault);
            }
            return (tables::place(&faults), tables::labels(&faults, rows));
        }
        let layout = &tables.layout;
        match text_of(question) {
            Some((text, payload)) if ["5", "7", "8", "9"].contains(&refusal) => {
                let mut labels = text.labels(layout, refusal);
                if payload > 0 {
                    labels.push([refusal, ", behind a payload"].concat());
                }
                let of_call = |label: &String| [name(question), " ", label].concat();
                (text.place(layout, refusal), labels.iter().map(of_call).collect())
            }
            _ => (None, vec![]),
        }
    }

    /// The comment has the outcome, a colon and the clause.
    fn note_kernel(&mut self, comment: &str, answer: &[u8]) {
        let answer = String::from_utf8_lossy(answer);
        let words: Vec<&str> = answer.trim_end().split(' ').collect();
        self.questions += 1;
        self.kernels += 1;
        let answered = words[0] == "ok";
        self.answered += u64::from(answered);
        self.kernels_answered += u64::from(answered);
        // The seven lists stand at the end.
        let refusal = words[1..words.len() - 7].join(" ");
        let (outcome, found) = if answered { ("ok", "ok") } else { (words[1], &refusal[..]) };
        let mut parts = comment.splitn(2, ": ");
        let clause = match (parts.next(), parts.next()) {
            (Some(expected), Some(clause)) => {
                if expected != found {
                    self.unexpected.push(format!("{}: {}", comment, found));
                }
                [", ", clause].concat()
            }
            _ => String::new(),
        };
        if found.contains(' ') {
            *self.places.entry(["read-kernel ", found].concat()).or_insert(0) += 1;
        }
        let word = if answered { "" } else { "refused " };
        *self.outcomes.entry(["read-kernel ", word, outcome, &clause].concat()).or_insert(0) += 1;
    }

    /// The comment has the outcome, a colon and what it is about. True if the call answered.
    fn note_call(
        &mut self,
        comment: &str,
        tables: &Tables,
        question: Question,
        expected: raw::Expected,
        answer: &[u8],
    ) -> bool {
        let answer = String::from_utf8_lossy(answer);
        let answer = answer.trim_end();
        let call = name(&question);
        if answer != expected.answer {
            self.unexpected.push(format!("{}: {}, not {}", call, answer, expected.answer));
        }
        self.questions += 1;
        let words: Vec<&str> = answer.split(' ').collect();
        // A refusal's number, and with it its place; the state or the buffer stands behind them.
        let (outcome, found) = match words[..] {
            ["refused", "2", place, ..] => ("refused 2".to_string(), ["2 ", place].concat()),
            ["refused", number, ..] => (["refused ", number].concat(), number.to_string()),
            _ => ("ok".to_string(), "ok".to_string()),
        };
        if found == "ok" {
            self.answered += 1;
        } else if ["1", "2"].contains(&words[1]) {
            let (_, labels) = self.refused(tables, &question, words[1]);
            for label in labels {
                *self.places.entry(label).or_insert(0) += 1;
            }
        }
        if let Some((said, _)) = comment.split_once(": ") {
            if said != found {
                self.unexpected.push(format!("{}: {}", comment, found));
            }
        }
        *self.outcomes.entry([call, " ", &outcome, expected.clause].concat()).or_insert(0) += 1;
        for show in expected.shows {
            *self.counters.entry([call, " ", &show].concat()).or_insert(0) += 1;
        }
        found == "ok"
    }

    /// The comment has the answer without its first word, a colon and what it is about.
    fn note_pair(&mut self, comment: &str, question: Question, expected: pairs::Expected, answer: &[u8]) {
        let answer = String::from_utf8_lossy(answer);
        let answer = answer.trim_end();
        let call = name(&question);
        if answer != expected.answer {
            self.unexpected.push(format!("{}: {}, not {}", call, answer, expected.answer));
        }
        let (word, found) = answer.split_once(' ').unwrap_or((answer, ""));
        if let Some((said, _)) = comment.split_once(": ") {
            if said != found {
                self.unexpected.push(format!("{}: {}", comment, found));
            }
        }
        let answered = u64::from(word == "ok");
        self.questions += 1;
        self.answered += answered;
        self.pairs += 1;
        self.pairs_answered += answered;
        *self.outcomes.entry([call, " ", &expected.outcome].concat()).or_insert(0) += 1;
        // Both calls are refused alike.
        let call = if answered > 0 { call } else { "two tables" };
        for show in expected.shows {
            *self.counters.entry([call, " ", &show].concat()).or_insert(0) += 1;
        }
    }

    fn rule(&mut self, fault: &'static str) {
        *self.rules.entry(fault).or_insert(0) += 1;
    }
}

/// The clock text of a question, and how much stands before it.
fn text_of<'a>(question: &Question<'a>) -> Option<(Text<'a>, usize)> {
    match *question {
        Question::ReadText(bytes) => Some((Text { bytes, stamp: false }, 0)),
        Question::ReadStamp(bytes) => Some((Text { bytes, stamp: true }, 0)),
        Question::ReadMessage(message) => {
            let before = message.len().checked_sub(2)?;
            let payload = before.checked_sub(usize::from(message[before + 1]))?;
            Some((Text { bytes: &message[payload..before], stamp: true }, payload))
        }
        _ => None,
    }
}

fn name(question: &Question) -> &'static str {
    match question {
        Question::ReadText(_) => "read-text",
        Question::ReadStamp(_) => "read-stamp",
        Question::ReadMessage(_) => "read-message",
        Question::PrintCount { .. } => "print-count",
        Question::PrintStamp { .. } => "print-stamp",
        Question::TimeOf(_) => "time-of",
        Question::CountAt(_) => "count-at",
        Question::StepsBack => "steps-back",
        Question::Forward { .. } => "forward",
        Question::Back { .. } => "back",
        Question::ReadKernel(_) => "read-kernel",
        Question::RawReset { .. } => "raw-reset",
        Question::RawRead(_) => "raw-read",
        Question::Microseconds { .. } => "microseconds",
        Question::ReadPacket(_) => "read-packet",
        Question::WritePacket(_) => "write-packet",
        Question::Walk { .. } => "walk",
        Question::Succeeds => "succeeds",
        Question::Horizon => "horizon",
    }
}

/// The length of a print, and what it was before request 2, each field as wide as modulus - 1.
fn lengths(tables: &Tables, question: &Question) -> Option<(usize, usize)> {
    let (number, count) = match *question {
        Question::PrintCount { count, .. } => (None, count),
        Question::PrintStamp { e, .. } => {
            let (mut row, mut left) = (0, e);
            while row + 1 < tables.start.len() && left >= tables.end[row] - tables.start[row] {
                left -= tables.end[row] - tables.start[row];
                row += 1;
            }
            (Some(row + 1), tables.start[row] + left)
        }
        _ => return None,
    };
    let digits = |number: u64| number.to_string().len();
    let others = number.map_or(0, |number| digits(number as u64) + 1) + tables.layout.n as usize - 1;
    let (mut len, mut before, mut left) = (others, others, count);
    for i in (0..tables.layout.n as usize).rev() {
        let (modulus, offset) = (tables.layout.moduli[i], tables.layout.offsets[i]);
        len += digits(modulus + offset - 1);
        before += digits(modulus - 1).max(digits(left % modulus + offset));
        left /= modulus;
    }
    Some((len, before))
}

/// Which of a refusal's clauses it was.
fn clause(tables: &Tables, question: &Question, refusal: &str) -> String {
    let clause = match (question, refusal) {
        (Question::PrintCount { len, .. } | Question::PrintStamp { len, .. }, "16")
            if lengths(tables, question).map_or(false, |(_, before)| before <= *len) =>
        {
            "wider by an offset"
        }
        (Question::ReadMessage(message), "22" | "23") => message_clause(message),
        (Question::CountAt(t), "14") if i128::from(*t).abs() > LATEST => "range",
        (Question::CountAt(_), "14") => "answer",
        (Question::Forward { segment, msf, given }, "15") => {
            double_clause(segment, *msf, *given as f64, segment.count, u128::from(*given) > E15)
        }
        (Question::Back { segment, msf, given }, "15") => double_clause(segment, *msf, *given, segment.time, false),
        _ => text_of(question).map_or("", |(text, _)| text.clause(refusal)),
    };
    if clause.is_empty() {
        String::new()
    } else {
        format!(", {}", clause)
    }
}

fn message_clause(message: &[u8]) -> &'static str {
    let before = message.len() - 2;
    match usize::from(message[before]) * 256 + usize::from(message[before + 1]) {
        0 if before == 0 => "in two bytes",
        0 => "",
        l if l > 96 && l > before => "above 96 and too far",
        97 => "97",
        l if l > 96 => "above 97",
        l if l == before + 1 => "too far by one",
        _ => "too far",
    }
}

/// The clause of 15 if it is the only one.
fn double_clause(segment: &DoubleSegment, msf: u64, given: f64, own: f64, above: bool) -> &'static str {
    let DoubleSegment { count, time, rate } = *segment;
    let mut found = vec![];
    let mut clause = |holds: bool, name: &'static str| {
        if holds {
            found.push(name);
        }
    };
    clause(msf == 0, "MSF 0");
    clause(u128::from(msf) > E12, "MSF above 10^12");
    clause(above, "count above 10^15");
    clause(!count.is_finite(), "count not finite");
    clause(!time.is_finite(), "time not finite");
    clause(!rate.is_finite(), "rate not finite");
    clause(!given.is_finite(), "given not finite");
    clause(rate <= 0.0, "rate not above 0");
    clause(rate > 0.0 && msf > 0 && rate / msf as f64 == 0.0, "rate/MSF zero");
    clause(given < own && given.is_finite() && own.is_finite(), "before");
    match found[..] {
        [] => "result not finite",
        [one] => one,
        _ => "several",
    }
}
