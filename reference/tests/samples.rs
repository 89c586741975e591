//! The generator brings up every outcome, and the stored samples are its.

use reference::generate::{fresh, fresh_kernels, fresh_packets, fresh_pairs, fresh_raw, script, tables};
use reference::generate::{STORED_COUNT, STORED_SEED};
use reference::random::Random;
use reference::script::answers;
use reference::steps_back;
use reference::tally::tally;

const FEWEST: u64 = 20;

/// Kernel text: what the comment before a question says, at least 20 times.
const KERNELS: &[&str] = &[
    "ok, another name|ok, first line|ok, comments|ok, a line of up to 132 bytes|ok, a name of up to 32 bytes\
     |ok, a string of up to 80 characters|ok, a marker in data|ok, a clock's number|ok, an ID|ok, a type or time system\
     |ok, numbers in other forms|ok, exponents|ok, tables|ok, room|ok",
    "18, first line|18, before 19",
    "19, no operator|19, no name|19, no value|19, a bare word|19, behind a value|19, behind a list|19, a name's end\
     |19, an empty list|19, parentheses|19, no marker|19, a string not closed|19, a string's end|19, strings and others\
     |19, no number|19, a line of over 132 bytes|19, a name of over 32 bytes|19, a string of over 80 characters\
     |19, a byte|19, open at a block's end|19, open at the text's end",
    "19, a name missing|19, a name twice|19, +=|19, several values|19, a string for a number|19, a date for a number\
     |19, an ID|19, another type|19, another time system|19, before 20|19",
    "20, n not whole|20, delimiter not whole|20, modulus not whole|20, offset not whole|20, start not whole\
     |20, end not whole|20, count not whole|20, time not whole|20, rate not whole",
    "20, n too large|20, delimiter too large|20, modulus too large|20, offset too large|20, start too large\
     |20, end too large|20, count too large|20, time too large|20, rate too large",
    "20, n below 0|20, delimiter below 0|20, modulus below 0|20, offset below 0|20, start below 0|20, end below 0\
     |20, count below 0|20, time too small|20, rate below 0|20, before 1|20",
    "1, lists not n long|1, before 2|1|2, before 3|2|3, not in threes|3, before 16|3",
    "3, 4 coefficients|3, 5 coefficients|3, 7 coefficients|3, 8 coefficients",
    "16, moduli|16, offsets|16, starts|16, ends|16, counts|16, times|16, rates|16, all",
];

/// Fewer samples: long ones, single numbers, pairs of refusals that are not neighbours, tables with several faults.
const RARE: &[&str] = &[
    "ok, a time|ok, a rate|ok, no time system|ok, two clocks|ok, n|ok, zeros|ok, ends of lines|ok, a long marker\
     |ok, long lines|2, over 9,999 rows|1, several|2, several|3, several|18|16",
    "18, before 20|18, before 1|18, before 2|18, before 3|18, before 16|19, before 1|19, before 2|19, before 3\
     |19, before 16|20, before 2|20, before 3|20, before 16|1, before 3|1, before 16|2, before 16",
];

/// Rules that kernel text cannot break: each name has a value, and 10,001 rows are too long for a line. Segments' lists of
/// unequal length are coefficients that are not in threes.
const NO_KERNEL: &[&str] = &[
    "2: no row",
    "2: no starts",
    "2: no ends",
    "2: over 9,999 rows",
    "3: no row",
    "3: over 10,000 rows",
    "3: no counts",
    "3: no times",
    "3: no rates",
    "3: no entries in two lists",
    "3: counts are shortest",
    "3: times are shortest",
    "3: rates are shortest",
    "3: two lists are shortest",
];

fn kernels(lists: &[&str]) -> Vec<String> {
    let outcome = |outcome: &str| match outcome.strip_prefix("ok") {
        Some(clause) => format!("read-kernel ok{}", clause),
        None => format!("read-kernel refused {}", outcome),
    };
    lists.iter().flat_map(|list| list.split('|')).map(outcome).collect()
}

/// Each call with the answers and the refusals it can give, clause by clause.
fn outcomes() -> Vec<String> {
    let text = "1|5, a byte|5, a slash|6|7|8|9, field|9, sum";
    let stamp = "2|5, front part|10, zero|10, above|11, named|11, in none";
    let message = "21|22|22, in two bytes|23, 97|23, above 97|23, above 96 and too far|23, too far|23, too far by one";
    let double = "15, MSF 0|15, MSF above 10^12|15, count not finite|15, time not finite|15, rate not finite\
                  |15, rate not above 0|15, rate/MSF zero|15, before|15, result not finite";
    let mut all = vec![];
    for (call, answers, refusals) in [
        ("read-text", "ok", vec![text, "4"]),
        ("read-stamp", "ok", vec![text, stamp, "4"]),
        ("read-message", "ok", vec![text, stamp, message]),
        ("print-count", "ok|ok, wider by an offset", vec!["1|9|16|16, wider by an offset"]),
        ("print-stamp", "ok|ok, wider by an offset", vec!["1|2|12|16|16, wider by an offset"]),
        ("time-of", "ok", vec!["1|2|3|12|13"]),
        ("count-at", "ok", vec!["1|2|3|13|14, range|14, answer"]),
        ("steps-back", "ok yes|ok no", vec!["1|2|3"]),
        ("forward", "ok", vec![double, "15, count above 10^15"]),
        ("back", "ok", vec![double, "15, given not finite"]),
        ("raw-reset", "ok", vec!["1|2|10, zero|10, above"]),
        (
            "raw-read",
            "ok, an equal raw number|ok, no rollover|ok, rollover",
            vec!["1|2|27|12, past the total|12, past 2^64"],
        ),
        ("microseconds", "ok, carried|ok, not carried", vec!["24"]),
        (
            "read-packet",
            "ok, a whole number of ticks|ok, rounded down",
            vec![
                "25, under seven bytes|25, too short|25, too long|26, a version|26, no secondary header|26, an extension\
                 |26, a time code|26, several|25, a time past the data|25, several|1, a layout|1, not two fields|2\
                 |11, in none|11, beyond 64 bits",
            ],
        ),
        (
            "write-packet",
            "ok",
            vec![
                "1, a layout|1, not two fields|2|26, type|26, APID|26, sequence flags|26, sequence count\
                 |26, coarse octets|26, fine octets|26, m|26, several|12|9|16",
            ],
        ),
        ("walk", "ok", vec!["16|25"]),
        (
            "succeeds",
            "ok yes|ok no layout|ok no partition|ok no segment|ok no further|ok no seam",
            vec!["older 1|older 2|older 3|newer 1|newer 2|newer 3"],
        ),
        (
            "horizon",
            "ok, 0 by the layout|ok, 0 by the partitions|ok, the total, no row differs\
             |ok, the total, a row above it differs|ok, the total, where a row differs|ok, the older's count\
             |ok, the newer's count|ok, the count of both",
            vec!["older 1|older 2|older 3|newer 1|newer 2|newer 3"],
        ),
    ] {
        all.extend(answers.split('|').map(|answer| format!("{} {}", call, answer)));
        all.extend(
            refusals.iter().flat_map(|list| list.split('|')).map(|refusal| format!("{} refused {}", call, refusal)),
        );
    }
    all
}

const RULES: &[&str] = &[
    "1: n is 0",
    "1: n above 10",
    "1: a modulus is 0",
    "1: an offset above 1,000",
    "1: P above 10^15",
    "1: MSF above 10^12",
    "1: delimiter",
    "2: starts are shortest",
    "2: ends are shortest",
    "2: no starts",
    "2: no ends",
    "2: no row",
    "2: over 9,999 rows",
    "2: start is end",
    "2: start above end",
    "2: end not below P",
    "2: total above 10^15",
    "3: counts are shortest",
    "3: times are shortest",
    "3: rates are shortest",
    "3: two lists are shortest",
    "3: no counts",
    "3: no times",
    "3: no rates",
    "3: no entries in two lists",
    "3: no row",
    "3: over 10,000 rows",
    "3: equal counts",
    "3: a count goes back",
    "3: last count above the total",
    "3: equal times",
    "3: a time goes back",
    "3: a time too early",
    "3: a time too late",
    "3: a rate too low",
    "3: a rate too high",
    "3: an inner line too late",
    "3: the last line too late",
];

/// What places show, in each call with the clauses that its text can have.
fn places() -> Vec<String> {
    let bytes = "5, a byte|5, a byte, blanks before|5, a byte, another behind it|5, a byte, and too many fields";
    let slash = "5, a slash|5, a slash, blanks before|5, a slash, another behind it|5, a slash, and too many fields";
    let front = "5, a mark in front|5, a mark in front, blanks before|5, a mark in front, a byte behind it in front\
                 |5, a mark in front, another in the text|5, a byte in front|5, a byte in front, blanks before\
                 |5, a byte in front, a byte behind it in front|5, a byte in front, another in the text\
                 |5, a second number|5, a second number, a byte behind it in front|5, a second number, another in the text\
                 |5, an empty front part|5, an empty front part, another in the text|5, a blank front part\
                 |5, a blank front part, another in the text|5, a second slash|5, a second slash, another behind it\
                 |5, a byte, behind a front part";
    let fields = "7, there|7, there, leading zeros|7, there, directly behind blanks|7, there, more behind it\
                  |7, there, digits behind it|7, empty|7, empty, blanks at the end|7, empty, more behind it\
                  |7, empty, digits behind it\
                  |8, first field|8, first field, blanks before|8, first field, leading zeros|8, later field\
                  |8, later field, leading zeros|8, later field, directly behind blanks\
                  |9, first field|9, first field, blanks before|9, first field, leading zeros|9, later field\
                  |9, later field, leading zeros|9, later field, directly behind blanks|9, sum|9, sum, blanks at the end";
    let behind = "7, there, behind a front part|7, empty, behind a front part\
                  |7, empty, behind a front part and blanks at the end|8, first field, behind a front part\
                  |8, later field, behind a front part|9, first field, behind a front part|9, later field, behind a front part\
                  |9, sum, behind a front part|9, sum, behind a front part and blanks at the end";
    let payload = "5, behind a payload|7, behind a payload|8, behind a payload|9, behind a payload";
    let mut all = vec![];
    for (call, lists) in [
        ("read-text", vec![bytes, slash, fields]),
        ("read-stamp", vec![bytes, front, fields, behind]),
        ("read-message", vec![bytes, front, fields, behind, payload]),
    ] {
        all.extend(lists.iter().flat_map(|list| list.split('|')).map(|label| format!("{} {}", call, label)));
    }
    // Rules broken alone, and where they can be.
    for (places, rules) in [
        (
            "the first|an inner|the last",
            "2: start is end|2: start above end|2: end not below P|3: a time too late|3: a rate too low|3: a rate too high",
        ),
        ("an inner|the last", "2: total above 10^15|3: equal counts|3: a count goes back|3: equal times|3: a time goes back"),
        ("the first|an inner", "3: an inner line too late"),
        ("the first", "3: a time too early"),
        ("the last", "3: last count above the total|3: the last line too late"),
    ] {
        for rule in rules.split('|') {
            all.extend(places.split('|').map(|place| format!("{}, {} row", rule, place)));
        }
    }
    // Two rules at two rows, either one at the earlier; a count above the total is at the last.
    let kinds = ["a time's range", "a rate", "counts", "times", "a line", "the last count"];
    for (number, kinds) in [(2, &["a start", "an end", "the total"][..]), (3, &kinds)] {
        for early in kinds.iter().filter(|&&kind| kind != "the last count") {
            let late = kinds.iter().filter(|&late| late != early);
            all.extend(late.map(|late| format!("{}: {} before {}", number, early, late)));
        }
    }
    all.extend(["2 0", "2 1", "2 2", "3 0", "3 1", "3 2"].map(|place| format!("read-kernel {}", place)));
    all
}

/// What questions about raw counters show.
fn counters() -> Vec<String> {
    let resets = "the first|again|the only partition|the first partition|an inner partition|the last partition\
                  |the only partition, its start above 0|the first partition, its start above 0\
                  |an inner partition, its start above 0|the last partition, its start above 0\
                  |1, none|1, kept|2, none|2, kept|10, zero, none|10, zero, kept|10, above, none|10, above, kept\
                  |after a refused reading, 12|after a refused reading, 27|after a refused reset, 10";
    let reads = "the total itself|past a partition's end|a difference of 1|a difference of 2^32 - 1\
                 |another total than before|after a refused reading, 1|after a refused reading, 2\
                 |after a refused reading, 12|after a refused reset, 1|after a refused reset, 2|after a refused reset, 10\
                 |1, none|1, kept|2, none|2, kept|27, none|27, a raw number above the total\
                 |27, a raw number up to the total|12, past the total, kept|12, past 2^64, kept|12, by one|12, rollover\
                 |12, an equal raw number|12, a difference of 2^32 - 1|12, another total than before\
                 |12, past 2^64, the low 64 bits within the total";
    let microseconds = "a subtick's first microsecond|a subtick's last microsecond|carried to second 2^32\
                        |24, a million|24, below 2^20|24, from 2^20 on";
    let mut all = vec![];
    for (call, list) in [("raw-reset", resets), ("raw-read", reads), ("microseconds", microseconds)] {
        all.extend(list.split('|').map(|show| format!("{} {}", call, show)));
    }
    all
}

/// What questions about packets show.
fn packets() -> Vec<String> {
    let octets = "1 coarse, 0 fine|1 coarse, 1 fine|1 coarse, 2 fine|1 coarse, 3 fine\
                  |2 coarse, 0 fine|2 coarse, 1 fine|2 coarse, 2 fine|2 coarse, 3 fine\
                  |3 coarse, 0 fine|3 coarse, 1 fine|3 coarse, 2 fine|3 coarse, 3 fine\
                  |4 coarse, 0 fine|4 coarse, 1 fine|4 coarse, 2 fine|4 coarse, 3 fine";
    let reads = "m is 256^f|m below 256^f|m above 256^f|a product beyond 64 bits|the first of several partitions\
                 |a later partition|a start|an end|an end that is a later start|an offset of the first field\
                 |an offset of the second field|type 1|data after the time|no data after the time\
                 |25, by one|25, a time past the data by one|11, one above an end|11, one below a start\
                 |11, beyond 64 bits, the low 64 bits in a partition\
                 |25, too short before 26|25, too short before 1|25, too short before 11|26, a version before 25\
                 |26, no secondary header before 25|26, an extension before 25|26, a time code before 25\
                 |26, a version before 1|26, no secondary header before 1|26, an extension before 1|26, a time code before 1\
                 |25, a time past the data before 1|1, a layout before 2|1, not two fields before 2|2 before 11";
    let writes = "the largest coarse part|an inner end|the total|a later partition|a buffer that fits\
                  |bytes behind the packet|an offset|no data|12, by one|9, by one|16, by one|16, no buffer\
                  |1, a layout before 2|1, not two fields before 2|1, a layout before 26|2 before 26|26, m before 12\
                  |26, m before 9|26, m before 16|26, fine octets before 16|12 before 9|12 before 16|9 before 16";
    let walks = "an empty tail|a tail within a header|a tail of a header|a tail beyond a header|leaves an empty tail\
                 |leaves a tail within a header|leaves a tail of a header|leaves a tail beyond a header|a tail left behind\
                 |after a refusal|the shortest buffer|a longer buffer|an empty piece|a piece of one byte|no packet\
                 |one packet|several packets|a packet ends at the cut|a packet that began in the tail\
                 |a packet that began in the tail ends at the cut|a packet over several pieces|16, by one\
                 |16, a tail beyond the buffer|16 before 25|25, by one|25, within a longer buffer";
    let mut all = vec![];
    for (call, lists) in
        [("read-packet", vec![octets, reads]), ("write-packet", vec![octets, writes]), ("walk", vec![walks])]
    {
        all.extend(lists.iter().flat_map(|list| list.split('|')).map(|show| format!("{} {}", call, show)));
    }
    all
}

/// What questions about two tables show.
fn pairs() -> Vec<String> {
    let succeeds = "yes, nothing added|yes, further segments|yes, no further segment|yes, a partition added\
                    |yes, the last end kept|yes, the last end greater|yes, the last end greater and a partition added\
                    |yes, one above the total|yes, the line meets the next row|yes, the line, rounded up, meets the next row\
                    |yes, a kept row steps back|yes, a further row steps back|yes, other slots after the n-th\
                    |layout, n alone|layout, a modulus alone|layout, an offset alone|layout, the delimiter alone\
                    |partition, no row|partition, another start|partition, an inner end greater\
                    |partition, an inner end smaller|partition, the last end smaller|partition, the only row\
                    |partition, the first row|partition, an inner row|partition, the last row\
                    |partition, the first of several rows\
                    |segment, a row the older alone has|segment, another count|segment, another time\
                    |segment, another rate|segment, several numbers|segment, the only row|segment, the first row\
                    |segment, an inner row|segment, the last row|segment, the first of several rows\
                    |further, at the total|further, below the total|further, the first of several rows\
                    |further, another above the total|seam, only rounded up|seam, rounded down too|seam, row 0\
                    |seam, a later row|layout before partition|layout before segment|layout before further\
                    |layout before seam|partition before segment|partition before further|partition before seam\
                    |segment before further|segment before seam|further before seam";
    let horizon = "beside yes|beside layout|beside partition|beside segment|beside further|beside seam\
                   |a row the older alone has|a row the newer alone has|another count|another time|another rate\
                   |several numbers|the first row|a later row|0, the first row's count|a row one above the total";
    let mut refusals = vec![];
    for side in ["older", "newer"] {
        for number in [2, 3] {
            for row in ["lengths", "the first row", "an inner row", "the last row"] {
                refusals.push(format!("{} {}, {}", side, number, row));
            }
        }
    }
    for older in 1..4 {
        refusals.extend((1..4).map(|newer| format!("older {} before newer {}", older, newer)));
    }
    let mut all = vec![];
    for (call, list) in [("succeeds", succeeds), ("horizon", horizon), ("two tables", &refusals.join("|"))] {
        all.extend(list.split('|').map(|show| format!("{} {}", call, show)));
    }
    all
}

/// Long lists, so there are few.
const RARE_PAIRS: &[&str] =
    &["two tables older 2, too many rows", "two tables newer 2, too many rows", "two tables newer 3, too many rows"];

/// Long lines, so there are few: data octets over 65,536, alone and with other faults. Also each number of bytes under seven.
const RARE_PACKETS: &[&str] = &[
    "write-packet 25 before 12",
    "write-packet 25 before 9",
    "write-packet 25 before 16",
    "write-packet 26, APID before 25",
    "read-packet 0 bytes",
    "read-packet 1 bytes",
    "read-packet 2 bytes",
    "read-packet 3 bytes",
    "read-packet 4 bytes",
    "read-packet 5 bytes",
    "read-packet 6 bytes",
];

/// A rule as the clause of a kernel text's refusal.
fn kernel_rule(rule: &str) -> String {
    ["read-kernel refused ", &rule.replacen(": ", ", ", 1)].concat()
}

#[test]
fn every_outcome_comes_up() {
    let script = script(STORED_SEED, STORED_COUNT);
    let tally = tally(&script);
    assert!(tally.questions >= 20_000);
    assert!(tally.answered * 100 >= tally.questions * 40, "{} of {}", tally.answered, tally.questions);
    assert!(tally.bad_lines >= 200);
    assert!(tally.kernels >= 3_000);
    assert!(tally.kernels_answered * 100 >= tally.kernels * 40, "{} of {}", tally.kernels_answered, tally.kernels);
    assert!(tally.raws >= 10_000);
    assert!(tally.raws_answered * 100 >= tally.raws * 50, "{} of {}", tally.raws_answered, tally.raws);
    assert!(tally.packets >= 8_000);
    assert!(tally.packets_answered * 100 >= tally.packets * 40, "{} of {}", tally.packets_answered, tally.packets);
    assert!(tally.pairs >= 3_000);
    assert!(tally.pairs_answered * 100 >= tally.pairs * 60, "{} of {}", tally.pairs_answered, tally.pairs);
    assert!(tally.unexpected.is_empty(), "{:?}", tally.unexpected);
    let expected = answers(&script);
    assert!(script.len() + expected.len() < 16_000_000, "{} bytes", script.len());
    // "No answer has more than 8,192 bytes."
    assert!(expected.split(|&byte| byte == 10).all(|answer| answer.len() <= 8_192));
    let mut outcomes = outcomes();
    outcomes.extend(kernels(KERNELS));
    outcomes.extend(RULES.iter().filter(|rule| !NO_KERNEL.contains(rule)).map(|rule| kernel_rule(rule)));
    for outcome in &outcomes {
        let times = tally.outcomes.get(outcome).copied().unwrap_or(0);
        assert!(times >= FEWEST, "{} samples of {}", times, outcome);
    }
    for rule in RULES {
        let times = tally.rules.get(rule).copied().unwrap_or(0);
        assert!(times >= FEWEST, "{} samples of rule {}", times, rule);
    }
    for label in &places() {
        let times = tally.places.get(label).copied().unwrap_or(0);
        assert!(times >= FEWEST, "{} samples of place {}", times, label);
    }
    for show in counters().iter().chain(&packets()).chain(&pairs()) {
        let times = tally.counters.get(show).copied().unwrap_or(0);
        assert!(times >= FEWEST, "{} samples that show {}", times, show);
    }
    for show in RARE_PACKETS.iter().chain(RARE_PAIRS) {
        assert!(tally.counters.contains_key(*show), "no sample that shows {}", show);
    }
    let mut rare = kernels(RARE);
    rare.push("write-packet refused 25".to_string());
    for outcome in &rare {
        assert!(tally.outcomes.contains_key(outcome), "no sample of {}", outcome);
    }
    outcomes.extend(rare);
    outcomes.extend(["3: rates are shortest", "3: two lists are shortest"].map(kernel_rule));
    // And no other outcome, such as 4 from a message; several faults of a double at once are left out here.
    for outcome in tally.outcomes.keys().filter(|outcome| !outcome.ends_with("several")) {
        assert!(outcomes.contains(outcome), "{}", outcome);
    }
    assert!(tally.rules.keys().all(|rule| RULES.contains(rule)));
    assert_ne!(script.last(), Some(&10));
    assert!(script.iter().all(|byte| (32..127).contains(byte) || [9, 10, 13].contains(byte)));
}

#[test]
fn a_seed_gives_one_script() {
    assert!(script(7, 20_000) == script(7, 20_000));
    assert!(script(7, 20_000) != script(8, 20_000));
    assert!(fresh(7, 2_000) == fresh(7, 2_000));
    // Answers come for each question and each bad line.
    for seed in 0..40 {
        let script = fresh(seed, 500);
        let tally = tally(&script);
        let lines = answers(&script).iter().filter(|&&byte| byte == 10).count() as u64;
        assert!(tally.questions >= 500);
        assert!(tally.unexpected.is_empty(), "{:?}", tally.unexpected);
        assert_eq!(tally.questions + tally.bad_lines, lines);
    }
    // Random kernel texts: answered in the main, and short.
    assert!(fresh_kernels(7, 500) == fresh_kernels(7, 500));
    let script = fresh_kernels(9, 4_000);
    let tally = tally(&script);
    assert_eq!((tally.kernels, tally.bad_lines), (4_000, 0));
    assert!(tally.kernels_answered > 2_000 && tally.kernels_answered < 3_500);
    assert!(script.len() < 4_000 * 2_500);
}

/// Random lists of calls: of every kind, answered in the main, and each answer found a second time.
#[test]
fn random_calls_of_raw_counters() {
    assert!(fresh_raw(7, 500) == fresh_raw(7, 500));
    let (mut asked, mut answered) = (0, 0);
    for seed in 0..150 {
        let script = fresh_raw(seed, 1_000);
        let tally = tally(&script);
        assert!(tally.raws >= 1_000 && tally.raws == tally.questions);
        assert!(tally.unexpected.is_empty(), "{:?}", tally.unexpected);
        asked += tally.raws;
        answered += tally.raws_answered;
    }
    assert!(answered * 100 > asked * 55, "{} of {}", answered, asked);
    let tally = tally(&fresh_raw(9, 20_000));
    for outcome in outcomes().iter().filter(|outcome| outcome.starts_with("raw-") || outcome.starts_with("micro")) {
        assert!(tally.outcomes.contains_key(outcome), "no question of {}", outcome);
    }
    let tally = reference::tally::tally(&fresh(9, 20_000));
    assert!(tally.raws > 1_000 && tally.raws_answered > 500, "{} of {}", tally.raws_answered, tally.raws);
}

/// Random packets: of every kind, answered in the main, and each answer found a second time.
#[test]
fn random_packets() {
    assert!(fresh_packets(7, 500) == fresh_packets(7, 500));
    let (mut asked, mut answered) = (0, 0);
    for seed in 0..60 {
        let script = fresh_packets(seed, 1_000);
        let tally = tally(&script);
        assert!(tally.packets >= 1_000 && tally.packets == tally.questions);
        assert!(tally.unexpected.is_empty(), "{:?}", tally.unexpected);
        asked += tally.packets;
        answered += tally.packets_answered;
    }
    assert!(answered * 100 > asked * 50, "{} of {}", answered, asked);
    let tally = tally(&fresh_packets(9, 20_000));
    let calls = ["read-packet", "write-packet", "walk"];
    for outcome in outcomes().iter().filter(|outcome| calls.iter().any(|call| outcome.starts_with(call))) {
        assert!(tally.outcomes.contains_key(outcome), "no question of {}", outcome);
    }
    assert!(tally.outcomes.contains_key("write-packet refused 25"));
    let tally = reference::tally::tally(&fresh(9, 20_000));
    assert!(tally.packets > 1_000 && tally.packets_answered > 500, "{} of {}", tally.packets_answered, tally.packets);
}

/// Random pairs of tables: of every outcome, answered in the main, and each answer found a second time.
#[test]
fn random_pairs() {
    assert!(fresh_pairs(7, 500) == fresh_pairs(7, 500));
    let (mut asked, mut answered) = (0, 0);
    for seed in 0..60 {
        let script = fresh_pairs(seed, 1_000);
        let tally = tally(&script);
        assert!(tally.pairs >= 1_000 && tally.pairs == tally.questions);
        assert!(tally.unexpected.is_empty(), "{:?}", tally.unexpected);
        asked += tally.pairs;
        answered += tally.pairs_answered;
    }
    assert!(answered * 100 > asked * 65, "{} of {}", answered, asked);
    let tally = tally(&fresh_pairs(9, 20_000));
    let calls = ["succeeds", "horizon"];
    for outcome in outcomes().iter().filter(|outcome| calls.iter().any(|call| outcome.starts_with(call))) {
        let times = tally.outcomes.get(outcome).copied().unwrap_or(0);
        assert!(times >= 100, "{} questions of {}", times, outcome);
    }
    let tally = reference::tally::tally(&fresh(9, 20_000));
    assert!(tally.pairs > 500 && tally.pairs_answered > 300, "{} of {}", tally.pairs_answered, tally.pairs);
}

#[test]
fn sound_tables_are_accepted() {
    let mut random = Random::new(5);
    let (mut backs, mut wider) = (0, 0);
    let digits = |number: u64| number.to_string().len();
    for _ in 0..20_000 {
        let tables = tables::sound(&mut random);
        backs += u64::from(steps_back(&tables.layout, tables.partitions(), tables.segments()).unwrap());
        // A field whose least number has zeros by request 2 alone.
        let (moduli, offsets) = (tables.layout.moduli, tables.layout.offsets);
        let zeros = |i: usize| digits(moduli[i] + offsets[i] - 1) > digits(moduli[i] - 1).max(digits(offsets[i]));
        wider += u64::from((0..tables.layout.n as usize).any(zeros));
    }
    assert!(backs > 1_000);
    assert!(wider > 8_000, "{}", wider);
}

#[test]
fn stored_samples_are_current() {
    let read = |name: &str| std::fs::read(["../crates/cases/", name].concat()).unwrap();
    let script = script(STORED_SEED, STORED_COUNT);
    assert!(read("stdin") == script, "crates/cases/stdin is not the generator's script");
    assert!(read("stdout") == answers(&script), "crates/cases/stdout is not the library's answers");
}
