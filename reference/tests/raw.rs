//! Request 4, "Raw counters from the second satellite" (README.md, "Raw counters").

mod common;
use common::*;
use reference::generate::tables::sound;
use reference::random::Random;
use reference::script::{answers, Tables};
use reference::*;

const E15: u64 = 1_000_000_000_000_000;
/// 2^32.
const TURN: u128 = 1 << 32;

fn reset(counter: &mut RawCounter, number: u64, raw: u32) -> Result<u64, Refusal> {
    let (layout, partitions, _) = table_a();
    counter.reset(&layout, partitions, number, raw)
}

fn read(counter: &mut RawCounter, raw: u32) -> Result<u64, Refusal> {
    let (layout, partitions, _) = table_a();
    counter.read(&layout, partitions, raw)
}

/// The readings' examples, by their numbers, with table A.
#[test]
fn examples() {
    // 1
    let mut counter = RawCounter::new();
    assert_eq!(reset(&mut counter, 2, 4_294_967_293), Ok(500));
    assert_eq!(counter, RawCounter { raw: 4_294_967_293, count: 500, reset: true });
    assert_eq!(read(&mut counter, 4), Ok(507));
    assert_eq!(counter, RawCounter::at(4, 507));
    // 2
    assert_eq!(reset(&mut counter, 1, 0), Ok(0));
    assert_eq!(read(&mut counter, 600), Ok(600));
    assert_eq!(read(&mut counter, 600), Ok(600));
    // 3
    assert_eq!(reset(&mut counter, 1, 0), Ok(0));
    assert_eq!(read(&mut counter, 1_201), err(12));
    assert_eq!(counter, RawCounter::at(0, 0));
    assert_eq!(read(&mut counter, 1_200), Ok(1_200));
    let mut counter = RawCounter::at(5, u64::MAX);
    assert_eq!(read(&mut counter, 6), err(12));
    assert_eq!(read(&mut counter, 5), err(12));
    assert_eq!(counter, RawCounter::at(5, u64::MAX));
    // 4
    assert_eq!(reset(&mut counter, 0, 7), err(10));
    assert_eq!(reset(&mut counter, 3, 7), err(10));
    assert_eq!(counter, RawCounter::at(5, u64::MAX));
    assert_eq!(read(&mut RawCounter::new(), 0), err(27));
    // 5
    assert_eq!(microseconds(4_294_967_295, 999_999), Ok(1_099_511_627_776));
    // Request 4's own.
    assert_eq!(microseconds(0, 998_046), Ok(255));
    assert_eq!(microseconds(0, 998_047), Ok(256));
    assert_eq!(microseconds(7, 998_047), Ok(8 * 256));
    assert_eq!(microseconds(7, 1_000_000), err(24));
}

#[test]
fn order_of_refusals() {
    let (layout, partitions, _) = table_a();
    let bad_layout = Layout { delimiter: 0, ..layout };
    let bad_partitions = Partitions { start: &[0, 900], end: &[500, 900] };
    for counter in [RawCounter::new(), RawCounter::at(5, 7), RawCounter::at(5, 1_201)] {
        let mut state = counter;
        for number in [0, 1, 3] {
            for partitions in [partitions, bad_partitions] {
                assert_eq!(state.reset(&bad_layout, partitions, number, 9), err(1));
                assert_eq!(state.read(&bad_layout, partitions, 9), err(1));
            }
            assert_eq!(state.reset(&layout, bad_partitions, number, 9), err_at(2, 1));
            assert_eq!(state.read(&layout, bad_partitions, 9), err_at(2, 1));
        }
        for number in [0, 3, 1 << 32, (1 << 32) + 1, u64::MAX] {
            assert_eq!(state.reset(&layout, partitions, number, 9), err(10));
        }
        // 27 also for a raw number past the total.
        let refusal = if counter.reset { 12 } else { 27 };
        assert_eq!(state.read(&layout, partitions, 4), err(refusal));
        assert_eq!(state, counter);
    }
}

/// The tables of the call bind, whatever tables came before.
#[test]
fn other_tables() {
    let (layout, partitions, _) = table_a();
    let short = Partitions { start: &[0], end: &[500] };
    let mut counter = RawCounter::new();
    assert_eq!(counter.reset(&layout, partitions, 2, 10), Ok(500));
    assert_eq!(counter.read(&layout, partitions, 11), Ok(501));
    assert_eq!(counter.read(&layout, short, 11), err(12));
    assert_eq!(counter.reset(&layout, short, 2, 11), err(10));
    assert_eq!(counter.read(&layout, partitions, 12), Ok(502));
    // From a state that no call leaves under these tables, a reset is as good as from any other.
    let mut counter = RawCounter::at(3, u64::MAX);
    assert_eq!(counter.reset(&layout, short, 1, 4), Ok(0));
    assert_eq!(counter, RawCounter::at(4, 0));
}

/// What is kept beside a counter, in wide numbers: the last accepted reset's start, the differences of the readings accepted
/// since, and where the true counter stood.
struct Kept {
    start: u128,
    differences: u128,
    raw: u32,
    true_at_reset: u128,
    true_at_last: u128,
    /// Whether the true counter moved less than 2^32 from each of these calls to the next.
    close: bool,
}

/// "After any list of calls, each on the state the one before left, with an accepted reset the count equals the last such
/// reset's start plus the differences of the readings accepted since; if the true counter moved less than 2^32 ticks from
/// each of these calls to the next, they add up to what it moved."
#[test]
fn theorem() {
    let mut random = Random::new(4);
    let (mut sums, mut moves, mut far, mut refused) = (0, 0, 0, 0);
    for list in 0..4_000 {
        // Any state.
        let mut counter = match list % 3 {
            0 => RawCounter::new(),
            1 => RawCounter::at(random.word() as u32, random.magnitude(E15)),
            _ => RawCounter::at(random.word() as u32, u64::MAX - random.magnitude(1 << 33)),
        };
        let mut kept: Option<Kept> = None;
        let mut tables = any_tables(&mut random);
        let mut true_count = u128::from(random.word()) << random.below(40);
        for _ in 0..random.between(1, 40) {
            if random.chance(5) {
                tables = any_tables(&mut random);
            }
            let total: u64 = tables.start.iter().zip(&tables.end).map(|(start, end)| end.saturating_sub(*start)).sum();
            let room = total.saturating_sub(counter.count);
            true_count += match random.below(12) {
                0 => 0,
                1 => TURN - 1,
                2 => TURN + u128::from(random.magnitude(1 << 34)),
                3 => u128::from(random.word() >> 32),
                _ => u128::from(random.magnitude(room.min(u64::from(u32::MAX)))),
            };
            let raw = (true_count % TURN) as u32;
            let before = counter;
            if random.chance(15) || kept.is_none() && random.chance(50) {
                let rows = tables.start.len() as u64;
                let number = random.between(0, rows + 1);
                let result = counter.reset(&tables.layout, tables.partitions(), number, raw);
                if let Ok(count) = result {
                    let earlier = tables.start.iter().zip(&tables.end).take(number as usize - 1);
                    let start = earlier.map(|(start, end)| u128::from(end - start)).sum();
                    assert_eq!(u128::from(count), start);
                    let (at, close) = (true_count, true);
                    kept = Some(Kept { start, differences: 0, raw, true_at_reset: at, true_at_last: at, close });
                } else {
                    refused += 1;
                    assert_eq!(counter, before);
                }
            } else {
                let result = counter.read(&tables.layout, tables.partitions(), raw);
                match (result, &mut kept) {
                    (Err(_), _) => {
                        refused += 1;
                        assert_eq!(counter, before);
                    }
                    (Ok(_), None) => assert!(before.reset),
                    (Ok(_), Some(kept)) => {
                        kept.differences += (u128::from(raw) + TURN - u128::from(kept.raw)) % TURN;
                        kept.close &= true_count - kept.true_at_last < TURN;
                        kept.raw = raw;
                        kept.true_at_last = true_count;
                    }
                }
                assert_eq!(result.unwrap_or(before.count), counter.count);
            }
            if let Some(kept) = &kept {
                assert_eq!(u128::from(counter.count), kept.start + kept.differences);
                assert_eq!((counter.raw, counter.reset), (kept.raw, true));
                sums += 1;
                let moved = kept.true_at_last - kept.true_at_reset;
                if kept.close {
                    assert_eq!(kept.differences, moved);
                    moves += usize::from(moved > 0);
                } else {
                    // Short by a multiple of 2^32.
                    assert!(kept.differences < moved);
                    assert_eq!((moved - kept.differences) % TURN, 0);
                    far += 1;
                }
            }
        }
    }
    assert!(
        sums > 40_000 && moves > 15_000 && far > 1_000 && refused > 10_000,
        "{} {} {} {}",
        sums,
        moves,
        far,
        refused
    );
}

/// Sound ones, some with a long total; sometimes broken.
fn any_tables(random: &mut Random) -> Tables {
    let mut tables = sound(random);
    if random.chance(60) {
        tables.layout = plain(&[E15]);
        let length = (1 << 31) + random.magnitude(1 << 40);
        tables.start = vec![7, 0, 1 << 33];
        tables.end = vec![9, length, (1 << 33) + length];
    }
    match random.below(20) {
        0 => tables.layout.delimiter = 0,
        1 => {
            tables.end.pop();
        }
        _ => {}
    }
    tables
}

/// "moved less than 2^32 ticks": a move of exactly 2^32 is not seen, one less is.
#[test]
fn a_whole_turn_is_lost() {
    let layout = plain(&[E15]);
    let partitions = Partitions { start: &[0], end: &[E15 - 1] };
    for start in [0u128, 5, TURN - 1, 77 * TURN + 12_345] {
        for (moved, counted) in
            [(TURN - 1, TURN - 1), (TURN, 0), (TURN + 1, 1), (2 * TURN - 1, TURN - 1), (2 * TURN, 0), (1, 1), (0, 0)]
        {
            let raw = |count: u128| (count % TURN) as u32;
            let mut counter = RawCounter::new();
            assert_eq!(counter.reset(&layout, partitions, 1, raw(start)), Ok(0));
            assert_eq!(counter.read(&layout, partitions, raw(start + moved)), Ok(counted as u64));
            assert_eq!(counted == moved, moved < TURN);
        }
    }
    // Refused calls between do not help: the moves are from accepted call to accepted call.
    let (mut counter, short) = (RawCounter::new(), Partitions { start: &[0], end: &[9] });
    assert_eq!(counter.reset(&layout, partitions, 1, 0), Ok(0));
    assert_eq!(counter.read(&layout, short, 1 << 31), err(12));
    assert_eq!(counter.read(&layout, partitions, 0), Ok(0));
}

/// Document 002, Appendix 1: for each subtick the least and greatest microseconds. The paper's table and request 4's formula
/// agree everywhere.
#[test]
fn microseconds_of_document_002() {
    let table = include_str!("microseconds.tab");
    let rows: Vec<Vec<u32>> = table
        .lines()
        .filter(|line| !line.starts_with('#'))
        .map(|line| line.split(' ').map(|word| word.parse().unwrap()).collect())
        .collect();
    assert_eq!(rows.len(), 257);
    let mut next = 0;
    for (subtick, row) in rows.iter().enumerate() {
        let (low, high) = (row[1], row[2]);
        assert_eq!((row[0] as usize, low), (subtick, next));
        for us in low..=high {
            for second in [0, 1, u32::MAX] {
                // "a subtick of 256 carries into the second"
                let (seconds, rest) =
                    if subtick == 256 { (u64::from(second) + 1, 0) } else { (second.into(), subtick) };
                assert_eq!(microseconds(second, us), Ok(seconds * 256 + rest as u64), "{}", us);
            }
        }
        next = high + 1;
    }
    assert_eq!(next, 1_000_000);
    for us in [1_000_000, 1_000_001, 1_048_575, 1 << 31, u32::MAX] {
        for second in [0, 1, u32::MAX] {
            assert_eq!(microseconds(second, us), err(24));
        }
    }
}

fn ask(script: &str) -> String {
    String::from_utf8(answers(script.as_bytes())).unwrap()
}

#[test]
fn script_lines() {
    let a = "layout 2 1 100 10 0 0 0 0 0 0 0 0 0 0 0 0 0 0 0 0 0 0\nstart 0\nend 500\nstart 200\nend 900\n";
    let ask_a = |lines: &str| ask(&[a, lines].concat());
    // Before any table, and before any reset.
    assert_eq!(ask("raw-read 5\nraw-reset 1 5\n"), "refused 1 none\nrefused 1 none\n");
    assert_eq!(
        ask_a("raw-read 5\nraw-reset 0 5\nraw-reset 3 5\n"),
        "refused 27 none\nrefused 10 none\nrefused 10 none\n"
    );
    assert_eq!(
        ask_a("raw-reset 2 4294967293\nraw-read 4\nraw-read 698\nraw-reset 0 1\nraw-read 697\n"),
        "ok 4294967293 500\nok 4 507\nrefused 12 4 507\nrefused 10 4 507\nok 697 1200\n"
    );
    // A state, and a new counter.
    assert_eq!(
        ask_a("raw-state 4294967295 18446744073709551615\nraw-read 0\nraw-state 4294967295 1199\nraw-read 0\nraw-read 1\n"),
        "refused 12 4294967295 18446744073709551615\nok 0 1200\nrefused 12 0 1200\n"
    );
    assert_eq!(ask_a("raw-state 5 5\nraw-read 6\nraw-new\nraw-read 7\n"), "ok 6 6\nrefused 27 none\n");
    // The counter stays when tables change; the place stands directly behind the number.
    assert_eq!(
        ask_a("raw-reset 2 7\nstart 5\nraw-read 8\nraw-reset 1 8\nraw-new\nraw-read 8\nend 5\nraw-reset 1 8\n"),
        "ok 7 500\nrefused 2 2 7 500\nrefused 2 2 7 500\nrefused 2 2 none\nrefused 2 2 none\n"
    );
    assert_eq!(
        ask("microseconds 0 0\nmicroseconds 1 998046\nmicroseconds 1 998047\nmicroseconds 4294967295 4294967295\n"),
        "ok 0\nok 511\nok 512\nrefused 24\n"
    );
    // Numbers outside their range, words too few and too many: bad lines, nothing is changed.
    for line in [
        "raw-new 1",
        "raw-state 4294967296 0",
        "raw-state 0 18446744073709551616",
        "raw-state 0",
        "raw-state -1 0",
        "raw-reset 1 4294967296",
        "raw-reset 18446744073709551616 0",
        "raw-reset 1",
        "raw-reset 1 0 0",
        "raw-read",
        "raw-read 4294967296",
        "raw-read -1",
        "raw-read 1 1",
        "microseconds 0",
        "microseconds 4294967296 0",
        "microseconds 0 4294967296",
    ] {
        let script = ["raw-reset 2 7\n", line, "\nraw-read 7\n"].concat();
        assert_eq!(ask_a(&script), "ok 7 500\nbad line\nok 7 500\n", "{}", line);
    }
}
