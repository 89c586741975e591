//! "Printing a count and reading the print gives that count again"; and the two times by their own definition.

mod common;
use reference::generate::tables;
use reference::random::Random;
use reference::*;

#[test]
fn reading_a_print_gives_its_count() {
    let mut random = Random::new(1);
    let mut longest = 0;
    for _ in 0..3_000 {
        let tables = tables::sound(&mut random);
        let (layout, partitions) = (tables.layout, tables.partitions());
        let p: u64 = layout.moduli[..layout.n as usize].iter().product();
        let total: u64 = (0..tables.start.len()).map(|i| tables.end[i] - tables.start[i]).sum();
        for _ in 0..20 {
            let count = random.pick(&[0, 1, p / 2, p - 1, p, p + 1]);
            let count = if random.chance(50) { count } else { random.magnitude(p - 1) };
            let mut lent = [0; 256];
            match print_count(&layout, count, &mut lent) {
                Ok(len) => {
                    assert!(count < p);
                    assert_eq!(read_text(&layout, &lent[..len]), Ok(count));
                }
                Err(refusal) => assert!(refusal == Refusal::new(9) && count >= p),
            }
            let mut e = random.between(0, total);
            if random.chance(30) {
                let row = random.below(tables.start.len());
                e = (0..row).map(|i| tables.end[i] - tables.start[i]).sum();
            }
            if random.chance(10) {
                e = random.near(total);
            }
            match print_stamp(&layout, partitions, e, &mut lent) {
                Ok(len) => {
                    assert!(e <= total);
                    assert_eq!(read_stamp(&layout, partitions, &lent[..len]), Ok(e));
                    longest = longest.max(len);
                }
                Err(refusal) => assert!(refusal == Refusal::new(12) && e > total),
            }
        }
    }
    assert!(longest > 40 && longest <= 96, "longest print {}", longest);
}

/// The time of e is the first whole nanosecond at or after the line; the count at T is the last at or before it, in the
/// segment of T. Where the table nowhere steps back, a count's time gives the count again.
#[test]
fn times_by_their_definition() {
    let mut random = Random::new(2);
    let (mut times, mut counts, mut returns, mut stops, mut beyond, mut above) = (0, 0, 0, 0, 0, 0);
    for _ in 0..6_000 {
        let tables = tables::sound(&mut random);
        let (layout, partitions, segments) = (tables.layout, tables.partitions(), tables.segments());
        let Segments { count, time, rate } = segments;
        let msf: u64 = layout.moduli[1..layout.n as usize].iter().product();
        let unit = i128::from(1_000 * msf);
        let total: u64 = (0..tables.start.len()).map(|i| tables.end[i] - tables.start[i]).sum();
        let steps = steps_back(&layout, partitions, segments).unwrap();
        for _ in 0..10 {
            let mut e = random.between(0, total);
            if random.chance(50) {
                let edge = random.pick(count);
                e = random.near(edge);
            }
            match time_of(&layout, partitions, segments, e) {
                Ok(answer) => {
                    let i = (0..count.len()).rev().find(|&i| count[i] <= e).unwrap();
                    let late = i128::from(answer - time[i]) * unit - i128::from(rate[i]) * i128::from(e - count[i]);
                    assert!((0..unit).contains(&late));
                    times += 1;
                    if !steps {
                        assert_eq!(count_at(&layout, partitions, segments, answer), Ok(e));
                        returns += 1;
                    }
                }
                Err(Refusal { number: 12, place: None }) => assert!(e > total),
                Err(Refusal { number: 13, place: None }) => assert!(e < count[0]),
                other => panic!("{:?}", other),
            }
            let mut t = time[0] + random.magnitude(1 << 40) as i64;
            if random.chance(50) {
                let edge = random.pick(time);
                t = random.near(edge as u64) as i64;
            }
            let i = (0..time.len()).rev().find(|&i| time[i] <= t);
            match count_at(&layout, partitions, segments, t) {
                Ok(answer) => {
                    let i = i.unwrap();
                    let past = i128::from(t - time[i]) * unit - i128::from(rate[i]) * i128::from(answer - count[i]);
                    assert!(past >= 0 && answer <= total);
                    if past >= i128::from(rate[i]) {
                        assert_eq!(answer + 1, count[i + 1]);
                        stops += 1;
                    }
                    counts += 1;
                }
                Err(Refusal { number: 13, place: None }) => assert!(i.is_none()),
                Err(Refusal { number: 14, place: None }) if !(-common::LATEST..=common::LATEST).contains(&t) => {
                    beyond += 1
                }
                Err(Refusal { number: 14, place: None }) => {
                    // The last segment's line is past the total by a whole tick.
                    let i = i.unwrap();
                    assert_eq!(i, time.len() - 1);
                    let ticks = i128::from(total + 1 - count[i]);
                    assert!(i128::from(t - time[i]) * unit >= i128::from(rate[i]) * ticks);
                    above += 1;
                }
                other => panic!("{:?}", other),
            }
        }
    }
    println!("{} {} {} {} {} {}", times, counts, returns, stops, beyond, above);
    assert!(times > 10_000 && counts > 10_000 && returns > 5_000);
    assert!(stops > 100 && beyond > 100 && above > 1_000);
}
