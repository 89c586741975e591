//! Numbers with one byte that is not 0, at each of the eight places of each list, and times of both signs.

use super::*;

const NAMES: [Name; 5] = [Name::ReadStamp, Name::ReadMessage, Name::PrintStamp, Name::TimeOf, Name::CountAt];

pub fn all(writer: &mut Writer) {
    for place in 0..8 {
        moduli(writer, place);
        offsets(writer, place);
        starts(writer, place);
        ends(writer, place);
        counts(writer, place);
        times_at(writer, place);
        rates(writer, place);
    }
    ends_of_times(writer);
}

fn byte(place: usize, value: u8) -> u64 {
    u64::from(value) << (8 * place)
}

fn why(list: &str, place: usize) -> String {
    format!("byte {} of {}", place, list)
}

/// The second of two moduli: 1.1 is one more. MSF is at most 10^12.
fn moduli(writer: &mut Writer, place: usize) {
    let modulus = byte(place, 3);
    let good = place < 5;
    let set = |name: Name, given: Given| {
        let mut call = a(name, given);
        let end = modulus.wrapping_mul(5).wrapping_sub(1);
        let rate = modulus.wrapping_mul(1_000);
        let lists = [&[5, modulus][..], &[0, 0], &[0], &[end], &[0], &[0], &[rate]];
        for (slice, numbers) in call.lists.iter_mut().zip(lists).take(name.lists()) {
            *slice = list(numbers);
        }
        call
    };
    let count = modulus.wrapping_add(1);
    let print = format!("1.{:0width$}", 1, width = (modulus - 1).to_string().len());
    let why = why("moduli", place);
    let mut put = |answer: String, call: Call| writer.call(if good { answer } else { "-1".to_string() }, &why, &call);
    put(count.to_string(), set(Name::ReadText, text("1.1")));
    put(count.to_string(), set(Name::ReadStamp, text("1.1")));
    put(count.to_string(), set(Name::ReadMessage, message("1/1.1")));
    put(format!("{} {}", print.len(), print), set(Name::PrintCount, lent(count, 24)));
    put(format!("{} 1/{}", print.len() + 2, print), set(Name::PrintStamp, lent(count, 24)));
    put(format!("0 {}", count), set(Name::TimeOf, lent(count, 8)));
    put(count.to_string(), set(Name::CountAt, Given::Time(count as i64)));
}

/// An offset is at most 1,000.
fn offsets(writer: &mut Writer, place: usize) {
    let offset = byte(place, 3);
    let good = place < 2;
    let set = |name: Name, given: Given| {
        let mut call = one(name, E15, given);
        call.lists[1] = list(&[offset]);
        call
    };
    let count = 1_000u64.wrapping_sub(offset);
    let print = format!("{:016}", offset.wrapping_add(5));
    let why = why("offsets", place);
    let mut put = |answer: String, call: Call| writer.call(if good { answer } else { "-1".to_string() }, &why, &call);
    put(count.to_string(), set(Name::ReadText, text("1000")));
    put(count.to_string(), set(Name::ReadStamp, text("1000")));
    put(count.to_string(), set(Name::ReadMessage, message("1/1000")));
    put(format!("16 {}", print), set(Name::PrintCount, lent(5, 17)));
    put(format!("18 1/{}", print), set(Name::PrintStamp, lent(5, 19)));
    put("0 5".to_string(), set(Name::TimeOf, lent(5, 8)));
    put("5".to_string(), set(Name::CountAt, Given::Time(5)));
}

/// Of one partition: `count` is the clock count of the encoded count `e`, the total is the last.
fn partition(writer: &mut Writer, why: &str, lists: [u64; 2], good: bool, (count, e, total): (u64, u64, u64)) {
    for name in NAMES {
        let print = format!("1/{:015}", count);
        let (answer, given) = match name {
            Name::PrintStamp => (format!("{} {}", print.len(), print), lent(e, 17)),
            Name::TimeOf => (format!("0 {}", e), lent(e, 8)),
            Name::CountAt => (e.to_string(), Given::Time(e as i64)),
            Name::ReadMessage => (e.to_string(), message(&count.to_string())),
            _ => (e.to_string(), text(&count.to_string())),
        };
        let mut call = one(name, E15, given);
        call.lists[2] = list(&lists[..1]);
        call.lists[3] = list(&lists[1..]);
        writer.call(if good { answer } else { "-2".to_string() }, why, &call);
        // One past the total.
        let (refusal, given) = match name {
            Name::PrintStamp | Name::TimeOf => (-12, lent(total + 1, 17)),
            Name::CountAt => (-14, Given::Time(total as i64 + 1)),
            _ => continue,
        };
        writer.call(if good { refusal } else { -2 }, why, &Call { given, ..call });
    }
}

fn starts(writer: &mut Writer, place: usize) {
    let start = byte(place, 3);
    let total = (E15 - 1).saturating_sub(start);
    partition(writer, &why("starts", place), [start, E15 - 1], place < 7, (start.wrapping_add(5), 5, total));
}

fn ends(writer: &mut Writer, place: usize) {
    let end = byte(place, 3);
    partition(writer, &why("ends", place), [0, end], place < 7, (end, end, end));
}

/// Of one segment under a total of 10^15 - 1 or 1,000.
fn segment(writer: &mut Writer, why: &str, row: (u64, i64, u64), total: u64, good: bool, count: u64, time: i64) {
    let set = |name: Name, given: Given| {
        let mut call = one(name, E15, given);
        call.lists[3] = list(&[total]);
        call.lists[4] = list(&[row.0]);
        call.lists[5] = times(&[row.1]);
        call.lists[6] = list(&[row.2]);
        call
    };
    let (time_of, count_at) = (set(Name::TimeOf, lent(count, 9)), set(Name::CountAt, Given::Time(time)));
    if good {
        writer.call(format!("0 {}", time), why, &time_of);
        writer.call(count, why, &count_at);
    } else {
        writer.call(-3, why, &time_of);
        writer.call(-3, why, &count_at);
    }
}

fn counts(writer: &mut Writer, place: usize) {
    let count = byte(place, 3);
    let why = why("counts", place);
    segment(writer, &why, (count, 0, 1_000), E15 - 1, place < 7, count, 0);
    segment(writer, &why, (count, 0, 1_000), E15 - 1, place < 7, count + 7, 7);
    let mut before = one(Name::TimeOf, E15, lent(count - 1, 8));
    before.lists[4] = list(&[count]);
    writer.call(if place < 7 { -13 } else { -3 }, why, &before);
}

fn times_at(writer: &mut Writer, place: usize) {
    let why = why("times", place);
    for value in [0x03, 0x37, 0x80, 0xff] {
        let time = byte(place, value) as i64;
        let good = (-LATEST..=LATEST - 1_000).contains(&time);
        segment(writer, &why, (0, time, 1_000), 1_000, good, 0, time);
        segment(writer, &why, (0, time, 1_000), 1_000, good, 9, time.wrapping_add(9));
        // All other bytes are ff.
        let time = !time;
        let good = (-LATEST..=LATEST - 1_000).contains(&time);
        segment(writer, &why, (0, time, 1_000), 1_000, good, 9, time.wrapping_add(9));
    }
}

/// A rate is at least 1,000: its 3 at place 1 is a 5.
fn rates(writer: &mut Writer, place: usize) {
    let rate = byte(place, if place == 1 { 5 } else { 3 });
    let good = place > 0 && place < 7;
    let time = if good { (rate * 7 + 999) / 1_000 } else { 7 };
    segment(writer, &why("rates", place), (0, 0, rate), 1_000, good, 7, time as i64);
}

/// The ends of the range, in the table and as the time asked.
fn ends_of_times(writer: &mut Writer) {
    for time in [0, -1, 1, LATEST, -LATEST, LATEST + 1, -LATEST - 1, i64::MAX, i64::MIN] {
        let why = format!("a segment at the time {}", time);
        let good = (-LATEST..=LATEST).contains(&time);
        // At the total no line goes on.
        segment(writer, &why, (1_000, time, 1_000), 1_000, good, 1_000, time);
        let asked = a(Name::CountAt, Given::Time(time));
        let answer = match time {
            0 => 400,
            1 => 400,
            -1 => 399,
            _ if time == -LATEST => -13,
            _ => -14,
        };
        writer.call(answer, format!("the time {} asked", time), &asked);
    }
}
