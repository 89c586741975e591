//! Answers to lines.

use std::fmt::Display;
use std::io::{self, Write};

use super::{
    adler, parse, KernelQuestion, Line, Question, Tables, WriteQuestion, LONGEST_LINE, MOST_ENTRIES, MOST_KERNEL,
    MOST_LEN, MOST_LENT, MOST_TAIL,
};
use crate::packet::{self, Packet};
use crate::{
    back, count_at, forward, horizon, microseconds, print_count, print_stamp, read_kernel, read_message, read_stamp,
    read_text, steps_back, succeeds, time_of, RawCounter, Refusal, RefusedTable,
};

/// Answers a script line by line.
pub struct Session {
    pub tables: Tables,
    /// "At the start the older table is as empty as the newer."
    pub older: Tables,
    /// "The script has one raw counter; at the start it has seen no reset."
    pub counter: RawCounter,
    /// "The script has one tail buffer of 65,600 zeros".
    tail: Box<[u8; MOST_TAIL]>,
    buffer: Box<[u8; MOST_KERNEL]>,
}

impl Session {
    pub fn new() -> Session {
        let (tail, buffer) = (Box::new([0; MOST_TAIL]), Box::new([0; MOST_KERNEL]));
        Session { tables: Tables::new(), older: Tables::new(), counter: RawCounter::new(), tail, buffer }
    }

    /// One line without its byte 10; its answer, if it has one, is added to the output.
    pub fn line(&mut self, line: &[u8], output: &mut Vec<u8>) {
        // "empty lines and lines that begin with `#` are passed over"; an over-long line is bad whatever it begins with.
        if line.is_empty() || line[0] == b'#' && line.len() <= LONGEST_LINE {
            return;
        }
        let done = match parse(line, &mut self.buffer) {
            Some(Line::Ask(Question::Walk { len, tail, piece })) => walked(output, &mut self.tail[..len], tail, piece),
            // "copies the script's layout, partitions and segments as the older table"
            Some(Line::Older) => {
                self.older = self.tables.clone();
                true
            }
            Some(Line::Ask(Question::Succeeds)) => said(output, succeeds(self.older.table(), self.tables.table())),
            Some(Line::Ask(Question::Horizon)) => said(output, horizon(self.older.table(), self.tables.table())),
            Some(good) => self.tables.take(&mut self.counter, good, output),
            None => false,
        };
        if !done {
            output.extend_from_slice(b"bad line\n");
        }
    }
}

impl Default for Session {
    fn default() -> Session {
        Session::new()
    }
}

impl Tables {
    /// False for "a 10,002nd entry".
    fn take(&mut self, counter: &mut RawCounter, line: Line, output: &mut Vec<u8>) -> bool {
        match line {
            Line::Layout(layout) => self.layout = layout,
            Line::Partitions => {
                self.start.clear();
                self.end.clear();
            }
            Line::Start(value) => return add(&mut self.start, value),
            Line::End(value) => return add(&mut self.end, value),
            Line::Segments => {
                self.count.clear();
                self.time.clear();
                self.rate.clear();
            }
            Line::Count(value) => return add(&mut self.count, value),
            Line::Time(value) => return add(&mut self.time, value),
            Line::Rate(value) => return add(&mut self.rate, value),
            Line::Counter(state) => *counter = state,
            Line::Older => unreachable!("the session keeps the older table"),
            Line::Ask(question) => self.answer(counter, question, output),
        }
        true
    }

    fn answer(&self, counter: &mut RawCounter, question: Question, output: &mut Vec<u8>) {
        let (layout, partitions, segments) = (&self.layout, self.partitions(), self.segments());
        let written = match question {
            Question::ReadText(text) => plain(output, read_text(layout, text)),
            Question::ReadStamp(stamp) => plain(output, read_stamp(layout, partitions, stamp)),
            Question::ReadMessage(message) => plain(output, read_message(layout, partitions, message)),
            Question::PrintCount { count, fill, len } => {
                let mut lent = [fill; MOST_LEN];
                let result = print_count(layout, count, &mut lent[..len]);
                printed(output, result, &lent[..len])
            }
            Question::PrintStamp { e, fill, len } => {
                let mut lent = [fill; MOST_LEN];
                let result = print_stamp(layout, partitions, e, &mut lent[..len]);
                printed(output, result, &lent[..len])
            }
            Question::TimeOf(e) => plain(output, time_of(layout, partitions, segments, e)),
            Question::CountAt(t) => plain(output, count_at(layout, partitions, segments, t)),
            Question::StepsBack => {
                let word = steps_back(layout, partitions, segments).map(|yes| if yes { "yes" } else { "no" });
                plain(output, word)
            }
            Question::Forward { segment, msf, given } => plain(output, bits(forward(segment, msf, given))),
            Question::Back { segment, msf, given } => plain(output, bits(back(segment, msf, given))),
            Question::ReadKernel(question) => kernel(output, question),
            Question::RawReset { number, raw } => {
                let result = counter.reset(layout, partitions, number, raw);
                counted(output, result, counter)
            }
            Question::RawRead(raw) => {
                let result = counter.read(layout, partitions, raw);
                counted(output, result, counter)
            }
            Question::Microseconds { seconds, us } => plain(output, microseconds(seconds, us)),
            Question::ReadPacket(bytes) => plain(output, packet::read(layout, partitions, bytes).map(fields)),
            Question::WritePacket(WriteQuestion { header, e, fill, len, data }) => {
                let mut lent = [fill; MOST_LEN];
                let result = packet::write(layout, partitions, &header, e, data, &mut lent[..len]);
                printed(output, result, &lent[..len])
            }
            Question::Walk { .. } => unreachable!("a walk asks no tables"),
            Question::Succeeds | Question::Horizon => unreachable!("the session keeps the older table"),
        };
        written.expect("a vector takes all bytes");
    }
}

fn add<T>(list: &mut Vec<T>, value: T) -> bool {
    let room = list.len() < MOST_ENTRIES;
    if room {
        list.push(value);
    }
    room
}

fn bits(result: Result<f64, Refusal>) -> Result<String, Refusal> {
    result.map(|double| format!("{:016x}", double.to_bits()))
}

fn plain<T: Display, R: Display>(output: &mut Vec<u8>, result: Result<T, R>) -> io::Result<()> {
    match result {
        Ok(answer) => writeln!(output, "ok {}", answer),
        Err(refusal) => writeln!(output, "refused {}", refusal),
    }
}

/// The same, of two tables: "`refused older K`, else `refused newer K`, with the place behind K where there is one". Always a
/// good line.
fn said<T: Display>(output: &mut Vec<u8>, result: Result<T, RefusedTable>) -> bool {
    plain(output, result).expect("a vector takes all bytes");
    true
}

/// "TYPE APID FLAGS SEQUENCE COARSE FINE DATA COUNT ENCODED".
fn fields(packet: Packet) -> String {
    let Packet { header, data, count, encoded } = packet;
    let packet::Header { packet_type, apid, flags, sequence, coarse, fine } = header;
    format!("{} {} {} {} {} {} {} {} {}", packet_type, apid, flags, sequence, coarse, fine, data, count, encoded)
}

/// "the tail's length and sum afterwards and, for each whole packet in order, LENGTH:SUM". Always a good line.
fn walked(output: &mut Vec<u8>, lent: &mut [u8], tail: u64, piece: &[u8]) -> bool {
    let mut packets = String::new();
    let give = |packet: &[u8]| packets += &format!(" {}:{}", packet.len(), adler::sum(packet));
    let result = packet::walk(lent, tail, piece, give);
    let answer = result.map(|tail| format!("{} {}{}", tail, adler::sum(&lent[..tail]), packets));
    plain(output, answer).expect("a vector takes all bytes");
    true
}

/// With the whole buffer afterwards.
fn printed(output: &mut Vec<u8>, result: Result<usize, Refusal>, lent: &[u8]) -> io::Result<()> {
    match result {
        Ok(len) => write!(output, "ok {} ", len)?,
        Err(refusal) => write!(output, "refused {} ", refusal)?,
    }
    put_bytes(output, lent);
    output.push(10);
    Ok(())
}

/// With "the state afterwards [..]; `none` where no reset was accepted".
fn counted(output: &mut Vec<u8>, result: Result<u64, Refusal>, counter: &RawCounter) -> io::Result<()> {
    match result {
        Ok(_) => write!(output, "ok")?,
        Err(refusal) => write!(output, "refused {}", refusal)?,
    }
    if counter.reset {
        writeln!(output, " {} {}", counter.raw, counter.count)
    } else {
        writeln!(output, " none")
    }
}

/// With every lent list afterwards, "each entry 99 before the call".
fn kernel(output: &mut Vec<u8>, question: KernelQuestion) -> io::Result<()> {
    let KernelQuestion { clock, lent, text } = question;
    let mut lists = [[99u64; MOST_LENT]; 6];
    let mut times = [99i64; MOST_LENT];
    let [moduli, offsets, starts, ends, counts, rates] = &mut lists;
    let result = read_kernel(
        text,
        clock,
        &mut moduli[..lent[0]],
        &mut offsets[..lent[1]],
        &mut starts[..lent[2]],
        &mut ends[..lent[3]],
        &mut counts[..lent[4]],
        &mut times[..lent[5]],
        &mut rates[..lent[6]],
    );
    match result {
        Ok(kernel) => {
            let (n, delimiter, system) = (kernel.n, kernel.delimiter, kernel.time_system);
            write!(output, "ok {} {} {} {} {}", n, delimiter, system, kernel.partitions, kernel.segments)?;
        }
        Err(refusal) => write!(output, "refused {}", refusal)?,
    }
    put_list(output, &moduli[..lent[0]])?;
    put_list(output, &offsets[..lent[1]])?;
    put_list(output, &starts[..lent[2]])?;
    put_list(output, &ends[..lent[3]])?;
    put_list(output, &counts[..lent[4]])?;
    put_list(output, &times[..lent[5]])?;
    put_list(output, &rates[..lent[6]])?;
    output.push(10);
    Ok(())
}

/// A blank, then "one word: its numbers with a comma between, `.` if it has none".
fn put_list<T: Display>(output: &mut Vec<u8>, list: &[T]) -> io::Result<()> {
    output.push(b' ');
    if list.is_empty() {
        output.push(b'.');
    }
    for (i, number) in list.iter().enumerate() {
        write!(output, "{}{}", if i > 0 { "," } else { "" }, number)?;
    }
    Ok(())
}

/// Bytes as the script writes them.
pub fn put_bytes(output: &mut Vec<u8>, bytes: &[u8]) {
    if bytes.is_empty() {
        output.push(b'.');
    }
    for &byte in bytes {
        let digit = |value: u8| b"0123456789abcdef"[usize::from(value)];
        output.extend_from_slice(&[digit(byte >> 4), digit(byte & 15)]);
    }
}
