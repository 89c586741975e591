//! Lines to questions and table entries.

use super::{LONGEST_LINE, MOST_BYTES, MOST_KERNEL, MOST_LEN, MOST_LENT, MOST_TAIL};
use crate::packet::Header;
use crate::{DoubleSegment, Layout, RawCounter};

/// A good line.
pub enum Line<'a> {
    Layout(Layout),
    Partitions,
    Start(u64),
    End(u64),
    Segments,
    Count(u64),
    Time(i64),
    Rate(u64),
    Counter(RawCounter),
    Older,
    Ask(Question<'a>),
}

#[derive(Clone, Copy)]
pub enum Question<'a> {
    ReadText(&'a [u8]),
    ReadStamp(&'a [u8]),
    ReadMessage(&'a [u8]),
    PrintCount { count: u64, fill: u8, len: usize },
    PrintStamp { e: u64, fill: u8, len: usize },
    TimeOf(u64),
    CountAt(i64),
    StepsBack,
    Forward { segment: DoubleSegment, msf: u64, given: u64 },
    Back { segment: DoubleSegment, msf: u64, given: f64 },
    ReadKernel(KernelQuestion<'a>),
    RawReset { number: u64, raw: u32 },
    RawRead(u32),
    Microseconds { seconds: u32, us: u32 },
    ReadPacket(&'a [u8]),
    WritePacket(WriteQuestion<'a>),
    Walk { len: usize, tail: u64, piece: &'a [u8] },
    Succeeds,
    Horizon,
}

#[derive(Clone, Copy)]
pub struct KernelQuestion<'a> {
    pub clock: i64,
    /// The lengths of the lent lists: moduli, offsets, starts, ends, counts, times, rates.
    pub lent: [usize; 7],
    pub text: &'a [u8],
}

#[derive(Clone, Copy)]
pub struct WriteQuestion<'a> {
    pub header: Header,
    pub e: u64,
    pub fill: u8,
    pub len: usize,
    pub data: &'a [u8],
}

/// Reads a line; none for a bad one. Bytes of a text, message, kernel text or packet go to the buffer.
pub fn parse<'a>(line: &[u8], buffer: &'a mut [u8; MOST_KERNEL]) -> Option<Line<'a>> {
    if line.len() > LONGEST_LINE {
        return None;
    }
    // "Words are separated by one blank": two blanks have an empty word between them, which is never good.
    let mut words = line.split(|&byte| byte == b' ');
    let good = match words.next()? {
        b"layout" => {
            let (n, delimiter) = (number(words.next()?)?, byte(words.next()?)?);
            let (mut moduli, mut offsets) = ([0; 10], [0; 10]);
            for slot in moduli.iter_mut().chain(offsets.iter_mut()) {
                *slot = number(words.next()?)?;
            }
            Line::Layout(Layout { n, moduli, offsets, delimiter })
        }
        b"partitions" => Line::Partitions,
        b"start" => Line::Start(number(words.next()?)?),
        b"end" => Line::End(number(words.next()?)?),
        b"segments" => Line::Segments,
        b"count" => Line::Count(number(words.next()?)?),
        b"time" => Line::Time(time(words.next()?)?),
        b"rate" => Line::Rate(number(words.next()?)?),
        b"read-text" => Line::Ask(Question::ReadText(bytes(words.next()?, &mut buffer[..MOST_BYTES])?)),
        b"read-stamp" => Line::Ask(Question::ReadStamp(bytes(words.next()?, &mut buffer[..MOST_BYTES])?)),
        b"read-message" => Line::Ask(Question::ReadMessage(bytes(words.next()?, &mut buffer[..MOST_BYTES])?)),
        b"print-count" => {
            let (count, fill) = (number(words.next()?)?, byte(words.next()?)?);
            Line::Ask(Question::PrintCount { count, fill, len: up_to(words.next()?, MOST_LEN)? })
        }
        b"print-stamp" => {
            let (e, fill) = (number(words.next()?)?, byte(words.next()?)?);
            Line::Ask(Question::PrintStamp { e, fill, len: up_to(words.next()?, MOST_LEN)? })
        }
        b"time-of" => Line::Ask(Question::TimeOf(number(words.next()?)?)),
        b"count-at" => Line::Ask(Question::CountAt(time(words.next()?)?)),
        b"steps-back" => Line::Ask(Question::StepsBack),
        b"forward" => {
            let segment = segment(&mut words)?;
            let (msf, given) = (number(words.next()?)?, number(words.next()?)?);
            Line::Ask(Question::Forward { segment, msf, given })
        }
        b"back" => {
            let segment = segment(&mut words)?;
            let (msf, given) = (number(words.next()?)?, double(words.next()?)?);
            Line::Ask(Question::Back { segment, msf, given })
        }
        b"read-kernel" => {
            let clock = time(words.next()?)?;
            let mut lent = [0; 7];
            for len in &mut lent {
                *len = up_to(words.next()?, MOST_LENT)?;
            }
            Line::Ask(Question::ReadKernel(KernelQuestion { clock, lent, text: bytes(words.next()?, buffer)? }))
        }
        b"raw-new" => Line::Counter(RawCounter::new()),
        b"raw-state" => {
            let (raw, count) = (half(words.next()?)?, number(words.next()?)?);
            Line::Counter(RawCounter::at(raw, count))
        }
        b"raw-reset" => {
            let (number, raw) = (number(words.next()?)?, half(words.next()?)?);
            Line::Ask(Question::RawReset { number, raw })
        }
        b"raw-read" => Line::Ask(Question::RawRead(half(words.next()?)?)),
        b"microseconds" => {
            let (seconds, us) = (half(words.next()?)?, half(words.next()?)?);
            Line::Ask(Question::Microseconds { seconds, us })
        }
        b"read-packet" => Line::Ask(Question::ReadPacket(bytes(words.next()?, buffer)?)),
        b"write-packet" => {
            let (packet_type, apid) = (byte(words.next()?)?, quarter(words.next()?)?);
            let (flags, sequence) = (byte(words.next()?)?, quarter(words.next()?)?);
            let (coarse, fine) = (byte(words.next()?)?, byte(words.next()?)?);
            let header = Header { packet_type, apid, flags, sequence, coarse, fine };
            let (e, fill) = (number(words.next()?)?, byte(words.next()?)?);
            let len = up_to(words.next()?, MOST_LEN)?;
            Line::Ask(Question::WritePacket(WriteQuestion {
                header,
                e,
                fill,
                len,
                data: bytes(words.next()?, buffer)?,
            }))
        }
        b"walk" => {
            let (len, tail) = (up_to(words.next()?, MOST_TAIL)?, number(words.next()?)?);
            Line::Ask(Question::Walk { len, tail, piece: bytes(words.next()?, &mut buffer[..MOST_BYTES])? })
        }
        b"older" => Line::Older,
        b"succeeds" => Line::Ask(Question::Succeeds),
        b"horizon" => Line::Ask(Question::Horizon),
        _ => return None,
    };
    match words.next() {
        None => Some(good),
        Some(_) => None,
    }
}

/// "decimal digits, leading zeros allowed", a u64.
pub(crate) fn number(word: &[u8]) -> Option<u64> {
    if word.is_empty() {
        return None;
    }
    word.iter().try_fold(0u64, |value, &digit| match digit {
        b'0'..=b'9' => value.checked_mul(10)?.checked_add(u64::from(digit - b'0')),
        _ => None,
    })
}

fn byte(word: &[u8]) -> Option<u8> {
    u8::try_from(number(word)?).ok()
}

/// "RAW, SECONDS and US are 0 to 2^32 - 1".
fn half(word: &[u8]) -> Option<u32> {
    u32::try_from(number(word)?).ok()
}

/// "APID and SEQUENCE 0 to 65,535".
fn quarter(word: &[u8]) -> Option<u16> {
    u16::try_from(number(word)?).ok()
}

/// A length.
fn up_to(word: &[u8], most: usize) -> Option<usize> {
    number(word).filter(|&len| len <= most as u64).map(|len| len as usize)
}

/// "with `-` in front of a negative time", an i64. `-0` is taken as 0.
pub(crate) fn time(word: &[u8]) -> Option<i64> {
    match word {
        [b'-', digits @ ..] => i64::try_from(-i128::from(number(digits)?)).ok(),
        _ => i64::try_from(number(word)?).ok(),
    }
}

pub(crate) fn hex(digit: u8) -> Option<u8> {
    match digit {
        b'0'..=b'9' => Some(digit - b'0'),
        b'a'..=b'f' => Some(digit - b'a' + 10),
        _ => None,
    }
}

/// "Bytes are lower-case hex, no bytes at all is `.`". No more of them than the buffer has.
fn bytes<'a>(word: &[u8], buffer: &'a mut [u8]) -> Option<&'a [u8]> {
    if word == b"." {
        return Some(&[]);
    }
    if word.is_empty() || word.len() % 2 != 0 || word.len() / 2 > buffer.len() {
        return None;
    }
    let text = &mut buffer[..word.len() / 2];
    for (byte, pair) in text.iter_mut().zip(word.chunks_exact(2)) {
        *byte = hex(pair[0])? << 4 | hex(pair[1])?;
    }
    Some(text)
}

/// "A double is the 16 lower-case hex digits of its bits; every NaN pattern means NaN."
fn double(word: &[u8]) -> Option<f64> {
    if word.len() != 16 {
        return None;
    }
    let bits = word.iter().try_fold(0u64, |bits, &digit| Some(bits << 4 | u64::from(hex(digit)?)))?;
    Some(f64::from_bits(bits))
}

fn segment<'l>(words: &mut impl Iterator<Item = &'l [u8]>) -> Option<DoubleSegment> {
    let (count, time) = (double(words.next()?)?, double(words.next()?)?);
    Some(DoubleSegment { count, time, rate: double(words.next()?)? })
}
