//! What the assignments give.

use super::assignments::Value;
use super::number::Decimal;
use crate::Refusal;

/// The ten names.
#[derive(Clone, Copy, PartialEq)]
pub enum Variable {
    KernelId,
    DataType,
    TimeSystem,
    Fields,
    Moduli,
    Offsets,
    Delimiter,
    Coefficients,
    Starts,
    Ends,
}

/// Decimals of a second in a nanosecond and in a picosecond.
const NS: i64 = 9;
const PS: i64 = 12;

pub struct Found {
    /// What a name ends in: "the given clock's number without its sign".
    ending: String,
    given: [bool; 10],
    /// False once a number was "not exact in our units or outside their 64 bits"; it is taken as 0.
    pub exact: bool,
    pub time_system: u64,
    pub n: u64,
    pub delimiter: u64,
    pub moduli: Vec<u64>,
    pub offsets: Vec<u64>,
    pub starts: Vec<u64>,
    pub ends: Vec<u64>,
    pub counts: Vec<u64>,
    pub times: Vec<i64>,
    pub rates: Vec<u64>,
}

impl Found {
    pub fn new(clock: i64) -> Found {
        Found {
            ending: format!("_{}", clock.unsigned_abs()),
            given: [false; 10],
            exact: true,
            // "1 if absent"
            time_system: 1,
            n: 0,
            delimiter: 0,
            moduli: vec![],
            offsets: vec![],
            starts: vec![],
            ends: vec![],
            counts: vec![],
            times: vec![],
            rates: vec![],
        }
    }

    /// Whether each name was given that must be.
    pub fn complete(&self) -> bool {
        (0..self.given.len()).all(|name| self.given[name] || name == Variable::TimeSystem as usize)
    }

    /// One more assignment. "Other names are passed over"; "given twice, with `+=`".
    pub fn variable(&mut self, name: &[u8], append: bool) -> Result<Option<Variable>, Refusal> {
        let variable = match (name, name.strip_suffix(self.ending.as_bytes())) {
            (b"SCLK_KERNEL_ID", _) => Variable::KernelId,
            (_, Some(b"SCLK_DATA_TYPE")) => Variable::DataType,
            (_, Some(b"SCLK01_TIME_SYSTEM")) => Variable::TimeSystem,
            (_, Some(b"SCLK01_N_FIELDS")) => Variable::Fields,
            (_, Some(b"SCLK01_MODULI")) => Variable::Moduli,
            (_, Some(b"SCLK01_OFFSETS")) => Variable::Offsets,
            (_, Some(b"SCLK01_OUTPUT_DELIM")) => Variable::Delimiter,
            (_, Some(b"SCLK01_COEFFICIENTS")) => Variable::Coefficients,
            (_, Some(b"SCLK_PARTITION_START")) => Variable::Starts,
            (_, Some(b"SCLK_PARTITION_END")) => Variable::Ends,
            _ => return Ok(None),
        };
        if append || self.given[variable as usize] {
            return Err(Refusal::new(19));
        }
        self.given[variable as usize] = true;
        Ok(Some(variable))
    }

    /// A value of an assignment, with its place among the assignment's values.
    pub fn take(&mut self, variable: Option<Variable>, value: Value, row: usize) -> Result<(), Refusal> {
        use Variable::*;
        let variable = match variable {
            Some(variable) => variable,
            None => return Ok(()),
        };
        // "with several values outside the five lists"
        if row > 0 && !matches!(variable, Moduli | Offsets | Coefficients | Starts | Ends) {
            return Err(Refusal::new(19));
        }
        // "or, but for the ID, one that is no number"
        let number = match value {
            _ if variable == KernelId => return Ok(()),
            Value::Number(number) => number,
            _ => return Err(Refusal::new(19)),
        };
        match variable {
            KernelId => {}
            // "another type or time system"
            DataType => {
                number.unsigned(0).filter(|&number| number == 1).ok_or(Refusal::new(19))?;
            }
            TimeSystem => {
                self.time_system =
                    number.unsigned(0).filter(|&number| number == 1 || number == 2).ok_or(Refusal::new(19))?;
            }
            Fields => self.n = self.whole(number),
            Delimiter => self.delimiter = self.whole(number),
            Moduli => {
                let modulus = self.whole(number);
                self.moduli.push(modulus);
            }
            Offsets => {
                let offset = self.whole(number);
                self.offsets.push(offset);
            }
            Starts => {
                let start = self.whole(number);
                self.starts.push(start);
            }
            Ends => {
                let end = self.whole(number);
                self.ends.push(end);
            }
            Coefficients => match row % 3 {
                0 => {
                    let count = self.whole(number);
                    self.counts.push(count);
                }
                1 => {
                    let time = self.or_zero(number.signed(NS));
                    self.times.push(time);
                }
                _ => {
                    let rate = self.or_zero(number.unsigned(PS));
                    self.rates.push(rate);
                }
            },
        }
        Ok(())
    }

    fn whole(&mut self, number: Decimal) -> u64 {
        self.or_zero(number.unsigned(0))
    }

    fn or_zero<T: Default>(&mut self, exact: Option<T>) -> T {
        self.exact &= exact.is_some();
        exact.unwrap_or_default()
    }
}
