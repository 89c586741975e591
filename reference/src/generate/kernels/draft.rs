//! A kernel text in the making.

use super::numbers;
use crate::random::Random;
use crate::script::Tables;

/// The ten names, the clock's number not behind them. The last five have lists.
pub const NAMES: [&str; 10] = [
    "SCLK_KERNEL_ID",
    "SCLK_DATA_TYPE",
    "SCLK01_TIME_SYSTEM",
    "SCLK01_N_FIELDS",
    "SCLK01_OUTPUT_DELIM",
    "SCLK01_MODULI",
    "SCLK01_OFFSETS",
    "SCLK_PARTITION_START",
    "SCLK_PARTITION_END",
    "SCLK01_COEFFICIENTS",
];
pub const ID: usize = 0;
pub const TYPE: usize = 1;
pub const SYSTEM: usize = 2;
pub const FIELDS: usize = 3;
pub const DELIMITER: usize = 4;
pub const MODULI: usize = 5;
pub const OFFSETS: usize = 6;
pub const STARTS: usize = 7;
pub const ENDS: usize = 8;
pub const COEFFICIENTS: usize = 9;

/// Decimals of the unit of each of a row's numbers.
pub const UNITS: [usize; 3] = [0, 9, 12];

#[derive(Clone)]
pub enum Item {
    Line(Vec<u8>),
    Set(Set),
}

#[derive(Clone)]
pub struct Set {
    pub name: String,
    pub operator: &'static str,
    pub values: Vec<String>,
}

/// Lines and assignments; the first line and the markers are lines too.
#[derive(Clone)]
pub struct Draft {
    pub clock: i64,
    /// The lengths of what the text holds: moduli, offsets, starts, ends, counts, times, rates.
    pub lent: [usize; 7],
    pub items: Vec<Item>,
}

/// How numbers, gaps and lines are written.
#[derive(Clone, Copy, PartialEq)]
pub enum Style {
    Short,
    Any,
}

impl Draft {
    /// Tables as kernel text.
    pub fn new(random: &mut Random, clock: i64, tables: &Tables, system: Option<u64>, style: Style) -> Draft {
        let mut draft = Draft { clock, lent: [0; 7], items: vec![] };
        draft.line("KPL/SCLK");
        draft.line("\\begindata");
        let mut number = |number: i128, unit: usize| match style {
            Style::Short => numbers::short(number, unit),
            Style::Any => numbers::any(random, number, unit),
        };
        let layout = &tables.layout;
        // Lists may be longer than any layout's.
        let used = (layout.n as usize).min(layout.moduli.len());
        let one = number(1, 0);
        draft.set(ID, vec!["@".to_string()]);
        draft.set(TYPE, vec![one]);
        if let Some(system) = system {
            let system = number(i128::from(system), 0);
            draft.set(SYSTEM, vec![system]);
        }
        let (n, delimiter) = (number(i128::from(layout.n), 0), number(i128::from(layout.delimiter), 0));
        draft.set(FIELDS, vec![n]);
        let mut whole = |list: &[u64]| list.iter().map(|&entry| number(i128::from(entry), 0)).collect::<Vec<_>>();
        let (moduli, offsets) = (whole(&layout.moduli[..used]), whole(&layout.offsets[..used]));
        let (starts, ends) = (whole(&tables.start), whole(&tables.end));
        draft.set(MODULI, moduli);
        draft.set(OFFSETS, offsets);
        draft.set(DELIMITER, vec![delimiter]);
        draft.set(STARTS, starts);
        draft.set(ENDS, ends);
        let mut rows = vec![];
        for i in 0..tables.count.len() {
            rows.push(number(i128::from(tables.count[i]), UNITS[0]));
            // Lists of unequal length end in a row that is not whole.
            rows.extend(tables.time.get(i).map(|&time| number(i128::from(time), UNITS[1])));
            rows.extend(tables.rate.get(i).map(|&rate| number(i128::from(rate), UNITS[2])));
        }
        draft.set(COEFFICIENTS, rows);
        let rows = tables.count.len();
        draft.lent = [used, used, tables.start.len(), tables.end.len(), rows, tables.time.len(), tables.rate.len()];
        draft
    }

    pub fn line(&mut self, line: &str) {
        self.items.push(Item::Line(line.as_bytes().to_vec()));
    }

    fn set(&mut self, name: usize, values: Vec<String>) {
        let name = self.name(name);
        self.items.push(Item::Set(Set { name, operator: "=", values }));
    }

    /// One of the ten names with the clock's number.
    pub fn name(&self, name: usize) -> String {
        match name {
            ID => NAMES[ID].to_string(),
            _ => format!("{}_{}", NAMES[name], self.clock.unsigned_abs()),
        }
    }

    /// Where one of the ten names is assigned.
    pub fn place(&self, name: usize) -> usize {
        let name = self.name(name);
        let assigns = |item: &Item| matches!(item, Item::Set(set) if set.name == name);
        self.items.iter().position(assigns).expect("the draft has the name")
    }

    pub fn set_of(&mut self, name: usize) -> &mut Set {
        let place = self.place(name);
        match &mut self.items[place] {
            Item::Set(set) => set,
            Item::Line(_) => unreachable!("a name is assigned"),
        }
    }

    /// A line of the data block, at its front, somewhere or at its end.
    pub fn insert(&mut self, random: &mut Random, line: &[u8]) {
        let last = self.items.len();
        let any = 2 + random.below(last - 1);
        let place = random.pick(&[2, last, any]);
        self.items.insert(place, Item::Line(line.to_vec()));
    }

    /// The assignments in another order.
    pub fn shuffle(&mut self, random: &mut Random) {
        for i in (3..self.items.len()).rev() {
            let other = 2 + random.below(i - 1);
            self.items.swap(i, other);
        }
    }

    pub fn text(&self, random: &mut Random, style: Style) -> Vec<u8> {
        let mut text = vec![];
        let ends = random.below(3);
        for item in &self.items {
            match item {
                Item::Line(line) => text.extend_from_slice(line),
                Item::Set(set) => put_set(random, &mut text, set, style),
            }
            if style == Style::Any {
                text.extend_from_slice(random.pick(LINE_ENDS[ends]));
            }
            text.push(10);
        }
        if random.chance(20) {
            text.pop();
        }
        text
    }
}

const LINE_ENDS: [&[&[u8]]; 3] = [&[b""], &[b"\r"], &[b"", b"", b" ", b"\r", b"  \r", b"\r ", b"   "]];

fn put_set(random: &mut Random, text: &mut Vec<u8>, set: &Set, style: Style) {
    let Set { name, operator, values } = set;
    let any = style == Style::Any;
    let open = values.len() != 1 || random.chance(40);
    let way = random.below(6);
    let mut blanks = || if any { random.pick(&["", " ", " ", " ", "   ", "\t", "\t "]) } else { "" };
    let mut line = [blanks(), name, blanks(), operator, blanks(), if open { "(" } else { "" }].concat();
    for (i, value) in values.iter().enumerate() {
        if i > 0 || open && any {
            let (between, broken) = if any { gap(random, way) } else { (" ", false) };
            line += if i > 0 && between.is_empty() && !broken { " " } else { between };
            if broken || line.len() + value.len() > 110 {
                text.extend_from_slice(line.as_bytes());
                text.push(10);
                line.clear();
            }
        }
        line += value;
    }
    if open {
        line += if any { random.pick(&["", " ", ",", "\t"]) } else { "" };
        line.push(')');
    }
    if any {
        line += random.pick(&["", "", " ", "\t"]);
    }
    text.extend_from_slice(line.as_bytes());
}

/// What stands between values, and whether a line ends there.
fn gap(random: &mut Random, way: usize) -> (&'static str, bool) {
    match way {
        0 => (" ", false),
        1 => (random.pick(&[",", ", ", " ,"]), false),
        2 => (random.pick(&[" ", "  ", "\t", " \t "]), false),
        3 => ("", true),
        4 => (random.pick(&[" ", ",", ",,", " , "]), random.chance(20)),
        _ => (random.pick(&["", " ", "\t", ",", ", ", " ,,\t"]), random.chance(40)),
    }
}
