//! Counts a host's calls by name and what came back.

use std::collections::BTreeMap;

use crate::host::Name;

/// The refusals that each call can give.
pub const POSSIBLE: [(Name, &[i64]); 7] = [
    (Name::ReadText, &[1, 4, 5, 6, 7, 8, 9]),
    (Name::ReadStamp, &[1, 2, 4, 5, 6, 7, 8, 9, 10, 11]),
    // A text of at most 96 bytes is never refused 4.
    (Name::ReadMessage, &[21, 22, 23, 1, 2, 5, 6, 7, 8, 9, 10, 11]),
    (Name::PrintCount, &[1, 9, 16]),
    (Name::PrintStamp, &[1, 2, 12, 16]),
    (Name::TimeOf, &[1, 2, 3, 12, 13, 16]),
    (Name::CountAt, &[1, 2, 3, 13, 14]),
];

#[derive(Default)]
pub struct HostTally {
    pub calls: BTreeMap<Name, u64>,
    pub answered: u64,
    /// By call and refusal.
    pub refused: BTreeMap<(Name, i64), u64>,
}

impl HostTally {
    pub fn note(&mut self, name: Name, came_back: i64) {
        *self.calls.entry(name).or_insert(0) += 1;
        if came_back < 0 {
            *self.refused.entry((name, -came_back)).or_insert(0) += 1;
        } else {
            self.answered += 1;
        }
    }

    pub fn all(&self) -> u64 {
        self.calls.values().sum()
    }

    /// Possible refusals that came up fewer times.
    pub fn under(&self, fewest: u64) -> Vec<String> {
        let pairs = POSSIBLE.iter().flat_map(|&(name, numbers)| numbers.iter().map(move |&number| (name, number)));
        let times = |pair: &(Name, i64)| self.refused.get(pair).copied().unwrap_or(0);
        pairs
            .filter(|pair| times(pair) < fewest)
            .map(|pair| format!("{} {} times -{}", pair.0.word(), times(&pair), pair.1))
            .collect()
    }

    /// One line: the calls of each name, how many were answered, how many refusals there were of each number.
    pub fn summary(&self) -> String {
        let names = self.calls.iter().map(|(name, times)| format!("{} {}", name.word(), times));
        let mut numbers = BTreeMap::new();
        for (&(_, number), times) in &self.refused {
            *numbers.entry(number).or_insert(0) += times;
        }
        let numbers = numbers.iter().map(|(number, times)| format!("-{} {}", number, times));
        format!(
            "{} calls ({}), {} answered, refused {}",
            self.all(),
            names.collect::<Vec<_>>().join(", "),
            self.answered,
            numbers.collect::<Vec<_>>().join(", "),
        )
    }
}
