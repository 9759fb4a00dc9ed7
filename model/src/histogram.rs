//! How often each number came up: shows, and lets tests assert, that no question goes unasked.

use std::collections::BTreeMap;
use std::fmt;

#[derive(Default)]
pub struct Histogram {
    counts: BTreeMap<u8, u64>,
}

impl Histogram {
    pub fn add(&mut self, number: u8) {
        *self.counts.entry(number).or_default() += 1;
    }

    pub fn count(&self, number: u8) -> u64 {
        self.counts.get(&number).copied().unwrap_or(0)
    }

    pub fn total(&self) -> u64 {
        self.counts.values().sum()
    }

    /// The numbers and how often each came up, of `things`.
    pub fn of(&self, things: &str) -> String {
        let counts = self.counts.iter().map(|(number, count)| format!(" {number}: {count}"));
        format!("{} {things}:{}", self.total(), counts.collect::<String>())
    }
}

impl fmt::Display for Histogram {
    fn fmt(&self, f: &mut fmt::Formatter<'_>) -> fmt::Result {
        f.write_str(&self.of("plans"))
    }
}
