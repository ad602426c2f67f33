//! How many calls of each kind gave each result.

use crate::case::Call;
use std::collections::BTreeMap;
use std::fmt;

/// The counts.
#[derive(Clone, Debug, Default, PartialEq, Eq)]
pub struct Counts(BTreeMap<(Call, u8), usize>);

impl Counts {
    /// Counts one call.
    pub fn add(&mut self, call: Call, result: u8) {
        *self.0.entry((call, result)).or_default() += 1;
    }

    /// The calls that gave this result.
    pub fn of(&self, call: Call, result: u8) -> usize {
        self.0.get(&(call, result)).copied().unwrap_or(0)
    }

    /// The results that this call gave, ascending.
    pub fn results(&self, call: Call) -> Vec<u8> {
        let results = self.0.range((call, 0)..=(call, u8::MAX));
        results.map(|((_, result), _)| *result).collect()
    }

    /// The calls altogether.
    pub fn total(&self) -> usize {
        self.0.values().sum()
    }
}

/// A line for each call that was made: its name, then each result with its count.
impl fmt::Display for Counts {
    fn fmt(&self, f: &mut fmt::Formatter<'_>) -> fmt::Result {
        let made = |(call, _): &(Call, &str)| !self.results(*call).is_empty();
        for (call, name) in Call::ALL.into_iter().filter(made) {
            let count = |result: u8| format!(" {result}: {}", self.of(call, result));
            let counts: Vec<String> = self.results(call).into_iter().map(count).collect();
            writeln!(f, "  {name:11} {}", counts.join(" "))?;
        }
        Ok(())
    }
}
