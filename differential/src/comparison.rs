//! One case, or a stream of them, on several implementations.

use crate::case::Case;
use crate::counts::Counts;
use crate::implementations::{Implementation, Outcome};
use crate::{state_bytes, word};
use plain::{Diagnosis, Reading};
use std::fmt;
use std::panic::{catch_unwind, AssertUnwindSafe};

/// Where cases come from.
pub trait Source {
    /// The next case.
    fn next_case(&mut self) -> Case;

    /// What the case that was given last gave: the next one may go on from there.
    fn follow(&mut self, _outcome: &Outcome) {}
}

/// A case that has been run on several implementations.
#[derive(Clone, Debug, PartialEq, Eq)]
pub struct Comparison {
    /// The case.
    pub case: Case,
    /// What each implementation gave, by its name; `None` if it panicked.
    pub outcomes: Vec<(&'static str, Option<Outcome>)>,
}

impl Comparison {
    /// Runs the case.
    pub fn of(implementations: &[&dyn Implementation], case: Case) -> Comparison {
        let made = |each: &&dyn Implementation| {
            let outcome = catch_unwind(AssertUnwindSafe(|| each.make(case.clone())));
            (each.name(), outcome.ok())
        };
        let outcomes = implementations.iter().map(made).collect();
        Comparison { case, outcomes }
    }

    /// What all of them gave; `None` if two differ or one panicked.
    pub fn agreed(&self) -> Option<&Outcome> {
        let ((_, first), others) = self.outcomes.split_first()?;
        let first = first.as_ref();
        first.filter(|_| others.iter().all(|(_, other)| other.as_ref() == first))
    }
}

/// Makes so many calls of the source on all implementations, up to the first difference.
pub fn run(
    implementations: &[&dyn Implementation],
    source: &mut dyn Source,
    calls: usize,
) -> Result<Counts, Box<Comparison>> {
    let mut counts = Counts::default();
    for _ in 0..calls {
        let comparison = Comparison::of(implementations, source.next_case());
        let Some(outcome) = comparison.agreed() else {
            return Err(Box::new(comparison));
        };
        counts.add(comparison.case.call, outcome.result);
        source.follow(outcome);
    }
    Ok(counts)
}

impl fmt::Display for Outcome {
    fn fmt(&self, f: &mut fmt::Formatter<'_>) -> fmt::Result {
        write!(f, "result={} stores={}", self.result, self.stores)?;
        write!(f, " state={}", word::word_of(&state_bytes::bytes_of(&self.state)))?;
        let Reading {
            disk,
            disks,
            label,
            length,
        } = self.reading;
        let label = word::word_of(&state_bytes::label_bytes(&label));
        write!(f, " reading={disk},{disks},{label},{length}")?;
        let Diagnosis { reason, disk, set, .. } = self.told;
        write!(f, " told={reason},{disk},{set}")?;
        write!(
            f,
            " area={} buffer={}",
            word::word_of(&self.area),
            word::word_of(&self.buffer)
        )
    }
}

/// A line to run the case again by, then a line for each implementation.
impl fmt::Display for Comparison {
    fn fmt(&self, f: &mut fmt::Formatter<'_>) -> fmt::Result {
        writeln!(f, "case '{}'", self.case.line())?;
        for (name, outcome) in &self.outcomes {
            let text = outcome.as_ref().map_or("panicked".to_string(), Outcome::to_string);
            writeln!(f, "{name:9} {text}")?;
        }
        Ok(())
    }
}
