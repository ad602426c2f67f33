//! A cabinet that is tried on a list of calls, with the book beside it.

use crate::book::Book;
use crate::cabinet::{Answer, Cabinet};
use crate::call::Call;
use crate::claims::{Claim, Event};
use crate::diagnosis::{diagnose, Diagnosis};
use crate::mistakes::Rules;

/// A cabinet and the book, both begun by one fresh call and fed the same calls.
#[derive(Clone, Debug, PartialEq, Eq)]
pub struct Trial {
    /// The cabinet that is tried.
    pub cabinet: Cabinet,
    /// The book, with its own cabinet.
    pub book: Book,
}

/// What came of a call.
#[derive(Clone, Debug, PartialEq, Eq)]
pub struct Outcome {
    /// The answer of the cabinet that is tried.
    pub answer: Answer,
    /// What that cabinet told, if the call is a diagnosis.
    pub told: Option<Diagnosis>,
    /// The output after the call, if it is a read.
    pub output: Vec<u8>,
    /// The answer of the book's own cabinet.
    pub book_answer: Answer,
    /// The first claim that failed.
    pub failed: Option<Claim>,
}

impl Trial {
    /// The trial after a done fresh call, or fresh's refusal: the cabinet follows some rules, the book some others or
    /// the same.
    pub fn fresh(rules: Rules, book_rules: Rules, n: u16, b: u16) -> Result<Trial, u8> {
        Ok(Trial {
            cabinet: Cabinet::fresh(rules, n, b)?,
            book: Book::open(book_rules, n, b)?,
        })
    }

    /// The trial after a call, which was given this output, and what came of it. These claims are checked.
    pub fn after(&self, call: &Call, given: &[u8], claims: &[Claim]) -> (Trial, Outcome) {
        let (mut after, mut output) = (self.clone(), output_for(call, given));
        let answer = after.cabinet.take(call, &mut output);
        let Cabinet { rules, state, .. } = &self.cabinet;
        let told = match *call {
            Call::Diagnose { stage, disk } => Some(diagnose(*rules, state, stage, disk)),
            _ => None,
        };
        let taken = after.book.take(call, &mut output_for(call, given));
        let event = Event {
            before: &self.cabinet,
            call,
            given,
            answer,
            told,
            output: &output,
            after: &after.cabinet,
            book: &after.book,
            counted: taken.counted,
        };
        let failed = claims.iter().find(|claim| !claim.holds_of(&event)).copied();
        let outcome = Outcome {
            answer,
            told,
            output,
            book_answer: taken.answer,
            failed,
        };
        (after, outcome)
    }

    /// The trial after these calls, one after another, each given this output, and the answer of the last one. All
    /// claims are checked: the error is the first that fails, and its call.
    pub fn after_all(&self, calls: &[Call], given: &[u8]) -> Result<(Trial, Answer), (Claim, Call)> {
        let (mut trial, mut answer) = (self.clone(), Answer::DONE);
        for call in calls {
            let (after, outcome) = trial.after(call, given, &Claim::of_call(call));
            let failed = outcome.failed.or_else(|| after.failing_in_state(&Claim::OF_STATES));
            if let Some(claim) = failed {
                return Err((claim, call.clone()));
            }
            (trial, answer) = (after, outcome.answer);
        }
        Ok((trial, answer))
    }

    /// The first of these claims about states that fails in the state as it now is.
    pub fn failing_in_state(&self, claims: &[Claim]) -> Option<Claim> {
        let (rules, state) = (self.cabinet.rules, &self.cabinet.state);
        let fails = |claim: &&Claim| !claim.holds_in(rules, state);
        claims.iter().find(fails).copied()
    }
}

/// A copy of the given output for a read. No other call takes one.
fn output_for(call: &Call, given: &[u8]) -> Vec<u8> {
    match call {
        Call::Read { .. } => given.to_vec(),
        _ => Vec::new(),
    }
}
