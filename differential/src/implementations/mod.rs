//! The implementations that are compared: each makes a case's call, and says what it gave.

mod convert;
mod guarded;
mod oracle;
mod plain;
mod proved;

pub use convert::to_reference;
pub use oracle::Reference;
pub use plain::Plain;
pub use proved::{from_product, to_product, told_by_product, Proved};

use crate::case::Case;
use ::plain::{Diagnosis, Reading, State};

/// What a call gave: everything that can differ.
#[derive(Clone, Debug, PartialEq, Eq)]
pub struct Outcome {
    /// 0, or the refusal's number.
    pub result: u8,
    /// The number of stores made.
    pub stores: usize,
    /// The state.
    pub state: State,
    /// The disk area after the call, whether the call may change it or not.
    pub area: Vec<u8>,
    /// The output, the data, the slots or the label's bytes after the call, whether it may change them or not.
    pub buffer: Vec<u8>,
    /// What a label reading yields, and the length that a label writing does. Of other calls it is zero.
    pub reading: Reading,
    /// What a diagnosis tells. Of other calls it is zero.
    pub told: Diagnosis,
}

/// What a label writing yields that gave this length.
fn written(length: usize) -> Reading {
    Reading {
        length,
        ..Reading::default()
    }
}

/// An implementation of the calls.
pub trait Implementation {
    /// Its name in a report.
    fn name(&self) -> &'static str;

    /// Makes the call.
    fn make(&self, case: Case) -> Outcome;
}
