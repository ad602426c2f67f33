//! Why a call of a cabinet was not done.

use crate::refusal::Refusal;
use core::fmt;

/// Why a call was not done: the number with its reason and, of a call that was cut, how many stores it made.
#[derive(Clone, Copy, Debug, PartialEq, Eq, Hash)]
pub struct Error {
    /// The number and the reason.
    pub refusal: Refusal,
    /// The stores made before the power went. 0 with every refusal but [`Refusal::PowerLost`]: nothing was changed.
    pub stores: u16,
}

impl From<Refusal> for Error {
    fn from(refusal: Refusal) -> Error {
        Error { refusal, stores: 0 }
    }
}

impl fmt::Display for Error {
    fn fmt(&self, f: &mut fmt::Formatter<'_>) -> fmt::Result {
        match self.refusal {
            cut @ Refusal::PowerLost => {
                let (number, text, stores) = (cut.number(), cut.text(), self.stores);
                write!(f, "cut with {number}: {text}; stores made: {stores}")
            }
            refusal => write!(f, "{refusal}"),
        }
    }
}

impl core::error::Error for Error {}
