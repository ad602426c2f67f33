//! What a call by value yields.

use crate::error::Error;
use crate::refusal::{self, Refusal};
use crate::state::State;

/// What a call yields besides what it does to the buffers. A refused call changes nothing: its state is the one it was
/// given, or the default one if it is given none, and `stores` is 0. [`Refusal::PowerLost`] alone is other: the first
/// `stores` stores have been made, and the state is that of the cabinet which then stopped.
#[must_use = "the state after the call is in its answer"]
#[repr(C)]
#[derive(Clone, Copy, Debug, PartialEq, Eq)]
pub struct Answer {
    /// The state after the call.
    pub state: State,
    /// The number of stores made.
    pub stores: u16,
    /// 0, or the refusal's number. It stays a number, as the library gives it, so that an answer need not be copied.
    refusal: u8,
}

impl Answer {
    /// Whether the call was done, or why not.
    pub fn outcome(self) -> Result<(), Refusal> {
        refusal::outcome(self.refusal)
    }

    /// The stores that a done call made, or why it was not done.
    pub fn result(self) -> Result<u16, Error> {
        let Answer { stores, .. } = self;
        match self.outcome() {
            Ok(()) => Ok(stores),
            Err(refusal) => Err(Error { refusal, stores }),
        }
    }
}
