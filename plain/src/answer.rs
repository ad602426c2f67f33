//! What a call gives.

use crate::state::State;

/// What a call gives.
#[derive(Clone, Copy, Debug, PartialEq, Eq)]
pub struct Answer {
    /// 0, or the refusal's number.
    pub result: u8,
    /// The number of stores made.
    pub stores: u16,
    /// The state that the call leaves.
    pub state: State,
}

impl Answer {
    /// The answer of a call without counted stores: done, or refused.
    pub(crate) fn of(result: u8, state: State) -> Answer {
        Answer {
            result,
            stores: 0,
            state,
        }
    }
}

/// Refuses with the number if the condition holds.
pub(crate) fn refuse(number: u8, condition: bool) -> Result<(), u8> {
    if condition {
        Err(number)
    } else {
        Ok(())
    }
}
