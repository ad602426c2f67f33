//! "Each call that changes disks is a list of stores", made one by one as long as the supply lasts.

use crate::answer::Answer;
use crate::refusal::{DONE, SUPPLY_ENDED};
use crate::sets::members;
use crate::state::{Label, State};

/// The list is longer than the supply.
pub(crate) struct Ended;

/// The stores that may still be made.
pub(crate) struct Supply(u16);

impl Supply {
    /// Spends one store.
    pub(crate) fn take(&mut self) -> Result<(), Ended> {
        self.0 = self.0.checked_sub(1).ok_or(Ended)?;
        Ok(())
    }

    /// Spends what is left of `count` stores, and says how many these are.
    pub(crate) fn take_up_to(&mut self, count: u8) -> u8 {
        let taken = self.0.min(count.into()) as u8;
        self.0 -= u16::from(taken);
        taken
    }
}

/// "If the list is longer than the supply, exactly the first supply stores are made, the cabinet is stopped, and the
/// result is 15 with that count. Otherwise all are made", and the cabinet runs with the set that the list yields. The
/// list is made for the set that the call found, unless it refused.
pub(crate) fn carry_out(
    state: State,
    found: Result<u8, u8>,
    supply: u16,
    list: impl FnOnce(u8, &mut State, &mut Supply) -> Result<u8, Ended>,
) -> Answer {
    let set = match found {
        Err(number) => return Answer::of(number, state),
        Ok(set) => set,
    };
    let mut answer = Answer::of(DONE, state);
    let mut left = Supply(supply);
    (answer.result, answer.state.current) = match list(set, &mut answer.state, &mut left) {
        Ok(current) => (DONE, current),
        Err(Ended) => (SUPPLY_ENDED, 0),
    };
    answer.stores = supply - left.0;
    answer
}

/// One store on the label of each disk of the set, ascending.
pub(crate) fn on_each(
    state: &mut State,
    set: u8,
    supply: &mut Supply,
    store: impl Fn(&mut Label),
) -> Result<(), Ended> {
    for disk in members(set) {
        supply.take()?;
        store(&mut state.labels[disk]);
    }
    Ok(())
}

/// "Store C = S and T = 0 on every member, ascending."
pub(crate) fn commit(state: &mut State, set: u8, supply: &mut Supply) -> Result<(), Ended> {
    on_each(state, set, supply, |label| {
        label.committed = set;
        label.tentative = 0;
    })
}

/// "Moving to set S: for each disk of S, ascending, store T = S; then for each disk of S, ascending, store C = S and
/// T = 0."
pub(crate) fn move_to(state: &mut State, set: u8, supply: &mut Supply) -> Result<(), Ended> {
    on_each(state, set, supply, |label| label.tentative = set)?;
    commit(state, set, supply)
}

/// "If L differs from G, move to L."
pub(crate) fn move_to_live(state: &mut State, supply: &mut Supply) -> Result<(), Ended> {
    match state.live() {
        live if live == state.current => Ok(()),
        live => move_to(state, live, supply),
    }
}

/// Sets or clears the dirty bit on each disk of the set, ascending, where it stands otherwise.
pub(crate) fn turn_dirty(state: &mut State, set: u8, bit: u8, on: bool, supply: &mut Supply) -> Result<(), Ended> {
    for disk in members(set) {
        let label = &mut state.labels[disk];
        if (label.dirty & bit != 0) != on {
            supply.take()?;
            label.dirty ^= bit;
        }
    }
    Ok(())
}
