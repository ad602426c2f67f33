//! The saved form: "each disk has a slot of 5 bytes, the rest of the slot zero".

use crate::answer::{refuse, Answer};
use crate::fresh::blank;
use crate::label::{fill_slot, read_in_bay};
use crate::refusal::*;
use crate::sets::below;
use crate::state::{State, SLOT};

/// Save: 1, 2.
pub fn save(state: State, slots: &mut [u8]) -> Answer {
    match save_labels(&state, slots) {
        Err(number) => Answer::of(number, state),
        Ok(()) => Answer::of(DONE, state),
    }
}

fn save_labels(state: &State, slots: &mut [u8]) -> Result<(), u8> {
    refuse(UNSOUND, !state.is_sound())?;
    refuse(WRONG_LENGTH, slots.len() != SLOT * usize::from(state.disks))?;
    for ((disk, label), slot) in (0..).zip(&state.labels).zip(slots.as_chunks_mut().0) {
        fill_slot(state.disks << 4 | disk, label, slot);
    }
    Ok(())
}

/// Assemble: 4, 5, 2, 8, then slot by slot. Refused, it yields the state that is all zero and stopped.
pub fn assemble(disks: usize, blocks: usize, reach: u8, slots: &[u8]) -> Answer {
    match assembled(disks, blocks, reach, slots) {
        Err(number) => Answer::of(number, State::default()),
        Ok(state) => Answer::of(DONE, state),
    }
}

fn assembled(disks: usize, blocks: usize, reach: u8, slots: &[u8]) -> Result<State, u8> {
    let mut state = blank(disks, blocks)?;
    refuse(WRONG_LENGTH, slots.len() != SLOT * disks)?;
    refuse(NO_SUCH_DISK, reach & !below(state.disks) != 0)?;
    state.reach = reach;
    let regions = state.region_map();
    for ((disk, label), slot) in (0..).zip(&mut state.labels).zip(slots.as_chunks::<SLOT>().0) {
        *label = read_in_bay(slot, state.disks << 4 | disk, regions)?;
    }
    Ok(state)
}
