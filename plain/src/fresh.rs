//! Fresh, and the beginning of a state that a call makes.

use crate::answer::{refuse, Answer};
use crate::refusal::{BLOCK_COUNT, DISK_COUNT, DONE, WRONG_LENGTH};
use crate::sets::below;
use crate::state::{Label, State};

/// Fresh: 4, 5, 2. "It gives all disks in reach, running, C naming all n, T and dirty 0, all blocks zero, no counted
/// stores." Refused, it yields the state that is all zero and stopped.
pub fn fresh(disks: usize, blocks: usize, area: &mut [u8]) -> Answer {
    match fresh_state(disks, blocks, area.len()) {
        Err(number) => Answer::of(number, State::default()),
        Ok(state) => {
            area.fill(0);
            Answer::of(DONE, state)
        }
    }
}

fn fresh_state(disks: usize, blocks: usize, area: usize) -> Result<State, u8> {
    let mut state = blank(disks, blocks)?;
    refuse(WRONG_LENGTH, area != state.area_length())?;
    let all = below(state.disks);
    (state.reach, state.current) = (all, all);
    state.labels[..disks].fill(Label {
        committed: all,
        ..Label::default()
    });
    Ok(state)
}

/// A stopped state of n disks that were never used, none in reach: 4, 5.
pub(crate) fn blank(disks: usize, blocks: usize) -> Result<State, u8> {
    refuse(DISK_COUNT, !(1..=8).contains(&disks))?;
    refuse(BLOCK_COUNT, !(1..=64).contains(&blocks))?;
    Ok(State {
        disks: disks as u8,
        blocks: blocks as u8,
        ..State::default()
    })
}
