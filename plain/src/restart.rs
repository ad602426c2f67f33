//! Restart.

use crate::answer::{refuse, Answer};
use crate::naming::named;
use crate::refusal::{RUNNING, UNSOUND, WRONG_LENGTH};
use crate::sets::{lowest, members, without_lowest};
use crate::state::{State, BLOCK, REGION};
use crate::stores::{carry_out, commit, on_each, Ended, Supply};

/// Restart: 1, 2, 7, 13, 14, 15. "At the end store C = S and T = 0 on every member, ascending. Then run with G = S."
pub fn restart(state: State, area: &mut [u8], supply: u16) -> Answer {
    let set = set_to_run(&state, area.len());
    carry_out(state, set, supply, |set, state, supply| {
        mend(state, area, set, supply)?;
        commit(state, set, supply)?;
        Ok(set)
    })
}

/// S, or the refusal.
fn set_to_run(state: &State, area: usize) -> Result<u8, u8> {
    refuse(UNSOUND, !state.is_sound())?;
    refuse(WRONG_LENGTH, area != state.area_length())?;
    refuse(RUNNING, state.current != 0)?;
    named(state)
}

/// "For each region, ascending, that is dirty on any disk of S": its copies; "then clear the bit on every member,
/// ascending, standing or not".
fn mend(state: &mut State, area: &mut [u8], set: u8, supply: &mut Supply) -> Result<(), Ended> {
    for region in members(state.dirty_regions(set)) {
        copy_region(state, area, set, region, supply)?;
        on_each(state, set, supply, |label| label.dirty &= !(1 << region))?;
    }
    Ok(())
}

/// "For each block ascending, copy it from the lowest member to each other member, ascending."
fn copy_region(state: &State, area: &mut [u8], set: u8, region: usize, supply: &mut Supply) -> Result<(), Ended> {
    let first = region * usize::from(REGION);
    let end = usize::from(state.blocks).min(first + usize::from(REGION));
    for block in first..end {
        copy_block(state, area, set, block, supply)?;
    }
    Ok(())
}

/// One block of them.
fn copy_block(state: &State, area: &mut [u8], set: u8, block: usize, supply: &mut Supply) -> Result<(), Ended> {
    let from = state.block_start(lowest(set), block);
    for disk in members(without_lowest(set)) {
        supply.take()?;
        area.copy_within(from..from + BLOCK, state.block_start(disk, block));
    }
    Ok(())
}
