//! The calls of a running cabinet: read, write, join and quiet.

use crate::answer::{refuse, Answer};
use crate::refusal::*;
use crate::sets::{has, lowest, members};
use crate::state::{State, BLOCK, REGION};
use crate::stores::{carry_out, move_to, move_to_live, turn_dirty, Ended};

/// Read: 1, 2, 3, 6, 9, 12, 15. "A read with L different from G now moves to L before it copies the block", that of the
/// lowest member of L. Most reads find L = G, and have no stores to carry out.
pub fn read(state: State, area: &[u8], block: usize, output: &mut [u8], supply: u16) -> Answer {
    let live = live_for_block(&state, area.len(), block, output.len());
    let answer = if live == Ok(state.current) {
        Answer::of(DONE, state)
    } else {
        carry_out(state, live, supply, |live, state, supply| {
            move_to(state, live, supply)?;
            Ok(live)
        })
    };
    if answer.result == DONE {
        let start = state.block_start(lowest(answer.state.current), block);
        output.copy_from_slice(&area[start..][..BLOCK]);
    }
    answer
}

/// Write: 1, 2, 3, 6, 9, 12, 15. "If L differs from G, move to L. Then set the region's dirty bit on each disk of L,
/// ascending, where it does not stand. Then store the block on each disk of L, ascending."
pub fn write(state: State, area: &mut [u8], block: usize, data: &[u8], supply: u16) -> Answer {
    let live = live_for_block(&state, area.len(), block, data.len());
    carry_out(state, live, supply, |live, state, supply| {
        let bit = 1 << (block / usize::from(REGION));
        move_to_live(state, supply)?;
        turn_dirty(state, live, bit, true, supply)?;
        for disk in members(live) {
            supply.take()?;
            area[state.block_start(disk, block)..][..BLOCK].copy_from_slice(data);
        }
        Ok(live)
    })
}

/// Join: 1, 2, 6, 8, 11, 10, 12, 15. "If L differs from G, move to L. Copy all blocks, ascending, from the lowest
/// member of L to d. Then move to L with d." The blocks of a disk are neighbours, and go to one copy.
pub fn join(state: State, area: &mut [u8], disk: usize, supply: u16) -> Answer {
    let live = live_for_join(&state, area.len(), disk);
    carry_out(state, live, supply, |live, state, supply| {
        move_to_live(state, supply)?;
        let copied = supply.take_up_to(state.blocks);
        let (from, to) = (state.block_start(lowest(live), 0), state.block_start(disk, 0));
        area.copy_within(from..from + usize::from(copied) * BLOCK, to);
        if copied < state.blocks {
            return Err(Ended);
        }
        let joined = live | 1 << disk;
        move_to(state, joined, supply)?;
        Ok(joined)
    })
}

/// Quiet: 1, 6, 12, 15. "For each region ascending, clear the bit on each disk of L, ascending, where it stands." G
/// stays.
pub fn quiet(state: State, supply: u16) -> Answer {
    carry_out(state, live_for_quiet(&state), supply, |live, state, supply| {
        for region in members(state.dirty_regions(live)) {
            turn_dirty(state, live, 1 << region, false, supply)?;
        }
        Ok(state.current)
    })
}

/// L, for a read or a write of block k with a buffer of this length.
fn live_for_block(state: &State, area: usize, block: usize, buffer: usize) -> Result<u8, u8> {
    refuse(UNSOUND, !state.is_sound())?;
    refuse(WRONG_LENGTH, area != state.area_length())?;
    refuse(NOT_A_BLOCK, buffer != BLOCK)?;
    refuse(STOPPED, state.current == 0)?;
    refuse(NO_SUCH_BLOCK, block >= state.blocks.into())?;
    refuse(NONE_LIVE, state.live() == 0)?;
    Ok(state.live())
}

/// L, for a join of this disk.
fn live_for_join(state: &State, area: usize, disk: usize) -> Result<u8, u8> {
    refuse(UNSOUND, !state.is_sound())?;
    refuse(WRONG_LENGTH, area != state.area_length())?;
    refuse(STOPPED, state.current == 0)?;
    refuse(NO_SUCH_DISK, disk >= state.disks.into())?;
    refuse(ALREADY_MEMBER, has(state.current, disk))?;
    refuse(OUT_OF_REACH, !has(state.reach, disk))?;
    refuse(NONE_LIVE, state.live() == 0)?;
    Ok(state.live())
}

/// L, for a quiet.
fn live_for_quiet(state: &State) -> Result<u8, u8> {
    refuse(UNSOUND, !state.is_sound())?;
    refuse(STOPPED, state.current == 0)?;
    refuse(NONE_LIVE, state.live() == 0)?;
    Ok(state.live())
}
