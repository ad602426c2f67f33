//! Request 2.5, 'A blank disk in an old bay'.

use crate::answer::{refuse, Answer};
use crate::refusal::{IN_REACH, NONE_LIVE, NO_SUCH_DISK, STOPPED, UNSOUND, WRONG_LENGTH};
use crate::sets::has;
use crate::state::{Label, State};
use crate::stores::{carry_out, move_to};

/// Swap: 1, 2, 6, 8, 24, "then 12 where d is in G, then 15". After the move, if there is one, "d has an empty label,
/// zero blocks (no counted stores)".
pub fn swap(state: State, area: &mut [u8], disk: usize, supply: u16) -> Answer {
    let set = set_without(&state, area.len(), disk);
    carry_out(state, set, supply, |set, state, supply| {
        if set != state.current {
            move_to(state, set, supply)?;
        }
        state.labels[disk] = Label::default();
        area[state.block_start(disk, 0)..state.block_start(disk + 1, 0)].fill(0);
        Ok(set)
    })
}

/// The set to run with, or the refusal: "if d is in G the cabinet first moves to L", and else G stays as it is.
fn set_without(state: &State, area: usize, disk: usize) -> Result<u8, u8> {
    refuse(UNSOUND, !state.is_sound())?;
    refuse(WRONG_LENGTH, area != state.area_length())?;
    refuse(STOPPED, state.current == 0)?;
    refuse(NO_SUCH_DISK, disk >= state.disks.into())?;
    refuse(IN_REACH, has(state.reach, disk))?;
    if !has(state.current, disk) {
        return Ok(state.current);
    }
    refuse(NONE_LIVE, state.live() == 0)?;
    Ok(state.live())
}
