//! "Lose, return and cut change only R or the power condition."

use crate::answer::{refuse, Answer};
use crate::label::read_in_bay;
use crate::refusal::{DONE, LABEL_DIFFERS, NO_SUCH_DISK, UNSOUND};
use crate::sets::has;
use crate::state::State;

/// Lose: 1, 8.
pub fn lose(state: State, disk: usize) -> Answer {
    change(state, has_disk(&state, disk), |state| state.reach &= !(1 << disk))
}

/// Return: 1, 8, and of a disk out of reach what the label that it shows gives: 16, 17, 18, 16, 19, 20, 18, 22, 25.
pub fn give_back(state: State, disk: usize, shown: &[u8]) -> Answer {
    change(state, can_return(&state, disk, shown), |state| state.reach |= 1 << disk)
}

/// Cut: 1.
pub fn cut(state: State) -> Answer {
    change(state, refuse(UNSOUND, !state.is_sound()), |state| state.current = 0)
}

fn has_disk(state: &State, disk: usize) -> Result<(), u8> {
    refuse(UNSOUND, !state.is_sound())?;
    refuse(NO_SUCH_DISK, disk >= state.disks.into())
}

/// "The disk comes into reach only if they read as its stored label." One in reach may show anything.
fn can_return(state: &State, disk: usize, shown: &[u8]) -> Result<(), u8> {
    has_disk(state, disk)?;
    if has(state.reach, disk) {
        return Ok(());
    }
    let label = read_in_bay(shown, state.disks << 4 | disk as u8, state.region_map())?;
    refuse(LABEL_DIFFERS, label != state.labels[disk])
}

/// Changes the state if nothing is refused.
fn change(mut state: State, ready: Result<(), u8>, change: impl FnOnce(&mut State)) -> Answer {
    match ready {
        Err(number) => Answer::of(number, state),
        Ok(()) => {
            change(&mut state);
            Answer::of(DONE, state)
        }
    }
}
