//! Request 2.2, 'Tell me why this disk is not current'.

use crate::answer::refuse;
use crate::naming::named;
use crate::refusal::{DONE, NO_SUCH_DISK, NO_SUCH_STAGE, RUNNING, UNSOUND};
use crate::sets::{has, lowest, members};
use crate::state::State;

/// The reasons, in the paper's order. 0 is none.
const EMPTY: u8 = 1;
const OUT_OF_REACH: u8 = 2;
const DISAGREES: u8 = 3;
const NONE_PROPOSES: u8 = 4;
const CANDIDATE: u8 = 5;

/// What a diagnosis tells.
#[derive(Clone, Copy, Debug, Default, PartialEq, Eq)]
pub struct Diagnosis {
    /// 0, or the refusal's number.
    pub result: u8,
    /// The reason's number, 0 to 5.
    pub reason: u8,
    /// The disk that the reason tells, 0 where it tells none.
    pub disk: u8,
    /// The set that a restart would find without the asked disk, or 0.
    pub set: u8,
}

/// Diagnose: 1, 7, 8, 23. "It changes nothing."
pub fn diagnose(state: &State, stage: usize, disk: usize) -> Diagnosis {
    if let Err(result) = can_tell(state, stage, disk) {
        return Diagnosis {
            result,
            ..Diagnosis::default()
        };
    }
    let label = &state.labels[disk];
    let own = if label.tentative != 0 {
        label.tentative
    } else {
        label.committed
    };
    let (reason, told) = reason(state, stage, own);
    let set = named(state).unwrap_or(0);
    Diagnosis {
        result: DONE,
        reason,
        disk: told,
        set: if has(set, disk) { 0 } else { set },
    }
}

fn can_tell(state: &State, stage: usize, disk: usize) -> Result<(), u8> {
    refuse(UNSOUND, !state.is_sound())?;
    refuse(RUNNING, state.current != 0)?;
    refuse(NO_SUCH_DISK, disk >= state.disks.into())?;
    refuse(NO_SUCH_STAGE, !(1..=3).contains(&stage))
}

/// The reason for this set in this stage, and its disk.
fn reason(state: &State, stage: usize, set: u8) -> (u8, u8) {
    let lost = set & !state.reach;
    if set == 0 {
        return (EMPTY, 0);
    }
    if lost != 0 {
        return (OUT_OF_REACH, lowest(lost) as u8);
    }
    let (proposing, committed) = holders(state, set);
    let against = match stage {
        1 => set & !proposing,
        2 => set & !(proposing | committed),
        _ => set & !committed,
    };
    match against {
        0 if stage == 2 && proposing == 0 => (NONE_PROPOSES, 0),
        0 => (CANDIDATE, 0),
        _ => (DISAGREES, lowest(against) as u8),
    }
}

/// The members of the set that have it as their T, and those that have it as their C.
fn holders(state: &State, set: u8) -> (u8, u8) {
    members(set).fold((0, 0), |(proposing, committed), disk| {
        let label = &state.labels[disk];
        (
            proposing | u8::from(label.tentative == set) << disk,
            committed | u8::from(label.committed == set) << disk,
        )
    })
}
