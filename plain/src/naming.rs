//! 'Which set a restart names', by the sets that stand in the labels.

use crate::refusal::{NO_CANDIDATE, SEVERAL_CANDIDATES};
use crate::sets::members;
use crate::state::{Label, State};

/// The set S, or 13 or 14: "the first stage with a candidate decides". Mostly no disk has a T, and then the first two
/// stages have nothing to try.
pub(crate) fn named(state: &State) -> Result<u8, u8> {
    let (tentative, committed) = (|label: &Label| label.tentative, |label: &Label| label.committed);
    let proposes = |label: &Label, x| label.tentative == x;
    let has_committed = |label: &Label, x| label.committed == x;
    let backs = |label: &Label, x| proposes(label, x) || has_committed(label, x);
    let proposing = members(state.reach).fold(0, |set, disk| set | u8::from(state.labels[disk].tentative != 0) << disk);
    let mut set = candidate(state, proposing, tentative, proposes)?;
    if set == 0 {
        set = candidate(state, proposing, tentative, backs)?;
    }
    if set == 0 {
        set = candidate(state, state.reach, committed, has_committed)?;
    }
    match set {
        0 => Err(NO_CANDIDATE),
        _ => Ok(set),
    }
}

/// The one candidate of a stage, 0 if it has none. A candidate stands in the label of one of its members, so these are
/// the sets to try: in stage 2 as the T of "some member", which names its own disk since the state is sound.
fn candidate(
    state: &State,
    disks: u8,
    tried: impl Fn(&Label) -> u8,
    fits: impl Fn(&Label, u8) -> bool,
) -> Result<u8, u8> {
    let mut found = 0;
    for disk in members(disks) {
        let x = tried(&state.labels[disk]);
        let is_new = x != 0 && x != found && x & !state.reach == 0;
        if is_new && members(x).all(|member| fits(&state.labels[member], x)) {
            if found != 0 {
                return Err(SEVERAL_CANDIDATES);
            }
            found = x;
        }
    }
    Ok(found)
}
