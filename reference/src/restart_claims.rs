//! How many stores a restart reports. What it leaves is said by demand 3.

use crate::claims::Event;
use crate::definitions;
use crate::mistakes::{Mistake, Rules};
use crate::naming::Found;
use crate::refusal::{DONE, SUPPLY_ENDED};
use crate::sets::DiskSet;
use crate::state::State;

/// One claim about the stores of a restart.
#[derive(Clone, Copy, Debug, PartialEq, Eq)]
pub enum RestartClaim {
    /// A finished one makes its whole list.
    Counts,
    /// "Exactly the first supply stores are made", if the list is longer.
    CutCounts,
}

impl RestartClaim {
    /// The claim in words, as these rules have it.
    pub fn words(self, rules: Rules) -> String {
        let clears = if rules.makes(Mistake::RestartClearsStanding) {
            "|S| - 1"
        } else {
            "|S|"
        };
        let number = format!(
            "|S| and, for each region that is dirty on some disk of S, (blocks of the region) x (|S| - 1) + {clears}"
        );
        match self {
            RestartClaim::Counts => format!("a restart that gives 0 reports so many stores: {number}"),
            RestartClaim::CutCounts => {
                format!("a restart that gives 15 reports its supply, which is less than this number: {number}")
            }
        }
    }

    /// Whether the claim holds of this restart.
    pub fn holds_of(self, event: &Event, supply: u16) -> bool {
        let (result, stores) = (event.answer.result, event.answer.stores);
        match self {
            RestartClaim::Counts => result != DONE || length(event).is_some_and(|length| stores == length),
            RestartClaim::CutCounts => {
                let is_below = |length| stores < length;
                result != SUPPLY_ENDED || stores == usize::from(supply) && length(event).is_some_and(is_below)
            }
        }
    }
}

/// The stores of a restart in the state before, if that names a set.
fn length(event: &Event) -> Option<usize> {
    let state = &event.before.state;
    let Found::One(set) = definitions::named(&state.labels, state.reach) else {
        return None;
    };
    let regions: usize = (0..8)
        .map(|region| stores_of_region(event.after.rules, state, set, region))
        .sum();
    Some(regions + set.size())
}

/// A region that is dirty on no member takes none; another one the copies of its blocks to all members but one, and
/// clears "on every member, standing or not". A region is 8 blocks, and "the last may be short".
fn stores_of_region(rules: Rules, state: &State, set: DiskSet, region: u8) -> usize {
    let is_dirty = set.members().any(|d| state.labels[usize::from(d)].is_dirty(region));
    if !is_dirty {
        return 0;
    }
    let blocks = usize::from(state.blocks.saturating_sub(8 * region).min(8));
    let standing = usize::from(rules.makes(Mistake::RestartClearsStanding));
    blocks * (set.size() - 1) + set.size() - standing
}
