//! What document 01 says of a quiet: "for each region ascending, clear the bit on each disk of L, ascending, where it
//! stands". As claims about all that it leaves.

use crate::claims::Event;
use crate::refusal::DONE;
use crate::state::State;

/// One claim about quiets.
#[derive(Clone, Copy, Debug, PartialEq, Eq)]
pub enum QuietClaim {
    /// Every region of every disk of L is clean.
    Clears,
    /// A store for each bit that stood.
    Counts,
    /// A quiet does not move, and of a label of L it changes the dirty map alone.
    KeepsSets,
    /// "On each disk of L": on no other, and no block.
    KeepsOthers,
}

impl QuietClaim {
    /// The claim in words.
    pub fn words(self) -> &'static str {
        match self {
            QuietClaim::Clears => "a quiet that gives 0 leaves no dirty bit on a disk of L",
            QuietClaim::Counts => "a quiet that gives 0 reports as many stores as dirty bits stood on disks of L",
            QuietClaim::KeepsSets => "a quiet that gives 0 leaves G, and C and T of the disks of L, as they were",
            QuietClaim::KeepsOthers => "a quiet leaves R, the labels outside L and the disk area as they were",
        }
    }

    /// Whether the claim holds of this quiet.
    pub fn holds_of(self, event: &Event) -> bool {
        let (before, after) = (&event.before.state, &event.after.state);
        let is_done = event.answer.result == DONE;
        match self {
            QuietClaim::Clears => !is_done || dirty_bits_of_live(before, after) == 0,
            QuietClaim::Counts => !is_done || event.answer.stores == dirty_bits_of_live(before, before),
            QuietClaim::KeepsSets => !is_done || after.power == before.power && sets_of_live_stay(before, after),
            QuietClaim::KeepsOthers => {
                let others_stay = after.reach == before.reach && labels_outside_live_stay(before, after);
                others_stay && event.after.area == event.before.area
            }
        }
    }
}

/// How many dirty bits stand in a state on the disks that are L before the call.
fn dirty_bits_of_live(before: &State, state: &State) -> usize {
    let live = before.live().members();
    live.map(|d| state.labels[usize::from(d)].dirty.count_ones() as usize)
        .sum()
}

/// C and T of each disk of L are what they were.
fn sets_of_live_stay(before: &State, after: &State) -> bool {
    before.live().members().map(usize::from).all(|d| {
        let (was, is) = (before.labels[d], after.labels[d]);
        (was.committed, was.tentative) == (is.committed, is.tentative)
    })
}

/// Each disk that is not in L has the label that it had.
fn labels_outside_live_stay(before: &State, after: &State) -> bool {
    let mut others = (0..8).filter(|d| !before.live().has(*d)).map(usize::from);
    others.all(|d| before.labels[d] == after.labels[d])
}
