//! What request 2.5 says of a swap, as claims about the single disks, members and blocks before and after it.

use crate::claims::Event;
use crate::definitions;
use crate::refusal::{DONE, STOPPED, SUPPLY_ENDED};
use crate::state::Power;

/// One claim about swaps.
#[derive(Clone, Copy, Debug, PartialEq, Eq)]
pub enum SwapClaim {
    /// "D has an empty label, zero blocks."
    Blanks,
    /// "And is still out of reach until returned."
    KeepsReach,
    /// "If d is in G the cabinet first moves to L": then alone.
    MovesForMember,
    /// "A cut during the move leaves the old disk in."
    CutLeavesDisk,
    /// A disk outside G needs no supply and no disk in reach.
    OtherNeedsNothing,
    /// "A stopped cabinet refuses."
    NeedsPower,
}

impl SwapClaim {
    /// The claim in words.
    pub fn words(self) -> &'static str {
        match self {
            SwapClaim::Blanks => {
                "a swap that gives 0 leaves its disk with an empty label and zero blocks, and no other block changed"
            }
            SwapClaim::KeepsReach => "a swap leaves R as it was, and one that gives 0 is of a disk that is not in R",
            SwapClaim::MovesForMember => {
                "a swap that gives 0 leaves G, the other labels and the count of a move to L \
                 if its disk was in G, and else no store and all of them as they were"
            }
            SwapClaim::CutLeavesDisk => {
                "a swap that gives 15 is of a disk in G, and leaves the disk area as it was \
                 and the labels of so many stores of a move to L as its supply allows"
            }
            SwapClaim::OtherNeedsNothing => {
                "a swap of a running cabinet's disk that is neither in reach nor in G gives 0 without a store"
            }
            SwapClaim::NeedsPower => "a swap of a stopped cabinet gives 6",
        }
    }

    /// Whether the claim holds of this swap.
    pub fn holds_of(self, event: &Event, disk: u16, supply: u16) -> bool {
        let result = event.answer.result;
        match self {
            SwapClaim::Blanks => result != DONE || is_blank(event, disk) && event.other_blocks_stay(disk),
            SwapClaim::KeepsReach => reach_stays(event) && (result != DONE || event.was_lost(disk)),
            SwapClaim::MovesForMember => result != DONE || moved_for_member(event, disk),
            SwapClaim::CutLeavesDisk => result != SUPPLY_ENDED || cut_leaves_disk(event, disk, supply),
            SwapClaim::OtherNeedsNothing => {
                let is_other = event.was_lost(disk) && !event.was_current(disk);
                !is_other || event.before.state.is_stopped() || (result, event.answer.stores) == (DONE, 0)
            }
            SwapClaim::NeedsPower => !event.before.state.is_stopped() || result == STOPPED,
        }
    }
}

/// R is after the swap what it was before.
fn reach_stays(event: &Event) -> bool {
    event.after.state.reach == event.before.state.reach
}

/// The disk's C, T and dirty map are 0, and so is each byte of its blocks.
fn is_blank(event: &Event, disk: u16) -> bool {
    let state = &event.after.state;
    let label = state.labels[usize::from(disk)];
    let has_empty_label = (label.committed.0, label.tentative.0, label.dirty) == (0, 0, 0);
    has_empty_label
        && event.after.area[state.disk_range(disk as u8)]
            .iter()
            .all(|byte| *byte == 0)
}

/// A member's swap leaves what a move to L leaves, which has two stores a disk; another one leaves what was there. Of
/// the disk's own label another claim speaks.
fn moved_for_member(event: &Event, disk: u16) -> bool {
    let before = &event.before.state;
    let live = before.live();
    let (then, stores) = if event.was_current(disk) {
        (Power::Running(live), 2 * live.size())
    } else {
        (before.power, 0)
    };
    event.after.state.power == then && event.answer.stores == stores && other_labels_are_moved(event, disk, stores)
}

/// Each disk but this one has the label that so many stores of a move to L leave it.
fn other_labels_are_moved(event: &Event, disk: u16, stores: usize) -> bool {
    let expected = definitions::labels_in_move(&event.before.state, stores);
    let labels = (0..).zip(expected.iter().zip(&event.after.state.labels));
    let mut others = labels.filter(|(d, _)| *d != disk);
    others.all(|(_, (expected, label))| expected == label)
}

/// The supply ends within the move of a member's swap, whose old label and blocks are as they were.
fn cut_leaves_disk(event: &Event, disk: u16, supply: u16) -> bool {
    let (before, after, stores) = (event.before, event.after, event.answer.stores);
    let (was, is) = (before.state.labels, after.state.labels);
    let is_within_move = stores == usize::from(supply) && stores < 2 * before.state.live().size();
    let label_stays = event.was_current(disk) && was[usize::from(disk)] == is[usize::from(disk)];
    let is_moved = other_labels_are_moved(event, disk, stores) && after.state.is_stopped();
    is_within_move && label_stays && is_moved && after.area == before.area
}
