//! What document 01 says of a join, as claims about its disk, the other disks and the G that it leaves.

use crate::cabinet::Cabinet;
use crate::claims::Event;
use crate::mistakes::{Mistake, Rules};
use crate::refusal::DONE;
use crate::sets::DiskSet;
use crate::state::{Power, State, BLOCK};

/// One claim about joins.
#[derive(Clone, Copy, Debug, PartialEq, Eq)]
pub enum JoinClaim {
    /// "The dirty map of d is not touched."
    KeepsMap,
    /// Copies go "to d", and to no other disk.
    KeepsOtherBlocks,
    /// "Copy all blocks, ascending, from the lowest member of L to d."
    CopiesLowest,
    /// "Then move to L with d."
    Moves,
    /// The new G has no disk with old blocks.
    HoldsBook,
}

impl JoinClaim {
    /// The claim in words, as these rules have it.
    pub fn words(self, rules: Rules) -> &'static str {
        match self {
            JoinClaim::KeepsMap => "a join, done or cut, leaves the dirty map of its disk as it was",
            JoinClaim::KeepsOtherBlocks => "a join, done or cut, leaves the blocks of all other disks as they were",
            JoinClaim::CopiesLowest if rules.makes(Mistake::JoinCopiesFromLost) => {
                "a join that gives 0 leaves its disk with the blocks that the lowest disk of G had, whatever each holds"
            }
            JoinClaim::CopiesLowest => {
                "a join that gives 0 leaves its disk with the blocks that the lowest member of L had, \
                 whatever each disk holds"
            }
            JoinClaim::Moves => "a join that gives 0 leaves a cabinet that runs with L and its disk",
            JoinClaim::HoldsBook if rules.makes(Mistake::JoinRightInReach) => {
                "after a join that gives 0 every disk in reach holds the book"
            }
            JoinClaim::HoldsBook => "after a join that gives 0 every disk of G holds the book",
        }
    }

    /// Whether the claim holds of this join.
    pub fn holds_of(self, event: &Event, disk: u16) -> bool {
        let is_carried_out = event.answer.is_carried_out();
        let is_done = event.answer.result == DONE;
        match self {
            JoinClaim::KeepsMap => !is_carried_out || map_stays(event, disk),
            JoinClaim::KeepsOtherBlocks => !is_carried_out || event.other_blocks_stay(disk),
            JoinClaim::CopiesLowest => {
                !is_done || is_copied(event.before, event.after, disk) && marked_blocks_are_copied(event, disk)
            }
            JoinClaim::Moves => !is_done || event.after.state.power == joined(&event.before.state, disk),
            JoinClaim::HoldsBook => !is_done || event.hold_book(holders(event)),
        }
    }
}

/// The disk's dirty map is what it was.
fn map_stays(event: &Event, disk: u16) -> bool {
    let [was, is] = [event.before, event.after].map(|cabinet| cabinet.state.labels[usize::from(disk)].dirty);
    was == is
}

/// The disk has afterwards the blocks that the lowest member of L had.
fn is_copied(before: &Cabinet, after: &Cabinet, disk: u16) -> bool {
    let state = &before.state;
    let sources = if before.rules.makes(Mistake::JoinCopiesFromLost) {
        state.current()
    } else {
        state.live()
    };
    let has_blocks_of = |source| after.area[state.disk_range(disk as u8)] == before.area[state.disk_range(source)];
    sources.lowest().is_some_and(has_blocks_of)
}

/// All disks of a running cabinet's G hold the book, so that their blocks do not tell which of them was copied. The
/// same join of an area in which no two blocks are equal does.
fn marked_blocks_are_copied(event: &Event, disk: u16) -> bool {
    let mut before = event.before.clone();
    for (place, block) in before.area.chunks_mut(BLOCK).enumerate() {
        block[..2].copy_from_slice(&(place as u16).to_le_bytes());
    }
    let mut after = before.clone();
    after.take(event.call, &mut []).result == DONE && is_copied(&before, &after, disk)
}

/// Running with L and this disk.
fn joined(before: &State, disk: u16) -> Power {
    Power::Running(before.live().with(disk as u8))
}

/// The disks that are said to hold the book: those of G.
fn holders(event: &Event) -> DiskSet {
    let Cabinet { rules, state, .. } = event.after;
    if rules.makes(Mistake::JoinRightInReach) {
        state.reach
    } else {
        state.current()
    }
}
