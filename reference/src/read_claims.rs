//! What document 01 and request 2.3 say of a read, as claims about its output, its stores and the G that it leaves.

use crate::cabinet::Cabinet;
use crate::claims::Event;
use crate::lists;
use crate::refusal::DONE;
use crate::state::Power;
use crate::store;
use std::borrow::Cow;

/// One claim about reads.
#[derive(Clone, Copy, Debug, PartialEq, Eq)]
pub enum ReadClaim {
    /// Reads yield the book.
    YieldsBook,
    /// Reads make the stores that they report.
    MakesStores,
    /// Reads that are not done leave the output.
    KeepsOutput,
    /// The output of a read is nothing of a disk out of reach.
    WithinReach,
    /// Reads notice a loss: they leave G = L.
    Moves,
}

impl ReadClaim {
    /// The claim in words.
    pub fn words(self) -> &'static str {
        match self {
            ReadClaim::YieldsBook => "a read that gives 0 yields the book's block",
            ReadClaim::MakesStores => {
                "the disks after a read are those of exactly so many stores of its list as it reports"
            }
            ReadClaim::KeepsOutput => "a read that does not give 0 leaves the output as it was",
            ReadClaim::WithinReach => "the output of a read does not depend on what disks out of reach hold",
            ReadClaim::Moves => "a read that gives 0 leaves a cabinet that runs with its L",
        }
    }

    /// Whether the claim holds of this read.
    pub fn holds_of(self, event: &Event, block: u16) -> bool {
        let is_done = event.answer.result == DONE;
        match self {
            ReadClaim::YieldsBook => !is_done || event.output == event.book.block(block.into()),
            ReadClaim::MakesStores => disks_are_of_reported_stores(event),
            ReadClaim::KeepsOutput => is_done || event.output == event.given,
            ReadClaim::WithinReach => yields_nothing_of_lost_disks(event),
            ReadClaim::Moves => !is_done || event.after.state.power == Power::Running(event.before.state.live()),
        }
    }
}

/// Whether the labels and the disk area are those of exactly so many stores of a read's list as it reports. A refused
/// read makes none. The disks before are copied only if there is a store to make.
fn disks_are_of_reported_stores(event: &Event) -> bool {
    let rules = event.before.rules;
    let list = if event.answer.is_carried_out() {
        lists::read(rules, &event.before.state)
    } else {
        Vec::new()
    };
    let Some(made) = list.get(..event.answer.stores) else {
        return false;
    };
    let mut disks = Cow::Borrowed(event.before);
    for &one in made {
        let Cabinet { state, area, .. } = disks.to_mut();
        store::apply(rules, one, state, area);
    }
    disks.state.labels == event.after.state.labels && disks.area == event.after.area
}

/// Whether the same read of an area in which the blocks of every disk out of reach are different gives the same output.
fn yields_nothing_of_lost_disks(event: &Event) -> bool {
    let state = &event.before.state;
    let lost = state.lost();
    if lost.is_empty() {
        return true;
    }
    let (mut other, mut output) = (event.before.clone(), event.given.to_vec());
    for disk in lost.members() {
        let part = &mut other.area[state.disk_range(disk)];
        part.iter_mut().for_each(|byte| *byte = !*byte);
    }
    other.take(event.call, &mut output);
    output == event.output
}
