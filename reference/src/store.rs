//! "One store changes one block, one dirty bit, one tentative set, or one committed set together with its tentative
//! set. Stores do not tear."

use crate::mistakes::{Mistake, Rules};
use crate::sets::DiskSet;
use crate::state::State;

/// One store. A block comes from a write's data or from another disk.
#[derive(Clone, Copy, Debug, PartialEq, Eq)]
pub enum Store<'a> {
    /// The block of this disk becomes the data.
    Block { disk: u8, block: u8, data: &'a [u8] },
    /// The block of disk `to` becomes that of disk `from`, as it is at this store.
    Copy { from: u8, to: u8, block: u8 },
    /// The dirty bit of the region is set.
    SetDirty { disk: u8, region: u8 },
    /// The dirty bit of the region is cleared.
    ClearDirty { disk: u8, region: u8 },
    /// T becomes the set.
    Propose { disk: u8, set: DiskSet },
    /// C becomes the set, and T 0.
    Commit { disk: u8, set: DiskSet },
}

/// Makes one store.
pub fn apply(rules: Rules, store: Store, state: &mut State, area: &mut [u8]) {
    match store {
        Store::Block { disk, block, data } => {
            area[state.block_range(disk, block)].copy_from_slice(data);
        }
        Store::Copy { from, to, block } => {
            let target = state.block_range(to, block).start;
            area.copy_within(state.block_range(from, block), target);
        }
        Store::SetDirty { disk, region } => state.labels[disk as usize].dirty |= 1 << region,
        Store::ClearDirty { disk, region } => state.labels[disk as usize].dirty &= !(1 << region),
        Store::Propose { disk, set } => propose(rules, set, state, disk),
        Store::Commit { disk, set } => commit(rules, set, state, disk),
    }
}

/// "T = S."
fn propose(rules: Rules, set: DiskSet, state: &mut State, disk: u8) {
    let label = &mut state.labels[disk as usize];
    label.tentative = set;
    if rules.makes(Mistake::EarlyCommit) {
        label.committed = set;
    }
}

/// "C = S and T = 0."
fn commit(rules: Rules, set: DiskSet, state: &mut State, disk: u8) {
    let label = &mut state.labels[disk as usize];
    label.committed = set;
    if !rules.makes(Mistake::StaleTentative) {
        label.tentative = DiskSet::EMPTY;
    }
    if rules.makes(Mistake::JoinClearsMap) {
        label.dirty = 0;
    }
}
