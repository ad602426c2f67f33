//! "Each call that changes disks is a list of stores, fixed below." The lists are fixed from the state at the call.

use crate::mistakes::{Mistake, Rules};
use crate::sets::DiskSet;
use crate::state::{State, REGION};
use crate::store::Store;

/// "Moving to set S: for each disk of S, ascending, store T = S; then for each disk of S, ascending, store C = S and
/// T = 0."
fn move_to<'a>(set: DiskSet) -> Vec<Store<'a>> {
    let mut list: Vec<Store> = set.members().map(|disk| Store::Propose { disk, set }).collect();
    list.extend(commits(set));
    list
}

/// "Store C = S and T = 0 on every member, ascending."
fn commits<'a>(set: DiskSet) -> impl Iterator<Item = Store<'a>> {
    set.members().map(move |disk| Store::Commit { disk, set })
}

/// "If L differs from G, move to L."
fn move_to_live<'a>(state: &State) -> Vec<Store<'a>> {
    if state.live() == state.current() {
        Vec::new()
    } else {
        move_to(state.live())
    }
}

/// "A read with L different from G now moves to L before it copies the block" (request 2.3). The copy goes to the
/// output, and is no store.
pub fn read<'a>(rules: Rules, state: &State) -> Vec<Store<'a>> {
    if rules.makes(Mistake::ReadStays) {
        Vec::new()
    } else {
        move_to_live(state)
    }
}

/// "Write block k: if L differs from G, move to L. Then set the region's dirty bit on each disk of L, ascending,
/// where it does not stand. Then store the block on each disk of L, ascending."
pub fn write<'a>(rules: Rules, state: &State, block: u8, data: &'a [u8]) -> Vec<Store<'a>> {
    let mut before = move_to_live(state);
    before.extend(marks(state, block / REGION));
    let blocks: Vec<Store> = if rules.makes(Mistake::WriteStoresNothing) {
        Vec::new()
    } else {
        block_stores(state, block, data).collect()
    };
    if rules.makes(Mistake::BlocksBeforeBits) {
        [blocks, before].concat()
    } else {
        [before, blocks].concat()
    }
}

/// A write's dirty bits: those of L that do not stand.
fn marks<'a>(state: &State, region: u8) -> impl Iterator<Item = Store<'a>> + '_ {
    let clean = move |d: &u8| !state.labels[*d as usize].is_dirty(region);
    let mark = move |disk| Store::SetDirty { disk, region };
    state.live().members().filter(clean).map(mark)
}

/// A write's block, on each disk of L.
fn block_stores<'a>(state: &State, block: u8, data: &'a [u8]) -> impl Iterator<Item = Store<'a>> + 'a {
    let store = move |disk| Store::Block { disk, block, data };
    state.live().members().map(store)
}

/// "Join disk d: if L differs from G, move to L. Copy all blocks, ascending, from the lowest member of L to d. Then
/// move to L with d. The dirty map of d is not touched."
pub fn join<'a>(rules: Rules, state: &State, disk: u8) -> Vec<Store<'a>> {
    let first = move_to_live(state);
    let from = state.live().lowest();
    let copy = |block| from.map(|from| Store::Copy { from, to: disk, block });
    let copies: Vec<Store> = (0..state.blocks).filter_map(copy).collect();
    let joining = move_to(state.live().with(disk));
    if rules.makes(Mistake::JoinBeforeCopies) {
        [first, joining, copies].concat()
    } else {
        [first, copies, joining].concat()
    }
}

/// "If d is in G the cabinet first moves to L" (request 2.5). The new disk's blocks are "no counted stores".
pub fn swap<'a>(rules: Rules, state: &State, disk: u8) -> Vec<Store<'a>> {
    if swap_moves(rules, state, disk) {
        move_to_live(state)
    } else {
        Vec::new()
    }
}

/// Whether a swap of this disk, which is out of reach, moves to L: "if d is in G", whatever else of G may be lost.
pub fn swap_moves(rules: Rules, state: &State, disk: u8) -> bool {
    if rules.makes(Mistake::SwapMovesAlways) {
        !state.live().is_empty()
    } else {
        state.current().has(disk) && !rules.makes(Mistake::SwapStays)
    }
}

/// "Quiet: for each region ascending, clear the bit on each disk of L, ascending, where it stands."
pub fn quiet<'a>(rules: Rules, state: &State) -> Vec<Store<'a>> {
    let mut list = Vec::new();
    let regions = if rules.makes(Mistake::CleanLeavesShortRegion) {
        state.blocks / REGION
    } else {
        state.regions()
    };
    for region in 0..regions {
        let dirty = |d: &u8| state.labels[*d as usize].is_dirty(region);
        let clear = |disk| Store::ClearDirty { disk, region };
        list.extend(state.live().members().filter(dirty).map(clear));
    }
    list
}

/// "For each region, ascending, that is dirty on any disk of S", mend it. "At the end store C = S and T = 0 on every
/// member, ascending."
pub fn restart<'a>(rules: Rules, state: &State, set: DiskSet) -> Vec<Store<'a>> {
    let dirty = |region| set.members().any(|d| state.labels[d as usize].is_dirty(region));
    let mut list = Vec::new();
    for region in (0..state.regions()).filter(|&r| dirty(r)) {
        list.extend(mend(rules, state, set, region));
    }
    list.extend(commits(set));
    list
}

/// One region of a restart: its copies; "then clear the bit on every member, ascending, standing or not".
fn mend<'a>(rules: Rules, state: &State, set: DiskSet, region: u8) -> Vec<Store<'a>> {
    let clears: Vec<Store> = set.members().map(|disk| Store::ClearDirty { disk, region }).collect();
    let copies = if rules.makes(Mistake::RestartCopiesNothing) {
        Vec::new()
    } else {
        region_copies(rules, state, set, region)
    };
    if rules.makes(Mistake::ClearsBeforeCopies) {
        [clears, copies].concat()
    } else {
        [copies, clears].concat()
    }
}

/// "For each block ascending, copy it from the lowest member to each other member, ascending."
fn region_copies<'a>(rules: Rules, state: &State, set: DiskSet, region: u8) -> Vec<Store<'a>> {
    let from_second = rules.makes(Mistake::CopiesFromOtherMember);
    let source = set.members().nth(usize::from(from_second));
    let Some(from) = source else {
        return Vec::new();
    };
    let others = set.members().skip(1);
    let copies = |block| others.clone().map(move |to| Store::Copy { from, to, block });
    state.region_blocks(region).flat_map(copies).collect()
}
