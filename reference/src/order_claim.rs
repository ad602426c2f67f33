//! The order of stores, as one claim about all lists: each goes phase by phase. The phases are put down here from the
//! paper's text, and not by the functions that make the lists.

use crate::call::Call;
use crate::claims::Event;
use crate::definitions;
use crate::lists;
use crate::mistakes::{Mistake, Rules};
use crate::naming::{self, Found};
use crate::sets::DiskSet;
use crate::state::State;
use crate::store::Store;

/// One store that goes to each of some disks. It stands here as it is on disk 0.
#[derive(Clone)]
struct Phase<'a> {
    store: Store<'a>,
    disks: DiskSet,
}

/// The claim in words, as these rules have it.
pub fn words(rules: Rules) -> String {
    let order = if rules.makes(Mistake::StoresDescend) {
        "descending"
    } else {
        "ascending"
    };
    let written = if rules.makes(Mistake::WriteStoresOnAllCurrent) {
        "; those of a write's block are all of G"
    } else {
        ""
    };
    format!("each list of stores goes phase by phase, in each to exactly its disks, {order}, each once{written}")
}

/// Whether the list that the call makes in the state before it goes by its phases, the last of them to its end. A call
/// that is refused has no list, and a phase of no disk no store.
pub fn holds_of(event: &Event) -> bool {
    if !event.answer.is_carried_out() {
        return true;
    }
    let (rules, state) = (event.after.rules, &event.before.state);
    let list = list(rules, state, event.call);
    let mut parts = list.chunk_by(|one, next| on_disk_0(*one) == on_disk_0(*next));
    let phases = phases(rules, state, event.call);
    let mut due = phases.iter().filter(|phase| !phase.disks.is_empty());
    due.all(|phase| parts.next().is_some_and(|part| phase.is_made_by(rules, part))) && parts.next().is_none()
}

/// The list that the call makes.
fn list<'a>(rules: Rules, state: &State, call: &'a Call) -> Vec<Store<'a>> {
    match call {
        Call::Read { .. } => lists::read(rules, state),
        Call::Write { block, data, .. } => lists::write(rules, state, *block as u8, data),
        Call::Join { disk, .. } => lists::join(rules, state, *disk as u8),
        Call::Swap { disk, .. } => lists::swap(rules, state, *disk as u8),
        Call::Quiet { .. } => lists::quiet(rules, state),
        Call::Restart { .. } => match naming::named(rules, &state.labels, state.reach) {
            Found::One(set) => lists::restart(rules, state, set),
            _ => Vec::new(),
        },
        _ => Vec::new(),
    }
}

impl Phase<'_> {
    /// Whether these stores, of which there is one at least, are the phase: to exactly its disks, ascending, each once.
    fn is_made_by(&self, rules: Rules, part: &[Store]) -> bool {
        let disks = part.iter().map(|store| disk(*store));
        let exactly = disks.clone().fold(DiskSet::EMPTY, DiskSet::with) == self.disks;
        let ascend = disks.is_sorted_by(|one, next| match rules.makes(Mistake::StoresDescend) {
            true => one > next,
            false => one < next,
        });
        on_disk_0(part[0]) == self.store && exactly && ascend
    }
}

/// The disk that a store changes.
fn disk(store: Store) -> u8 {
    match store {
        Store::Copy { to, .. } => to,
        Store::Block { disk, .. }
        | Store::SetDirty { disk, .. }
        | Store::ClearDirty { disk, .. }
        | Store::Propose { disk, .. }
        | Store::Commit { disk, .. } => disk,
    }
}

/// The same store, but of disk 0: what the stores of a phase have in common.
fn on_disk_0(mut store: Store) -> Store {
    match &mut store {
        Store::Copy { to: disk, .. }
        | Store::Block { disk, .. }
        | Store::SetDirty { disk, .. }
        | Store::ClearDirty { disk, .. }
        | Store::Propose { disk, .. }
        | Store::Commit { disk, .. } => *disk = 0,
    }
    store
}

/// The phases of a call.
fn phases<'a>(rules: Rules, state: &State, call: &'a Call) -> Vec<Phase<'a>> {
    match call {
        Call::Read { .. } => beginning(state),
        Call::Write { block, data, .. } => written(rules, state, *block as u8, data),
        Call::Join { disk, .. } => joined(state, *disk as u8),
        Call::Swap { disk, .. } if state.current().has(*disk as u8) => moved(state.live()),
        Call::Quiet { .. } => quieted(state),
        Call::Restart { .. } => restarted(state),
        _ => Vec::new(),
    }
}

/// A move to S: T on the disks of S, then C on the disks of S.
fn moved<'a>(set: DiskSet) -> Vec<Phase<'a>> {
    let propose = Store::Propose { disk: 0, set };
    let phases = [propose, Store::Commit { disk: 0, set }];
    phases.map(|store| Phase { store, disks: set }).to_vec()
}

/// What a read is, and a write and a join begin with: a move to L if L differs from G.
fn beginning<'a>(state: &State) -> Vec<Phase<'a>> {
    let is_whole = state.current().inside(state.reach);
    if is_whole {
        Vec::new()
    } else {
        moved(state.live())
    }
}

/// A write: then the marks on the disks of L where the bit does not stand, then the block on the disks of L.
fn written<'a>(rules: Rules, state: &State, block: u8, data: &'a [u8]) -> Vec<Phase<'a>> {
    let region = block / 8;
    let (live, disk) = (state.live(), 0);
    let stored_on = if rules.makes(Mistake::WriteStoresOnAllCurrent) {
        state.current()
    } else {
        live
    };
    let mark = Phase {
        store: Store::SetDirty { disk, region },
        disks: live.minus(dirty_on(state, region)),
    };
    let store = Phase {
        store: Store::Block { disk, block, data },
        disks: stored_on,
    };
    [beginning(state), vec![mark, store]].concat()
}

/// A join: then for each block ascending one copy to d, then a move to L with d.
fn joined<'a>(state: &State, disk: u8) -> Vec<Phase<'a>> {
    let (live, joining) = (state.live(), DiskSet::EMPTY.with(disk));
    let copies = (0..state.blocks).filter_map(|block| copies(live, joining, block));
    [beginning(state), copies.collect(), moved(live.with(disk))].concat()
}

/// The copies of a block from the lowest member of a set to some disks.
fn copies<'a>(set: DiskSet, disks: DiskSet, block: u8) -> Option<Phase<'a>> {
    let from = set.lowest()?;
    let store = Store::Copy { from, to: 0, block };
    Some(Phase { store, disks })
}

/// The clears of a region on some disks.
fn clears<'a>(region: u8, disks: DiskSet) -> Phase<'a> {
    let store = Store::ClearDirty { disk: 0, region };
    Phase { store, disks }
}

/// The disks on which a region is dirty.
fn dirty_on(state: &State, region: u8) -> DiskSet {
    let disks = (0..8).filter(|d| state.labels[usize::from(*d)].dirty & 1 << region != 0);
    disks.fold(DiskSet::EMPTY, DiskSet::with)
}

/// A quiet: for each region ascending the clears on the disks of L where it stands.
fn quieted<'a>(state: &State) -> Vec<Phase<'a>> {
    let standing = |region| clears(region, state.live().and(dirty_on(state, region)));
    (0..8).map(standing).collect()
}

/// A restart: for each region ascending that is dirty on some disk of S, for each of its blocks ascending the copies to
/// the members but the lowest, then the clears on all of S; at last C on the disks of S.
fn restarted<'a>(state: &State) -> Vec<Phase<'a>> {
    let Found::One(set) = definitions::named(&state.labels, state.reach) else {
        return Vec::new();
    };
    let others = set.lowest().map_or(set, |lowest| set.without(lowest));
    let mut phases = Vec::new();
    for region in (0..8).filter(|r| !set.and(dirty_on(state, *r)).is_empty()) {
        let blocks = (0..state.blocks).filter(|block| block / 8 == region);
        phases.extend(blocks.filter_map(|block| copies(set, others, block)));
        phases.push(clears(region, set));
    }
    let store = Store::Commit { disk: 0, set };
    phases.push(Phase { store, disks: set });
    phases
}
