//! The papers' definitions once more, in other words than in `state`, `lists`, `naming`, `diagnosis` and `bay`, so that
//! the claims about the test of soundness, about moves, about the stages, about diagnoses and about returns compare two
//! things.

use crate::diagnosis::Reason;
use crate::label::{self, Label};
use crate::naming::Found;
use crate::sets::DiskSet;
use crate::state::{Power, State};

/// "A state is sound when": each clause as a statement about single disks, bits and regions.
pub fn is_sound(state: &State) -> bool {
    let (n, b) = (state.disks, state.blocks);
    let in_range = n != 0 && n < 9 && b != 0 && b < 65;
    let only_disks = |set: DiskSet| (n..8).all(|d| !set.has(d));
    let label_fits = |d: u8| {
        let Label {
            committed: c,
            tentative: t,
            dirty,
        } = state.labels[d as usize];
        let names = [c, t]
            .iter()
            .all(|&set| only_disks(set) && (set == DiskSet::EMPTY || set.has(d)));
        let regions = (0..8).all(|r| dirty & (1 << r) == 0 || u16::from(b) > 8 * r);
        names && regions && (d < n || (c.0, t.0, dirty) == (0, 0, 0))
    };
    let power_fits = match state.power {
        Power::Stopped => true,
        Power::Running(g) => {
            let is_member = |d: &u8| g.has(*d);
            let agrees = |d: u8| {
                let label = state.labels[d as usize];
                (label.committed, label.tentative) == (g, DiskSet::EMPTY)
            };
            g.0 != 0 && only_disks(g) && (0..8).filter(is_member).all(agrees)
        }
    };
    in_range && only_disks(state.reach) && (0..8).all(label_fits) && power_fits
}

/// The labels when so many stores of a move to L are made: "for each disk of S, ascending, store T = S; then for each
/// disk of S, ascending, store C = S and T = 0". Each member's two stores by their places.
pub fn labels_in_move(state: &State, made: usize) -> [Label; 8] {
    let (mut labels, live) = (state.labels, state.live());
    for (place, disk) in live.members().enumerate() {
        let label = &mut labels[disk as usize];
        if made > place {
            label.tentative = live;
        }
        if made > live.size() + place {
            (label.committed, label.tentative) = (live, DiskSet::EMPTY);
        }
    }
    labels
}

/// 'Which set a restart names': of all sets X inside R, those whose first stage comes first. One of them is the set.
pub fn named(labels: &[Label; 8], reach: DiskSet) -> Found {
    let staged: Vec<(u8, u8)> = sets_inside(reach)
        .filter_map(|x| first_stage(labels, x).map(|stage| (stage, x)))
        .collect();
    let Some(&(decides, _)) = staged.iter().min() else {
        return Found::None;
    };
    let of_stage: Vec<u8> = staged
        .iter()
        .filter(|(stage, _)| *stage == decides)
        .map(|&(_, x)| x)
        .collect();
    match of_stage[..] {
        [x] => Found::One(DiskSet(x)),
        _ => Found::Several,
    }
}

/// "A non-empty set X inside R": each of them.
fn sets_inside(reach: DiskSet) -> impl Iterator<Item = u8> {
    (1..=reach.0).filter(move |x| x & reach.0 == *x)
}

/// The candidates of this stage, from 1.
pub fn candidates(labels: &[Label; 8], reach: DiskSet, stage: usize) -> impl Iterator<Item = DiskSet> + '_ {
    let fits = move |x: &u8| stages(labels, *x)[stage - 1];
    sets_inside(reach).filter(fits).map(DiskSet)
}

/// The first stage in which X is a candidate.
fn first_stage(labels: &[Label; 8], x: u8) -> Option<u8> {
    let mut stages = (1..).zip(stages(labels, x));
    stages.find(|(_, fits)| *fits).map(|(stage, _)| stage)
}

/// Of each stage, whether X fits it.
fn stages(labels: &[Label; 8], x: u8) -> [bool; 3] {
    let members = (0..8).filter(|d| x >> d & 1 == 1).map(|d| &labels[d]);
    let count = |fits: fn(&Label, u8) -> bool| members.clone().filter(|l| fits(l, x)).count();
    let tentative = count(|l, x| l.tentative.0 == x);
    let committed = count(|l, x| l.committed.0 == x);
    let either = count(|l, x| l.tentative.0 == x || l.committed.0 == x);
    let all = count(|_, _| true);
    [tentative == all, either == all && tentative > 0, committed == all]
}

/// T and C of a disk.
fn sets(state: &State, disk: u8) -> [u8; 2] {
    let label = state.labels[disk as usize];
    [label.tentative.0, label.committed.0]
}

/// "One disk's own set": the first of T and C that is not 0.
fn own_set(state: &State, disk: u32) -> u8 {
    let mut sets = sets(state, disk as u8).into_iter();
    sets.find(|set| *set != 0).unwrap_or(0)
}

/// Whether the disk's own set is a candidate of this stage, from 1: "a non-empty set X inside R" that fits it.
pub fn own_is_candidate(state: &State, stage: u32, disk: u32) -> bool {
    let x = own_set(state, disk);
    x != 0 && x & state.reach.0 == x && stages(&state.labels, x)[stage as usize - 1]
}

/// Whether the reason is true of the disk's own set in this stage, and none that comes earlier is.
pub fn is_earliest_reason(state: &State, stage: u32, disk: u32, reason: Reason) -> bool {
    let of_disks = [Reason::OutOfReach, Reason::Disagrees];
    let of_each_disk = of_disks.into_iter().flat_map(|kind| (0..8).map(kind));
    let mut all = of_each_disk.chain([Reason::Empty, Reason::NoneProposes, Reason::Candidate]);
    let is_true = |reason| is_true(state, stage, disk, reason);
    is_true(reason) && !all.any(|other| other.number() < reason.number() && is_true(other))
}

/// Whether a reason is true, as a statement about the members of the disk's own set.
fn is_true(state: &State, stage: u32, disk: u32, reason: Reason) -> bool {
    let x = own_set(state, disk);
    let is_member = |d: &u8| x >> d & 1 == 1;
    let lower = |d: u8| (0..d).filter(is_member);
    let is_lost = |d: u8| state.reach.0 >> d & 1 == 0;
    let asked_sets = match stage {
        1 => 0..1,
        2 => 0..2,
        _ => 1..2,
    };
    let disagrees = |d: u8| !sets(state, d)[asked_sets.clone()].contains(&x);
    match reason {
        Reason::None => false,
        Reason::Empty => x == 0,
        Reason::OutOfReach(d) => is_member(&d) && is_lost(d) && !lower(d).any(is_lost),
        Reason::Disagrees(d) => is_member(&d) && disagrees(d) && !lower(d).any(disagrees),
        Reason::NoneProposes => stage == 2 && lower(8).all(|d| sets(state, d)[0] != x),
        Reason::Candidate => own_is_candidate(state, stage, disk),
    }
}

/// "A set without the asked disk" that a restart would find: of all sets the one that is so, and 0 if none is.
pub fn other_set(state: &State, disk: u32) -> DiskSet {
    let found = named(&state.labels, state.reach);
    let mut lacking = (1..=255_u8).filter(|x| x >> disk & 1 == 0).map(DiskSet);
    lacking.find(|x| found == Found::One(*x)).unwrap_or_default()
}

/// The number, n and fields of a label, as they are put down in its bytes.
#[derive(Clone, Copy, Debug, PartialEq, Eq)]
pub struct Written {
    /// The disk number.
    pub disk: u8,
    /// n.
    pub disks: u8,
    /// The three fields.
    pub label: Label,
}

/// What the label writer wrote at the start of these bytes, if it wrote that: as the map says, and the writer must
/// write the same.
pub fn written(bytes: &[u8]) -> Option<Written> {
    let &[map, numbers, ..] = bytes else {
        return None;
    };
    let field = |bit: u8| {
        let lower = map & ((1 << bit) - 1);
        let place = 2 + lower.count_ones() as usize;
        bytes.get(place).filter(|_| map >> bit & 1 == 1).copied().unwrap_or(0)
    };
    let label = Label {
        committed: DiskSet(field(0)),
        tentative: DiskSet(field(1)),
        dirty: field(2),
    };
    let (disk, disks) = (numbers % 16, numbers / 16);
    let begins = |written: Vec<u8>| bytes.starts_with(&written);
    let is_written = label::written(disk.into(), disks.into(), &label).is_ok_and(begins);
    is_written.then_some(Written { disk, disks, label })
}
