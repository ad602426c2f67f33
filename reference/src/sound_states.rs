//! Every sound state of a cabinet of n disks of one block, by construction.

use crate::label::Label;
use crate::sets::DiskSet;
use crate::state::{Power, State};

/// All sound states with this n and b = 1: every power condition, every label that then is sound, and every R.
pub fn all(n: u8) -> impl Iterator<Item = State> {
    let sets = move || DiskSet::below(n).sets_inside();
    sets().flat_map(move |current| {
        rows(n, current).into_iter().flat_map(move |labels| {
            sets().map(move |reach| State {
                disks: n,
                blocks: 1,
                reach,
                power: power(current),
                labels,
            })
        })
    })
}

/// "Either running with a current set G, or stopped with none." An empty G stands for the second, since "when running,
/// G is not empty".
fn power(current: DiskSet) -> Power {
    if current.is_empty() {
        Power::Stopped
    } else {
        Power::Running(current)
    }
}

/// Every row of labels that fits this G. "Labels from n up are all zero."
fn rows(n: u8, current: DiskSet) -> Vec<[Label; 8]> {
    let mut rows = vec![[Label::ZERO; 8]];
    for disk in 0..n {
        let labels = if current.has(disk) {
            member_labels(current)
        } else {
            labels(n, disk)
        };
        let labelled = |row| labels.iter().map(move |&label| with(row, disk, label));
        rows = rows.into_iter().flat_map(labelled).collect();
    }
    rows
}

/// The row with this label on this disk.
fn with(mut row: [Label; 8], disk: u8, label: Label) -> [Label; 8] {
    row[disk as usize] = label;
    row
}

/// "Each member has C = G and T = 0."
fn member_labels(current: DiskSet) -> Vec<Label> {
    dirty_or_not(current, DiskSet::EMPTY).to_vec()
}

/// Every label of this disk of n, if it is no member: C and T are each 0, or name disks below n and "its own disk".
fn labels(n: u8, disk: u8) -> Vec<Label> {
    let sets = || {
        let inside = DiskSet::below(n).sets_inside();
        inside.filter(move |set| set.is_empty() || set.has(disk))
    };
    let pairs = sets().flat_map(|committed| sets().map(move |tentative| (committed, tentative)));
    pairs
        .flat_map(|(committed, tentative)| dirty_or_not(committed, tentative))
        .collect()
}

/// The label with the dirty bit of the one region clear and set.
fn dirty_or_not(committed: DiskSet, tentative: DiskSet) -> [Label; 2] {
    [0, 1].map(|dirty| Label {
        committed,
        tentative,
        dirty,
    })
}
