//! From the reference's states, labels and diagnoses to plain Rust's, in which cases and outcomes are, and back from
//! states and labels. A running state with no current disk, which is unsound, has no form in plain Rust, and becomes a
//! stopped one.

use plain::{Diagnosis, Label, Reading, State};
use reference::sets::DiskSet;
use reference::{diagnosis, label, state};

/// The state in the reference's form.
pub fn to_reference(state: State) -> state::State {
    state::State {
        disks: state.disks,
        blocks: state.blocks,
        reach: DiskSet(state.reach),
        power: match state.current {
            0 => state::Power::Stopped,
            current => state::Power::Running(DiskSet(current)),
        },
        labels: state.labels.map(label_to_reference),
    }
}

/// The state from the reference's form.
pub fn from_reference(state: state::State) -> State {
    State {
        disks: state.disks,
        blocks: state.blocks,
        reach: state.reach.0,
        current: state.current().0,
        labels: state.labels.map(label_from_reference),
    }
}

/// The label in the reference's form.
pub fn label_to_reference(label: Label) -> label::Label {
    label::Label {
        committed: DiskSet(label.committed),
        tentative: DiskSet(label.tentative),
        dirty: label.dirty,
    }
}

/// The label from the reference's form.
fn label_from_reference(label: label::Label) -> Label {
    Label {
        committed: label.committed.0,
        tentative: label.tentative.0,
        dirty: label.dirty,
    }
}

/// What a label reading yields, from the reference's form.
pub fn reading_from_reference(reading: label::Reading) -> Reading {
    Reading {
        disk: reading.disk,
        disks: reading.disks,
        label: label_from_reference(reading.label),
        length: reading.length,
    }
}

/// What a diagnosis tells, from the reference's form.
pub fn told_by_reference(told: diagnosis::Diagnosis) -> Diagnosis {
    Diagnosis {
        result: told.result,
        reason: told.reason.number(),
        disk: told.reason.disk(),
        set: told.set.0,
    }
}
