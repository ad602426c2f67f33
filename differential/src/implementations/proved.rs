//! The proved product, through its bindings.

use super::guarded::Guarded;
use super::{written, Implementation, Outcome};
use crate::case::{Call, Case};
use cabinet::{DiskSet, Reason, Refusal};
use plain::{Diagnosis, Label, Reading, State};

/// The proved product.
pub struct Proved;

impl Implementation for Proved {
    fn name(&self) -> &'static str {
        "proved"
    }

    fn make(&self, case: Case) -> Outcome {
        let (mut guarded_area, mut guarded_buffer) = (Guarded::new(&case.area), Guarded::new(&case.buffer));
        let (area, buffer) = (guarded_area.buffer(), guarded_buffer.buffer());
        let state = to_product(case.state);
        let answer = match case.call {
            Call::Fresh => cabinet::State::format(case.disks, case.blocks, area),
            Call::Read => state.read(area, case.number, buffer, case.supply),
            Call::Write => state.write(area, case.number, buffer, case.supply),
            Call::Join => state.join(area, case.number, case.supply),
            Call::Swap => state.swap(area, case.number, case.supply),
            Call::Quiet => state.clean(case.supply),
            Call::Restart => state.restart(area, case.supply),
            Call::Lose => state.detach(case.number),
            Call::Return => state.attach(case.number, buffer),
            Call::Cut => state.power_off(),
            Call::Diagnose => return diagnose(case),
            Call::Save => state.save(buffer),
            Call::Assemble => {
                let reach = DiskSet::from_bits(case.reach);
                cabinet::State::assemble(case.disks, case.blocks, reach, buffer)
            }
            Call::ReadLabel => return read_label(&case),
            Call::WriteLabel => return write_label(&case),
        };
        Outcome {
            result: number(answer.outcome()),
            stores: answer.stores.into(),
            state: from_product(answer.state),
            area: guarded_area.into_bytes(),
            buffer: guarded_buffer.into_bytes(),
            reading: Reading::default(),
            told: Diagnosis::default(),
        }
    }
}

/// A diagnosis: it takes no buffer, and its state stays the caller's.
fn diagnose(case: Case) -> Outcome {
    let told = told_by_product(to_product(case.state).diagnose(case.stage, case.number));
    Outcome {
        result: told.result,
        stores: 0,
        state: case.state,
        area: case.area,
        buffer: case.buffer,
        reading: Reading::default(),
        told,
    }
}

/// A label reading.
fn read_label(case: &Case) -> Outcome {
    let mut bytes = Guarded::new(&case.buffer);
    let read = cabinet::Label::read(bytes.buffer());
    let narrow = |number: usize| u8::try_from(number).expect("a label's numbers have four bits");
    let reading = Reading {
        disk: narrow(read.number),
        disks: narrow(read.disks),
        label: label_from_product(read.label),
        length: read.length,
    };
    label_outcome(case, read.outcome(), bytes, reading)
}

/// A label writing.
fn write_label(case: &Case) -> Outcome {
    let mut output = Guarded::new(&case.buffer);
    let label = label_to_product(case.label);
    let answer = label.write(output.buffer(), case.number, case.disks);
    label_outcome(case, answer.outcome(), output, written(answer.length))
}

/// What a label call gave: it takes no state and no area.
fn label_outcome(case: &Case, outcome: Result<(), Refusal>, buffer: Guarded, reading: Reading) -> Outcome {
    Outcome {
        result: number(outcome),
        stores: 0,
        state: case.state,
        area: case.area.clone(),
        buffer: buffer.into_bytes(),
        reading,
        told: Diagnosis::default(),
    }
}

/// The number of an outcome.
fn number(outcome: Result<(), Refusal>) -> u8 {
    outcome.map_or_else(Refusal::number, |()| 0)
}

/// What a diagnosis told, from the product's form.
pub fn told_by_product(diagnosis: cabinet::Diagnosis) -> Diagnosis {
    let disk = diagnosis.reason.and_then(Reason::disk).unwrap_or(0);
    Diagnosis {
        result: number(diagnosis.outcome()),
        reason: diagnosis.reason.map_or(0, Reason::number),
        disk: u8::try_from(disk).expect("a cabinet has at most 8 disks"),
        set: diagnosis.set.bits(),
    }
}

/// The state in the product's form.
pub fn to_product(state: State) -> cabinet::State {
    cabinet::State {
        disks: state.disks,
        blocks: state.blocks,
        online: DiskSet::from_bits(state.reach),
        current: DiskSet::from_bits(state.current),
        labels: state.labels.map(label_to_product),
    }
}

/// The state from the product's form.
pub fn from_product(state: cabinet::State) -> State {
    State {
        disks: state.disks,
        blocks: state.blocks,
        reach: state.online.bits(),
        current: state.current.bits(),
        labels: state.labels.map(label_from_product),
    }
}

/// The label in the product's form.
fn label_to_product(label: Label) -> cabinet::Label {
    cabinet::Label {
        committed: DiskSet::from_bits(label.committed),
        tentative: DiskSet::from_bits(label.tentative),
        dirty: label.dirty,
    }
}

/// The label from the product's form.
fn label_from_product(label: cabinet::Label) -> Label {
    Label {
        committed: label.committed.bits(),
        tentative: label.tentative.bits(),
        dirty: label.dirty,
    }
}
