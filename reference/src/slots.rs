//! The saved form: "each disk has a slot of 5 bytes, the rest of the slot zero".

use crate::bay;
use crate::cabinet::Answer;
use crate::label;
use crate::mistakes::{Mistake, Rules};
use crate::refusal::{self, *};
use crate::sets::DiskSet;
use crate::state::{Power, State};

/// The bytes of one slot.
pub const SLOT: usize = 5;

/// Save: 1, and 2, "the slot buffer is not 5 × n bytes".
pub fn save(rules: Rules, state: &State, slots: &mut [u8]) -> Answer {
    let ready = refusal::first(&[
        (UNSOUND, !state.is_sound(rules)),
        (WRONG_LENGTH, slots.len() != SLOT * state.disks as usize),
    ]);
    if let Err(number) = ready {
        return Answer::refused(number);
    }
    slots.fill(0);
    let labels = (0..).zip(&state.labels);
    for ((disk, label), slot) in labels.zip(slots.chunks_mut(SLOT)) {
        let written = label::write(disk, state.disks.into(), label, slot);
        debug_assert!(written.is_ok(), "the labels of a sound state can be written");
    }
    Answer::DONE
}

/// Assemble: "takes n, b, R and n slots, and gives a stopped state". Refused, it yields one "that is all zero and
/// stopped".
pub fn assemble(rules: Rules, n: u16, b: u16, reach: DiskSet, slots: &[u8]) -> (Answer, State) {
    match assembled(rules, n, b, reach, slots) {
        Ok(state) => (Answer::DONE, state),
        Err(number) => (Answer::refused(number), State::ZERO),
    }
}

/// Assemble: "4. 5. 2, slots not 5 × n bytes. 8, R names a disk from n up." Then slot by slot, ascending.
fn assembled(rules: Rules, n: u16, b: u16, reach: DiskSet, slots: &[u8]) -> Result<State, u8> {
    refusal::first(&[
        (DISK_COUNT, !(1..=8).contains(&n)),
        (BLOCK_COUNT, !(1..=64).contains(&b)),
        (WRONG_LENGTH, slots.len() != SLOT * n as usize),
    ])?;
    let (disks, blocks) = (n as u8, b as u8);
    refusal::first(&[(NO_SUCH_DISK, !reach.inside(DiskSet::below(disks)))])?;
    let mut state = State {
        disks,
        blocks,
        reach,
        power: Power::Stopped,
        ..State::ZERO
    };
    for disk in 0..disks {
        let from_slot = &slots[SLOT * disk as usize..];
        state.labels[disk as usize] = bay::label(rules, &state, disk, from_slot)?;
    }
    if rules.makes(Mistake::AssembleOneSlot) {
        let first = state.labels[0];
        state.labels[..n as usize].fill(first);
    }
    Ok(state)
}
