//! Cases on arbitrary states, each for itself: all calls, with whatever numbers and buffers.

use crate::arguments::{blocks, byte, bytes, call_on, disks, length, number};
use crate::case::{Call, Case};
use crate::comparison::Source;
use crate::implementations::{Implementation, Plain};
use crate::states;
use plain::State;
use reference::random::Random;
use reference::slots::SLOT;
use reference::state::BLOCK;

/// Bad numbers and lengths, of a hundred.
const BAD: usize = 12;

/// More bytes than the largest area of a sound state has; unsound ones would ask for megabytes.
const LONGEST: usize = 8 * 64 * BLOCK + BLOCK;

/// The source of these cases.
pub struct Arbitrary(pub Random);

impl Source for Arbitrary {
    fn next_case(&mut self) -> Case {
        let random = &mut self.0;
        let (call, _) = random.pick(&Call::ALL);
        match call {
            Call::Fresh => fresh(random),
            Call::Assemble => assemble(random),
            Call::ReadLabel => read_label(random),
            Call::WriteLabel => write_label(random),
            _ => on_state(random, call),
        }
    }
}

/// A fresh: its area is that of the numbers before these were made bad.
fn fresh(random: &mut Random) -> Case {
    let (disks, blocks) = (disks(random), blocks(random));
    Case {
        disks: number(random, disks..=disks, BAD),
        blocks: number(random, blocks..=blocks, BAD),
        area: bytes(random, disks * blocks * BLOCK, BAD),
        ..Case::new(Call::Fresh)
    }
}

/// A call that takes a state.
fn on_state(random: &mut Random, call: Call) -> Case {
    let asks_stopped = matches!(call, Call::Restart | Call::Diagnose);
    let stopped = if asks_stopped { 90 } else { 20 };
    let state = states::any(random, stopped);
    let area = if call.takes_area() {
        let right = usize::from(state.disks) * usize::from(state.blocks) * BLOCK;
        bytes(random, right.min(LONGEST), BAD)
    } else {
        Vec::new()
    };
    call_on(random, call, state, area, BAD)
}

/// An assemble.
fn assemble(random: &mut Random) -> Case {
    let state = states::sound(random, 50);
    let mut slots = saved_and_changed(random, &state);
    let length = length(random, slots.len(), BAD / 2);
    slots.resize(length, 0);
    let (disks, blocks) = (usize::from(state.disks), usize::from(state.blocks));
    let fewer = if random.percent(75) {
        blocks
    } else {
        1 + random.below(blocks)
    };
    Case {
        disks: number(random, disks..=disks, BAD / 2),
        blocks: number(random, fewer..=fewer, BAD / 2),
        reach: byte(random, state.reach, 75),
        buffer: slots,
        ..Case::new(Call::Assemble)
    }
}

/// A label reading: of a slot, with those behind it or cut short somewhere.
fn read_label(random: &mut Random) -> Case {
    let state = states::sound(random, 50);
    let slots = saved_and_changed(random, &state);
    let start = SLOT * random.below(state.disks.into());
    let mut bytes = slots[start..].to_vec();
    if random.percent(40) {
        bytes.truncate(random.below(SLOT + 1));
    }
    Case {
        buffer: bytes,
        ..Case::new(Call::ReadLabel)
    }
}

/// A label writing: of a label that some state has, mostly with its own numbers, into an output about as long.
fn write_label(random: &mut Random) -> Case {
    let state = states::any(random, 50);
    let disks = usize::from(state.disks);
    let disk = random.below(disks.clamp(1, state.labels.len()));
    let room = random.pick(&[2, 3, 4, SLOT, SLOT, SLOT + 1, 2 * SLOT]);
    Case {
        disks: number(random, disks..=disks, BAD),
        number: number(random, disk..=disk, BAD),
        label: state.labels[disk],
        buffer: bytes(random, room, BAD),
        ..Case::new(Call::WriteLabel)
    }
}

/// The slots of a sound state, in three of four cases with something changed.
fn saved_and_changed(random: &mut Random, state: &State) -> Vec<u8> {
    let mut slots = saved(state);
    match random.below(12) {
        0 => slots.fill_with(|| random.byte()),
        1 => change_fields(random, &mut slots),
        2..=8 => change_bytes(random, &mut slots),
        _ => (),
    }
    slots
}

/// Changes a byte of the slots, or two.
fn change_bytes(random: &mut Random, slots: &mut [u8]) {
    for _ in 0..random.pick(&[1, 2]) {
        let byte = &mut slots[random.below(slots.len())];
        *byte = states::changed(random, *byte);
    }
}

/// Gives each label any map of fields, and small fields.
fn change_fields(random: &mut Random, slots: &mut [u8]) {
    for slot in slots.chunks_mut(SLOT) {
        let fields: [u8; 3] = std::array::from_fn(|_| random.byte() & random.byte());
        slot[0] = random.byte() & 7;
        slot[2..].copy_from_slice(&fields);
    }
}

/// The slots of a sound state.
fn saved(state: &State) -> Vec<u8> {
    let case = Case {
        state: *state,
        buffer: vec![0; SLOT * usize::from(state.disks)],
        ..Case::new(Call::Save)
    };
    Plain.make(case).buffer
}
