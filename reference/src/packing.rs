//! A trial of a small cabinet in one number, for the explorer's set of visited states.
//!
//! No rule looks at data: blocks are only stored, copied, zeroed and compared with the book. So the explorer writes
//! blocks of zeros and of ones only, and each is kept as one bit. (Zeros and ones cannot change places: a swap's new
//! disk has zeros, be the book's block zeros or not.)

use crate::sets::DiskSet;
use crate::state::{Power, State, BLOCK};
use crate::trial::Trial;

/// Bits that are put in one after another and taken out again in the opposite order.
struct Bits(u128);

impl Bits {
    fn put(&mut self, count: u8, value: u8) {
        debug_assert!(value >> count == 0);
        self.0 = self.0 << count | u128::from(value);
    }

    fn take(&mut self, count: u8) -> u8 {
        let value = self.0 & ((1 << count) - 1);
        self.0 >>= count;
        value as u8
    }
}

/// The trial of a cabinet of at most 3 disks and 2 blocks as a number: its cabinet, the book's own, and the book. Each
/// cabinet takes 34 bits: R, the power condition, the labels and the blocks.
pub fn pack(trial: &Trial) -> u128 {
    let mut bits = Bits(0);
    for cabinet in [&trial.cabinet, &trial.book.cabinet] {
        put_state(&mut bits, &cabinet.state);
        put_blocks(&mut bits, &cabinet.area);
    }
    put_blocks(&mut bits, &trial.book.blocks);
    bits.0
}

/// The trial that packs to this number, begun from a fresh one.
pub fn unpack(fresh: &Trial, packed: u128) -> Trial {
    let mut trial = fresh.clone();
    let mut bits = Bits(packed);
    take_blocks(&mut bits, &mut trial.book.blocks);
    for cabinet in [&mut trial.book.cabinet, &mut trial.cabinet] {
        take_blocks(&mut bits, &mut cabinet.area);
        take_state(&mut bits, &mut cabinet.state);
    }
    trial
}

fn put_blocks(bits: &mut Bits, blocks: &[u8]) {
    for block in blocks.chunks(BLOCK) {
        bits.put(1, block[0]);
    }
}

fn take_blocks(bits: &mut Bits, blocks: &mut [u8]) {
    for block in blocks.chunks_mut(BLOCK).rev() {
        block.fill(bits.take(1));
    }
}

fn put_state(bits: &mut Bits, state: &State) {
    let n = state.disks;
    bits.put(n, state.reach.0);
    bits.put(n, state.current().0);
    bits.put(1, u8::from(state.is_stopped()));
    for label in &state.labels[..n as usize] {
        bits.put(n, label.committed.0);
        bits.put(n, label.tentative.0);
        bits.put(1, label.dirty);
    }
}

fn take_state(bits: &mut Bits, state: &mut State) {
    let n = state.disks;
    for label in state.labels[..n as usize].iter_mut().rev() {
        label.dirty = bits.take(1);
        label.tentative = DiskSet(bits.take(n));
        label.committed = DiskSet(bits.take(n));
    }
    let stopped = bits.take(1) == 1;
    let current = DiskSet(bits.take(n));
    state.power = if stopped {
        Power::Stopped
    } else {
        Power::Running(current)
    };
    state.reach = DiskSet(bits.take(n));
}
