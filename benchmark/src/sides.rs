//! The two sides: the proved calls by the bindings, and the same calls in plain Rust.

use crate::rows::{Buffers, Call, Row, BLOCK, BLOCKS, DISK, DISKS, STAGE, SUPPLY};
use crate::timing::repeat;
use differential::implementations::{from_product, to_product, told_by_product};
use plain::SLOT;
use std::hint::black_box;
use std::time::Duration;

/// What a call yields, in plain Rust's form: an answer, or what a diagnosis tells.
#[derive(Debug, PartialEq, Eq)]
pub enum Yielded {
    Answer(plain::Answer),
    Told(plain::Diagnosis),
}

impl Yielded {
    /// 0, or the refusal's number.
    pub fn result(&self) -> u8 {
        match self {
            Yielded::Answer(answer) => answer.result,
            Yielded::Told(told) => told.result,
        }
    }

    /// The number of stores made. A diagnosis makes none.
    pub fn stores(&self) -> u16 {
        match self {
            Yielded::Answer(answer) => answer.stores,
            Yielded::Told(_) => 0,
        }
    }
}

/// The calls of a side by the product's names. States, answers and diagnoses are its own, so that no conversion is
/// timed. A state lies in memory, as a caller keeps it, and each side takes it from there in its own way.
pub struct Side<S, A, D> {
    format: fn(usize, usize, &mut [u8]) -> A,
    read: fn(&S, &[u8], usize, &mut [u8], u16) -> A,
    write: fn(&S, &mut [u8], usize, &[u8], u16) -> A,
    join: fn(&S, &mut [u8], usize, u16) -> A,
    swap: fn(&S, &mut [u8], usize, u16) -> A,
    clean: fn(&S, u16) -> A,
    restart: fn(&S, &mut [u8], u16) -> A,
    detach: fn(&S, usize) -> A,
    attach: fn(&S, usize, &[u8]) -> A,
    power_off: fn(&S) -> A,
    diagnose: fn(&S, usize, usize) -> D,
    save: fn(&S, &mut [u8]) -> A,
    assemble: fn(usize, usize, u8, &[u8]) -> A,
    state: fn(plain::State) -> S,
    answer: fn(A) -> plain::Answer,
    told: fn(D) -> plain::Diagnosis,
}

/// The proved product.
pub const PROVED: Side<cabinet::State, cabinet::Answer, cabinet::Diagnosis> = Side {
    format: cabinet::State::format,
    read: |state, area, block, output, supply| state.read(area, block, output, supply),
    write: |state, area, block, data, supply| state.write(area, block, data, supply),
    join: |state, area, disk, supply| state.join(area, disk, supply),
    swap: |state, area, disk, supply| state.swap(area, disk, supply),
    clean: |state, supply| state.clean(supply),
    restart: |state, area, supply| state.restart(area, supply),
    detach: |state, disk| state.detach(disk),
    attach: |state, disk, shown| state.attach(disk, shown),
    power_off: |state| state.power_off(),
    diagnose: |state, stage, disk| state.diagnose(stage, disk),
    save: |state, slots| state.save(slots),
    assemble: |disks, blocks, reach, slots| {
        cabinet::State::assemble(disks, blocks, cabinet::DiskSet::from_bits(reach), slots)
    },
    state: to_product,
    answer: plain_answer,
    told: told_by_product,
};

/// Plain Rust.
pub const PLAIN: Side<plain::State, plain::Answer, plain::Diagnosis> = Side {
    format: plain::fresh,
    read: |&state, area, block, output, supply| plain::read(state, area, block, output, supply),
    write: |&state, area, block, data, supply| plain::write(state, area, block, data, supply),
    join: |&state, area, disk, supply| plain::join(state, area, disk, supply),
    swap: |&state, area, disk, supply| plain::swap(state, area, disk, supply),
    clean: |&state, supply| plain::quiet(state, supply),
    restart: |&state, area, supply| plain::restart(state, area, supply),
    detach: |&state, disk| plain::lose(state, disk),
    attach: |&state, disk, shown| plain::give_back(state, disk, shown),
    power_off: |&state| plain::cut(state),
    diagnose: plain::diagnose,
    save: |&state, slots| plain::save(state, slots),
    assemble: plain::assemble,
    state: |state| state,
    answer: |answer| answer,
    told: |told| told,
};

fn plain_answer(answer: cabinet::Answer) -> plain::Answer {
    plain::Answer {
        result: answer.outcome().map_or_else(cabinet::Refusal::number, |()| 0),
        stores: answer.stores,
        state: from_product(answer.state),
    }
}

impl<S, A, D> Side<S, A, D> {
    /// Makes the row's call so many times, each on the row's state, and gives the time of all and what the last one
    /// yielded. The calls go through pointers that the compiler cannot see through, so that none is inlined into the
    /// loop.
    pub fn run(&self, row: &Row, buffers: &mut Buffers, calls: usize) -> (Duration, Yielded) {
        let side = black_box(self);
        let state = (side.state)(row.state);
        let state = || black_box(&state);
        let (disk, block, supply) = (|| black_box(DISK), || black_box(BLOCK), || black_box(SUPPLY));
        let (disks, blocks) = (|| black_box(DISKS), || black_box(BLOCKS));
        let (area, data, slots) = (&mut buffers.area[..], &mut buffers.block[..], &mut buffers.slots[..]);
        let (time, answer) = match row.call {
            Call::Format => repeat(calls, || (side.format)(disks(), blocks(), black_box(area))),
            Call::Read => repeat(calls, || {
                (side.read)(state(), black_box(area), block(), black_box(data), supply())
            }),
            Call::Write => repeat(calls, || {
                (side.write)(state(), black_box(area), block(), black_box(data), supply())
            }),
            Call::Join => repeat(calls, || (side.join)(state(), black_box(area), disk(), supply())),
            Call::Swap => repeat(calls, || (side.swap)(state(), black_box(area), disk(), supply())),
            Call::Clean => repeat(calls, || (side.clean)(state(), supply())),
            Call::Restart => repeat(calls, || (side.restart)(state(), black_box(area), supply())),
            Call::Detach => repeat(calls, || (side.detach)(state(), disk())),
            Call::Attach => repeat(calls, || {
                (side.attach)(state(), disk(), black_box(&slots[SLOT * DISK..]))
            }),
            Call::PowerOff => repeat(calls, || (side.power_off)(state())),
            Call::Diagnose => {
                let (time, told) = repeat(calls, || (side.diagnose)(state(), black_box(STAGE), disk()));
                return (time, Yielded::Told((side.told)(told)));
            }
            Call::Save => repeat(calls, || (side.save)(state(), black_box(slots))),
            Call::Assemble => {
                let reach = || black_box(row.state.reach);
                repeat(calls, || (side.assemble)(disks(), blocks(), reach(), black_box(slots)))
            }
        };
        (time, Yielded::Answer((side.answer)(answer)))
    }
}
