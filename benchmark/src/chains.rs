//! Chains of calls, each on the state that the last one left, as a program makes them: those of a `Cabinet`, and the
//! same in plain Rust.

use crate::rows::{Buffers, BLOCK, BLOCKS, BLOCK_SIZE, DISKS, SUPPLY};
use crate::timing::repeat;
use cabinet::Cabinet;
use std::hint::black_box;
use std::time::Duration;

/// The call that is made again and again, of a cabinet with all disks in reach.
#[derive(Clone, Copy)]
pub enum Chain {
    Reads,
    Writes,
}

/// So many calls of a `Cabinet` over the area, which is formatted first.
pub fn of_cabinet(chain: Chain, buffers: &mut Buffers, calls: usize) -> Duration {
    let (area, block) = (&mut buffers.area[..], block_of(&mut buffers.block));
    let mut cabinet = Cabinet::format(DISKS, BLOCKS, area).expect("the area fits");
    let (time, last) = match chain {
        Chain::Reads => repeat(calls, || cabinet.read(black_box(BLOCK), black_box(&mut *block), SUPPLY)),
        Chain::Writes => repeat(calls, || cabinet.write(black_box(BLOCK), black_box(&*block), SUPPLY)),
    };
    last.expect("all disks are in reach");
    time
}

/// The same in plain Rust.
pub fn of_plain(chain: Chain, buffers: &mut Buffers, calls: usize) -> Duration {
    let (area, block) = (&mut buffers.area[..], block_of(&mut buffers.block));
    let mut state = plain::fresh(DISKS, BLOCKS, area).state;
    let (time, last) = match chain {
        Chain::Reads => repeat(calls, || {
            let answer = plain::read(state, area, black_box(BLOCK), black_box(&mut *block), SUPPLY);
            state = answer.state;
            answer.result
        }),
        Chain::Writes => repeat(calls, || {
            let answer = plain::write(state, area, black_box(BLOCK), black_box(&*block), SUPPLY);
            state = answer.state;
            answer.result
        }),
    };
    assert_eq!(last, plain::refusal::DONE);
    time
}

/// The buffer as the array that it is as long as.
fn block_of(buffer: &mut [u8]) -> &mut [u8; BLOCK_SIZE] {
    buffer.try_into().expect("a block's buffer has its length")
}
