//! What a mere copy of a restart's bytes takes.

use crate::rows::{Buffers, BLOCKS, BLOCK_SIZE, DISKS};
use crate::timing::repeat;
use std::hint::black_box;
use std::time::Duration;

/// The bytes of a disk.
const DISK_SIZE: usize = BLOCKS * BLOCK_SIZE;
/// The blocks that a restart of all disks copies when every region is dirty.
pub const COPIES: usize = (DISKS - 1) * BLOCKS;

/// All bytes in one copy, from a buffer of their own.
pub fn whole(source: &[u8], buffers: &mut Buffers, times: usize) -> Duration {
    let others = &mut buffers.area[DISK_SIZE..];
    repeat(times, || black_box(&mut *others).copy_from_slice(black_box(source))).0
}

/// Each block by a copy of its own, in the order of a restart.
pub fn by_blocks(buffers: &mut Buffers, times: usize) -> Duration {
    let (first, others) = buffers.area.split_at_mut(DISK_SIZE);
    repeat(times, || copy_blocks(black_box(&*first), black_box(&mut *others))).0
}

fn copy_blocks(first: &[u8], others: &mut [u8]) {
    for (k, block) in first.chunks_exact(BLOCK_SIZE).enumerate() {
        copy_to_each(block, k * BLOCK_SIZE, others);
    }
}

fn copy_to_each(block: &[u8], start: usize, others: &mut [u8]) {
    for disk in others.chunks_exact_mut(DISK_SIZE) {
        disk[start..][..BLOCK_SIZE].copy_from_slice(block);
    }
}
