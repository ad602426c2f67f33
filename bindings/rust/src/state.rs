//! The cabinet's state and its size.

use crate::disk_set::DiskSet;
use crate::label::Label;

/// The bytes of a block.
pub const BLOCK_SIZE: usize = 64;
/// The bytes of a disk's slot in the saved form.
pub const SLOT_SIZE: usize = 5;
/// The most disks that a cabinet has.
pub const MOST_DISKS: usize = 8;
/// The most blocks that a disk has.
pub const MOST_BLOCKS: usize = 64;

/// The length of the disk area, "one lent buffer of exactly n × b × 64 bytes"; `None` if there is no cabinet of so many
/// disks and blocks.
pub const fn area_length(disks: usize, blocks: usize) -> Option<usize> {
    let exists = 1 <= disks && disks <= MOST_DISKS && 1 <= blocks && blocks <= MOST_BLOCKS;
    if exists {
        Some(disks * blocks * BLOCK_SIZE)
    } else {
        None
    }
}

/// The length of the slots that a cabinet of so many disks is saved in; `None` if there is none.
pub const fn slots_length(disks: usize) -> Option<usize> {
    if 1 <= disks && disks <= MOST_DISKS {
        Some(disks * SLOT_SIZE)
    } else {
        None
    }
}

/// The state of a cabinet. The caller keeps it, beside the disk area, and gives each call the one that the last call
/// yielded. Any values may stand in it, but one that is not sound is refused. The default state is all zero and
/// stopped, and not sound.
///
/// "A state is sound when: n and b are in range; R, G, every C and every T name only disks below n; a C or T that is
/// not 0 names its own disk; dirty bits name existing regions; labels from n up are all zero; and, when running, G is
/// not empty and each member has C = G and T = 0." A region is 8 blocks.
#[repr(C)]
#[derive(Clone, Copy, Debug, Default, PartialEq, Eq, Hash)]
pub struct State {
    /// The labels, that of disk d at d.
    pub labels: [Label; MOST_DISKS],
    /// The number of disks, n.
    pub disks: u8,
    /// The number of blocks a disk, b.
    pub blocks: u8,
    /// The set of disks in reach, R.
    pub online: DiskSet,
    /// The current set, G; empty when the cabinet is stopped.
    pub current: DiskSet,
}
