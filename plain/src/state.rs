//! A state without an enum, and when it is sound.

use crate::sets::{below, has, members};

/// The bytes of a block.
pub const BLOCK: usize = 64;
/// The blocks of a region.
pub(crate) const REGION: u8 = 8;
/// The bytes of a slot.
pub const SLOT: usize = 5;

/// A disk's label.
#[derive(Clone, Copy, Debug, Default, PartialEq, Eq)]
pub struct Label {
    /// C.
    pub committed: u8,
    /// T.
    pub tentative: u8,
    /// The dirty map.
    pub dirty: u8,
}

/// A state. Any bytes can stand here.
#[derive(Clone, Copy, Debug, Default, PartialEq, Eq)]
pub struct State {
    /// n.
    pub disks: u8,
    /// b.
    pub blocks: u8,
    /// R.
    pub reach: u8,
    /// G, and 0 when the cabinet is stopped: a running one has a current disk.
    pub current: u8,
    /// The labels.
    pub labels: [Label; 8],
}

impl State {
    /// "L means the members of G that are in reach."
    pub(crate) fn live(&self) -> u8 {
        self.current & self.reach
    }

    /// "Exactly n × b × 64 bytes."
    pub(crate) fn area_length(&self) -> usize {
        usize::from(self.disks) * usize::from(self.blocks) * BLOCK
    }

    /// "Block k of disk d starts at (d × b + k) × 64."
    pub(crate) fn block_start(&self, disk: usize, block: usize) -> usize {
        (disk * usize::from(self.blocks) + block) * BLOCK
    }

    /// The regions that exist, bit r for region r.
    pub(crate) fn region_map(&self) -> u8 {
        below(self.blocks.div_ceil(REGION))
    }

    /// The regions that are dirty on any disk of the set.
    pub(crate) fn dirty_regions(&self, set: u8) -> u8 {
        members(set).fold(0, |map, disk| map | self.labels[disk].dirty)
    }

    /// "A state is sound when".
    pub(crate) fn is_sound(&self) -> bool {
        (1..=8).contains(&self.disks)
            && (1..=64).contains(&self.blocks)
            && (self.reach | self.current) & !below(self.disks) == 0
            && self.labels_fit()
    }

    /// Each disk's label fits, and "labels from n up are all zero".
    fn labels_fit(&self) -> bool {
        let (labels, spare) = self.labels.split_at(self.disks.into());
        let fits = |(disk, label)| self.label_fits(disk, label);
        labels.iter().enumerate().all(fits) && spare.iter().all(|label| *label == Label::default())
    }

    /// Of a member "C = G and T = 0"; of others C and T name their own disk, and only disks below n. "Dirty bits name
    /// existing regions."
    fn label_fits(&self, disk: usize, label: &Label) -> bool {
        let sets_fit = if has(self.current, disk) {
            label.committed == self.current && label.tentative == 0
        } else {
            names_rightly(label.committed, disk, self.disks) && names_rightly(label.tentative, disk, self.disks)
        };
        sets_fit && label.dirty & !self.region_map() == 0
    }
}

/// Whether a C or T of this disk is 0, or names only disks below n and its own disk too.
pub(crate) fn names_rightly(set: u8, disk: usize, disks: u8) -> bool {
    set == 0 || set & !below(disks) == 0 && has(set, disk)
}
