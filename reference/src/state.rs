//! The cabinet's state, and when it is sound.

use crate::label::{self, Label};
use crate::mistakes::{Mistake, Rules};
use crate::sets::DiskSet;
use std::ops::Range;

/// A block is 64 bytes.
pub const BLOCK: usize = 64;
/// A region is 8 blocks.
pub const REGION: u8 = 8;

/// "A power condition: either running with a current set G, or stopped with none."
#[derive(Clone, Copy, Debug, PartialEq, Eq, Hash)]
pub enum Power {
    /// Stopped.
    Stopped,
    /// Running with this G.
    Running(DiskSet),
}

/// "The state holds n, b, the labels of eight disks in an array, the set R of disks in reach, and a power condition."
/// Any bytes can stand here, for that a state is unsound is part of the behaviour.
#[derive(Clone, Copy, Debug, PartialEq, Eq, Hash)]
pub struct State {
    /// n.
    pub disks: u8,
    /// b.
    pub blocks: u8,
    /// R.
    pub reach: DiskSet,
    /// The power condition.
    pub power: Power,
    /// The labels.
    pub labels: [Label; 8],
}

impl State {
    /// The state that is all zero and stopped.
    pub const ZERO: State = State {
        disks: 0,
        blocks: 0,
        reach: DiskSet::EMPTY,
        power: Power::Stopped,
        labels: [Label::ZERO; 8],
    };

    /// G; no disk when stopped.
    pub fn current(&self) -> DiskSet {
        match self.power {
            Power::Running(current) => current,
            Power::Stopped => DiskSet::EMPTY,
        }
    }

    /// "L means the members of G that are in reach."
    pub fn live(&self) -> DiskSet {
        self.current().and(self.reach)
    }

    /// The disks that are out of reach.
    pub fn lost(&self) -> DiskSet {
        DiskSet::below(self.disks).minus(self.reach)
    }

    /// Whether the cabinet is stopped.
    pub fn is_stopped(&self) -> bool {
        self.power == Power::Stopped
    }

    /// The number of regions: "a region is 8 blocks, counted from block 0; the last may be short".
    pub fn regions(&self) -> u8 {
        regions(self.blocks)
    }

    /// The blocks of a region, ascending.
    pub fn region_blocks(&self, region: u8) -> Range<u8> {
        region * REGION..self.blocks.min((region + 1) * REGION)
    }

    /// "One lent buffer of exactly n × b × 64 bytes."
    pub fn area_length(&self) -> usize {
        self.disks as usize * self.blocks as usize * BLOCK
    }

    /// "Block k of disk d starts at (d × b + k) × 64."
    pub fn block_range(&self, disk: u8, block: u8) -> Range<usize> {
        let start = (disk as usize * self.blocks as usize + block as usize) * BLOCK;
        start..start + BLOCK
    }

    /// "That disk's part of the area."
    pub fn disk_range(&self, disk: u8) -> Range<usize> {
        self.block_range(disk, 0).start..self.block_range(disk, self.blocks).start
    }

    /// The bytes of disk d's stored label, "the one the state holds" (request 2.6). A disk from n up has none, nor has
    /// one whose label the writer refuses, which is in no sound state.
    pub fn stored_label(&self, disk: u16) -> Vec<u8> {
        let label = self.labels.get(usize::from(disk));
        let written = label.and_then(|label| label::written(disk, self.disks.into(), label).ok());
        written.unwrap_or_default()
    }

    /// "A state is sound when": the clauses in the paper's order.
    pub fn is_sound(&self, rules: Rules) -> bool {
        (1..=8).contains(&self.disks)
            && (1..=64).contains(&self.blocks)
            && self.names_only_disks()
            && self.each_names_its_own_disk()
            && self.dirty_bits_name_regions()
            && self.labels_from_n_up_are_zero()
            && self.members_agree(rules)
    }

    /// "R, G, every C and every T name only disks below n."
    fn names_only_disks(&self) -> bool {
        let all = DiskSet::below(self.disks);
        let label_fits = |l: &Label| l.committed.inside(all) && l.tentative.inside(all);
        self.reach.inside(all) && self.current().inside(all) && self.labels.iter().all(label_fits)
    }

    /// "A C or T that is not 0 names its own disk."
    fn each_names_its_own_disk(&self) -> bool {
        let names = |set: DiskSet, d| set.is_empty() || set.has(d);
        (0..8)
            .zip(&self.labels)
            .all(|(d, l)| names(l.committed, d) && names(l.tentative, d))
    }

    /// "Dirty bits name existing regions."
    fn dirty_bits_name_regions(&self) -> bool {
        let regions = self.regions();
        self.labels.iter().all(|l| (regions..8).all(|r| !l.is_dirty(r)))
    }

    /// "Labels from n up are all zero."
    fn labels_from_n_up_are_zero(&self) -> bool {
        let spare = &self.labels[self.disks as usize..];
        spare.iter().all(|l| *l == Label::ZERO)
    }

    /// "When running, G is not empty and each member has C = G and T = 0."
    fn members_agree(&self, rules: Rules) -> bool {
        let Power::Running(current) = self.power else {
            return true;
        };
        let agrees = |l: &Label| {
            let proposes = !l.tentative.is_empty() && !rules.makes(Mistake::SoundIgnoresTentative);
            l.committed == current && !proposes
        };
        !current.is_empty() && current.members().all(|d| agrees(&self.labels[d as usize]))
    }
}

/// The number of regions of a disk of b blocks.
pub fn regions(blocks: u8) -> u8 {
    blocks.div_ceil(REGION)
}
