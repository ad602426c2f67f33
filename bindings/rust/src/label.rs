//! A disk's label, and what reading and writing one yield.

use crate::disk_set::DiskSet;
use crate::refusal::{self, Refusal};

/// A disk's label.
#[repr(C)]
#[derive(Clone, Copy, Debug, Default, PartialEq, Eq, Hash)]
pub struct Label {
    /// The committed set C; empty if the disk has never been a member.
    pub committed: DiskSet,
    /// The tentative set T; empty for none.
    pub tentative: DiskSet,
    /// The dirty map, bit r for region r.
    pub dirty: u8,
}

impl Label {
    /// The disk's own set: "its T if there is one, else its C".
    pub fn own_set(&self) -> DiskSet {
        match self.tentative {
            DiskSet::EMPTY => self.committed,
            tentative => tentative,
        }
    }
}

/// What [`Label::read`] yields. Refused, all numbers are 0.
#[must_use = "a label that is refused reads as zeros"]
#[repr(C)]
#[derive(Clone, Copy, Debug, PartialEq, Eq)]
pub struct Reading {
    /// 0, or the refusal's number, as in an [`Answer`](crate::Answer).
    refusal: u8,
    /// The disk's number.
    pub number: usize,
    /// The number of disks, n.
    pub disks: usize,
    /// The three fields.
    pub label: Label,
    /// The number of bytes that the label has, 2 to 5.
    pub length: usize,
}

impl Reading {
    /// Whether the bytes start with a label, or why not.
    pub fn outcome(self) -> Result<(), Refusal> {
        refusal::outcome(self.refusal)
    }
}

/// What [`Label::write`] yields besides the bytes.
#[must_use = "a label that is refused is not written"]
#[repr(C)]
#[derive(Clone, Copy, Debug, PartialEq, Eq)]
pub struct Written {
    /// 0, or the refusal's number.
    refusal: u8,
    /// The number of bytes that the label has, 2 to 5; refused, 0.
    pub length: usize,
}

impl Written {
    /// Whether the label was written, or why not.
    pub fn outcome(self) -> Result<(), Refusal> {
        refusal::outcome(self.refusal)
    }
}
