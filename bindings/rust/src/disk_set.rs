//! A set of disks.

use crate::state::MOST_DISKS;
use core::fmt;
use core::iter::FusedIterator;

/// A set of disks, one bit each: disk d is a member if bit d stands. It is shown as its members, `{0, 2}`.
///
/// ```
/// use cabinet::DiskSet;
///
/// let set = DiskSet::from_bits(0b101);
/// assert_eq!(set.to_string(), "{0, 2}");
/// assert!(set.contains(2) && !set.contains(1));
/// assert_eq!(set.iter().collect::<Vec<_>>(), [0, 2]);
/// assert_eq!(DiskSet::below(3).bits(), 0b111);
/// ```
#[repr(transparent)]
#[derive(Clone, Copy, Default, PartialEq, Eq, Hash)]
pub struct DiskSet(u8);

impl DiskSet {
    /// The set without members.
    pub const EMPTY: DiskSet = DiskSet(0);

    /// The set with this byte; every byte is a set.
    pub const fn from_bits(bits: u8) -> DiskSet {
        DiskSet(bits)
    }

    /// All disks below this number, of those that a set can have.
    pub const fn below(disks: usize) -> DiskSet {
        match disks {
            0..MOST_DISKS => DiskSet((1 << disks) - 1),
            _ => DiskSet(u8::MAX),
        }
    }

    /// Its byte.
    pub const fn bits(self) -> u8 {
        self.0
    }

    /// Whether the disk is a member. No disk from [`MOST_DISKS`] up is.
    pub const fn contains(self, disk: usize) -> bool {
        disk < MOST_DISKS && self.0 >> disk & 1 == 1
    }

    /// Whether there is no member.
    pub const fn is_empty(self) -> bool {
        self.0 == 0
    }

    /// The number of members.
    pub const fn len(self) -> usize {
        self.0.count_ones() as usize
    }

    /// The members, ascending.
    pub const fn iter(self) -> Members {
        Members(self.0)
    }
}

/// The members of a [`DiskSet`], ascending.
#[derive(Clone, Debug)]
pub struct Members(u8);

impl Iterator for Members {
    type Item = usize;

    fn next(&mut self) -> Option<usize> {
        let lowest = self.0.trailing_zeros() as usize;
        self.0 &= self.0.wrapping_sub(1);
        (lowest < MOST_DISKS).then_some(lowest)
    }

    fn size_hint(&self) -> (usize, Option<usize>) {
        let left = DiskSet(self.0).len();
        (left, Some(left))
    }
}

impl ExactSizeIterator for Members {}

impl FusedIterator for Members {}

impl IntoIterator for DiskSet {
    type Item = usize;
    type IntoIter = Members;

    fn into_iter(self) -> Members {
        self.iter()
    }
}

impl fmt::Display for DiskSet {
    fn fmt(&self, f: &mut fmt::Formatter<'_>) -> fmt::Result {
        f.write_str("{")?;
        for (place, disk) in self.iter().enumerate() {
            let before = if place == 0 { "" } else { ", " };
            write!(f, "{before}{disk}")?;
        }
        f.write_str("}")
    }
}

impl fmt::Debug for DiskSet {
    fn fmt(&self, f: &mut fmt::Formatter<'_>) -> fmt::Result {
        fmt::Display::fmt(self, f)
    }
}

#[cfg(test)]
mod tests {
    extern crate std;

    use super::*;
    use std::string::ToString;
    use std::vec::Vec;

    #[test]
    fn a_set_is_its_members() {
        for bits in 0..=u8::MAX {
            let set = DiskSet::from_bits(bits);
            let members: Vec<usize> = (0..300).filter(|&disk| set.contains(disk)).collect();
            assert_eq!(set.iter().collect::<Vec<_>>(), members);
            assert_eq!((set.len(), set.iter().len()), (members.len(), members.len()));
            assert_eq!(set.is_empty(), members.is_empty());
            assert_eq!(members.iter().map(|disk| 1 << disk).sum::<u8>(), set.bits());
        }
    }

    #[test]
    fn below_a_number_are_so_many_disks() {
        for disks in 0..=8 {
            assert!(DiskSet::below(disks).iter().eq(0..disks));
        }
        assert_eq!(DiskSet::below(usize::MAX).bits(), u8::MAX);
    }

    #[test]
    fn a_set_is_shown_as_its_members() {
        let shown = [0, 1, 0b101, 0xff].map(|bits| DiskSet::from_bits(bits).to_string());
        assert_eq!(shown, ["{}", "{0}", "{0, 2}", "{0, 1, 2, 3, 4, 5, 6, 7}"]);
    }
}
