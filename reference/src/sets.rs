//! "A set of disks is one byte, bit d for disk d."

/// A set of disks, in the paper's byte.
#[derive(Clone, Copy, Debug, Default, PartialEq, Eq, PartialOrd, Ord, Hash)]
pub struct DiskSet(pub u8);

impl DiskSet {
    /// The set of no disk.
    pub const EMPTY: DiskSet = DiskSet(0);

    /// The disks below `n`.
    pub fn below(n: u8) -> DiskSet {
        (0..n.min(8)).fold(DiskSet::EMPTY, DiskSet::with)
    }

    /// Whether disk `d` is in the set. No set has a disk from 8 up.
    pub fn has(self, d: u8) -> bool {
        d < 8 && self.0 >> d & 1 == 1
    }

    /// The set with disk `d`, which is below 8.
    pub fn with(self, d: u8) -> DiskSet {
        DiskSet(self.0 | 1 << d)
    }

    /// The set without disk `d`, which is below 8.
    pub fn without(self, d: u8) -> DiskSet {
        DiskSet(self.0 & !(1 << d))
    }

    /// The disks that are in both sets.
    pub fn and(self, other: DiskSet) -> DiskSet {
        DiskSet(self.0 & other.0)
    }

    /// The disks of this set that are not in the other.
    pub fn minus(self, other: DiskSet) -> DiskSet {
        DiskSet(self.0 & !other.0)
    }

    /// Whether each disk of this set is in the other.
    pub fn inside(self, other: DiskSet) -> bool {
        self.minus(other).is_empty()
    }

    /// Whether the set has no disk.
    pub fn is_empty(self) -> bool {
        self.0 == 0
    }

    /// "The size of a set is the number of its bits that stand."
    pub fn size(self) -> usize {
        self.members().count()
    }

    /// The disks of the set, ascending.
    pub fn members(self) -> impl Iterator<Item = u8> + Clone {
        (0..8).filter(move |&d| self.has(d))
    }

    /// "The lowest member is the one with the smallest number"; an empty set has none.
    pub fn lowest(self) -> Option<u8> {
        self.members().next()
    }

    /// Every set that lies inside this one, the empty set too. As a byte it is not above this one.
    pub fn sets_inside(self) -> impl Iterator<Item = DiskSet> {
        (0..=self.0).map(DiskSet).filter(move |x| x.inside(self))
    }
}
