//! Sets of disks, and of regions: one byte, a bit for each.

/// The numbers below `count`, all eight from 8 up.
pub(crate) fn below(count: u8) -> u8 {
    match count {
        0..8 => (1 << count) - 1,
        _ => u8::MAX,
    }
}

/// Whether the number, which is below 8, is in the set.
pub(crate) fn has(set: u8, number: usize) -> bool {
    set >> number & 1 == 1
}

/// "The lowest member is the one with the smallest number"; 8 of an empty set.
pub(crate) fn lowest(set: u8) -> usize {
    set.trailing_zeros() as usize
}

/// The set without its lowest member.
pub(crate) fn without_lowest(set: u8) -> u8 {
    set & set.wrapping_sub(1)
}

/// The members, ascending.
pub(crate) fn members(set: u8) -> Members {
    Members(set)
}

/// The members that are still to come.
pub(crate) struct Members(u8);

impl Iterator for Members {
    type Item = usize;

    fn next(&mut self) -> Option<usize> {
        let Members(rest) = *self;
        self.0 = without_lowest(rest);
        (rest != 0).then(|| lowest(rest))
    }
}
