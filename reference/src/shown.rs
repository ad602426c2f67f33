//! What a returned disk shows: its stored label, or what a workshop, a wrong bay or damage made of it.

use crate::label::{self, Label};
use crate::sets::DiskSet;
use crate::state::State;

/// One kind of bytes that a disk shows.
#[derive(Clone, Copy, Debug, PartialEq, Eq)]
pub enum Shown {
    /// The stored label.
    Stored,
    /// The stored label and one byte more: "what follows is not read".
    StoredAndMore,
    /// No byte.
    Nothing,
    /// The stored label without its last byte.
    CutShort,
    /// The stored label with a bit of the map that stands for no field.
    DamagedMap,
    /// The stored label of the next bay's disk; the last bay's next is the first.
    NextBay,
    /// The stored label with a larger n.
    OtherCount,
    /// A label with a C of 0 that is present.
    ZeroField,
    /// A label with a C that omits its own disk.
    OmitsOwnDisk,
    /// The stored label with the dirty bit of region 7, which is there only from 57 blocks on.
    LastRegion,
    /// The stored label with another C.
    OtherCommitted,
    /// The stored label with another T.
    OtherTentative,
    /// The stored label with the dirty bit of region 0 turned.
    OtherDirty,
}

impl Shown {
    /// All of them, the stored label first.
    pub const ALL: [Shown; 13] = [
        Shown::Stored,
        Shown::StoredAndMore,
        Shown::Nothing,
        Shown::CutShort,
        Shown::DamagedMap,
        Shown::NextBay,
        Shown::OtherCount,
        Shown::ZeroField,
        Shown::OmitsOwnDisk,
        Shown::LastRegion,
        Shown::OtherCommitted,
        Shown::OtherTentative,
        Shown::OtherDirty,
    ];

    /// The bytes that disk d of this state shows.
    pub fn bytes(self, state: &State, disk: u16) -> Vec<u8> {
        let stored = state.stored_label(disk);
        let numbers = state.disks << 4 | disk as u8;
        match self {
            Shown::Stored => stored,
            Shown::StoredAndMore => [&stored[..], &[255]].concat(),
            Shown::Nothing => Vec::new(),
            Shown::CutShort => stored[..stored.len().saturating_sub(1)].to_vec(),
            Shown::DamagedMap => with_byte(stored, 0, |map| map | 8),
            Shown::NextBay => state.stored_label(disk.wrapping_add(1) % u16::from(state.disks.max(1))),
            Shown::OtherCount => with_byte(stored, 1, |numbers| numbers + (1 << 4)),
            Shown::ZeroField => vec![1, numbers, 0],
            Shown::OmitsOwnDisk => vec![1, numbers, !(1 << (disk % 8))],
            Shown::LastRegion => relabelled(state, disk, |label| label.dirty |= 1 << 7),
            Shown::OtherCommitted => relabelled(state, disk, |label| turn(&mut label.committed, disk)),
            Shown::OtherTentative => relabelled(state, disk, |label| turn(&mut label.tentative, disk)),
            Shown::OtherDirty => relabelled(state, disk, |label| label.dirty ^= 1),
        }
    }
}

/// The bytes with another one in this place, if they go so far.
fn with_byte(mut bytes: Vec<u8>, place: usize, change: fn(u8) -> u8) -> Vec<u8> {
    if let Some(byte) = bytes.get_mut(place) {
        *byte = change(*byte);
    }
    bytes
}

/// The disk's stored label with this change, in bytes: none where there is no such disk or the writer refuses.
fn relabelled(state: &State, disk: u16, change: impl Fn(&mut Label)) -> Vec<u8> {
    let Some(mut label) = state.labels.get(usize::from(disk)).copied() else {
        return Vec::new();
    };
    change(&mut label);
    label::written(disk, state.disks.into(), &label).unwrap_or_default()
}

/// The set of the disk alone, as in a cabinet of its own, or if it is that already none.
fn turn(set: &mut DiskSet, disk: u16) {
    let alone = DiskSet::EMPTY.with(disk as u8);
    *set = if *set == alone { DiskSet::EMPTY } else { alone };
}
