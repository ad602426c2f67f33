//! A disk's label, and 'Label bytes'.

use crate::refusal::{self, *};
use crate::sets::DiskSet;

/// "Each disk has a label: the committed set C, the tentative set T (0 means none), and the dirty map, bit r for
/// region r. C of 0 means the disk has never been a member."
#[derive(Clone, Copy, Debug, Default, PartialEq, Eq, Hash)]
pub struct Label {
    /// C.
    pub committed: DiskSet,
    /// T.
    pub tentative: DiskSet,
    /// The dirty map.
    pub dirty: u8,
}

impl Label {
    /// The label of a disk that was never used.
    pub const ZERO: Label = Label {
        committed: DiskSet::EMPTY,
        tentative: DiskSet::EMPTY,
        dirty: 0,
    };

    /// Whether the dirty bit of this region stands.
    pub fn is_dirty(&self, region: u8) -> bool {
        self.dirty >> region & 1 == 1
    }

    /// Whether each of C and T is 0, or names only disks below n and its own disk too.
    fn names_rightly(&self, disk: u8, disks: u8) -> bool {
        let right = |set: DiskSet| set.is_empty() || set.inside(DiskSet::below(disks)) && set.has(disk);
        right(self.committed) && right(self.tentative)
    }

    /// The three fields in bit order.
    fn fields(&self) -> [u8; 3] {
        [self.committed.0, self.tentative.0, self.dirty]
    }
}

/// "Label reading yields the disk number, n, the three fields and the label's length."
#[derive(Clone, Copy, Debug, Default, PartialEq, Eq)]
pub struct Reading {
    /// The disk number.
    pub disk: u8,
    /// n.
    pub disks: u8,
    /// The three fields.
    pub label: Label,
    /// The label's length, 2 to 5.
    pub length: usize,
}

/// Reads a label from the start of the bytes; "what follows is not read".
pub fn read(bytes: &[u8]) -> Result<Reading, u8> {
    let &[map, numbers, ref fields @ ..] = bytes else {
        return Err(LABEL_SHORT);
    };
    let (disk, disks) = (numbers & 15, numbers >> 4);
    let present = map.count_ones() as usize;
    refusal::first(&[
        (LABEL_MAP, map > 7),
        (LABEL_NUMBERS, !(1..=8).contains(&disks) || disk >= disks),
        (LABEL_SHORT, fields.len() < present),
    ])?;
    let fields = &fields[..present];
    let label = label_of(map, fields);
    refusal::first(&[
        (FIELD_ZERO, fields.contains(&0)),
        (LABEL_SET, !label.names_rightly(disk, disks)),
    ])?;
    Ok(Reading {
        disk,
        disks,
        label,
        length: 2 + present,
    })
}

/// "Then one byte for each field whose bit stands, in bit order. A field of 0 has no bit."
fn label_of(map: u8, present: &[u8]) -> Label {
    let mut rest = present.iter().copied();
    let mut field = |bit: u8| match map >> bit & 1 {
        1 => rest.next().unwrap_or(0),
        _ => 0,
    };
    Label {
        committed: DiskSet(field(0)),
        tentative: DiskSet(field(1)),
        dirty: field(2),
    }
}

/// Writes the label of disk `disk` of `disks` at the start of the output, and yields its length. "Bytes beyond the
/// label stay."
pub fn write(disk: u16, disks: u16, label: &Label, output: &mut [u8]) -> Result<usize, u8> {
    refusal::first(&[(DISK_COUNT, !(1..=8).contains(&disks)), (NO_SUCH_DISK, disk >= disks)])?;
    let (disk, disks) = (disk as u8, disks as u8);
    let bytes = bytes_of(disk, disks, label);
    refusal::first(&[
        (LABEL_SET, !label.names_rightly(disk, disks)),
        (OUTPUT_SHORT, output.len() < bytes.len()),
    ])?;
    output[..bytes.len()].copy_from_slice(&bytes);
    Ok(bytes.len())
}

/// The written label by itself, or the writer's refusal. "Length 2 to 5."
pub fn written(disk: u16, disks: u16, label: &Label) -> Result<Vec<u8>, u8> {
    let mut output = [0; 5];
    let length = write(disk, disks, label, &mut output)?;
    Ok(output[..length].to_vec())
}

/// "The first byte is a bit map: bit 0 for C, bit 1 for T, bit 2 for the dirty map. The second has the disk number in
/// its low four bits and n in its high four."
fn bytes_of(disk: u8, disks: u8, label: &Label) -> Vec<u8> {
    let mut bytes = vec![0, disks << 4 | disk];
    for (bit, field) in label.fields().into_iter().enumerate() {
        if field != 0 {
            bytes[0] |= 1 << bit;
            bytes.push(field);
        }
    }
    bytes
}
