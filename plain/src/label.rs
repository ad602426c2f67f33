//! A label as bytes.

use crate::answer::refuse;
use crate::refusal::*;
use crate::state::{names_rightly, Label, SLOT};

/// What reading yields.
#[derive(Clone, Copy, Debug, Default, PartialEq, Eq)]
pub struct Reading {
    /// The disk number.
    pub disk: u8,
    /// n.
    pub disks: u8,
    /// The three fields.
    pub label: Label,
    /// The label's length.
    pub length: usize,
}

/// Label reading: 16, 17, 18, 16, 19, 20.
#[inline]
pub fn read_label(bytes: &[u8]) -> Result<Reading, u8> {
    let &[map, numbers, ref rest @ ..] = bytes else {
        return Err(LABEL_SHORT);
    };
    let (disk, disks) = (numbers & 15, numbers >> 4);
    refuse(LABEL_MAP, map > 7)?;
    refuse(LABEL_NUMBERS, disks > 8 || disk >= disks)?;
    let mut fields = [0; 3];
    let mut end = 0;
    for (bit, field) in fields.iter_mut().enumerate() {
        if map >> bit & 1 == 1 {
            *field = *rest.get(end).ok_or(LABEL_SHORT)?;
            end += 1;
        }
    }
    let [committed, tentative, dirty] = fields;
    let label = Label {
        committed,
        tentative,
        dirty,
    };
    refuse(FIELD_ZERO, rest[..end].contains(&0))?;
    refuse(LABEL_SET, !are_right(&label, disk.into(), disks))?;
    Ok(Reading {
        disk,
        disks,
        label,
        length: 2 + end,
    })
}

/// The label of the bay whose labels have this second byte, in a cabinet that has these regions: "the label's own
/// refusal; 18, its number or n is not this slot's; 22, a dirty bit names no region". Always inlined, since assembling
/// knows how long a slot is, and then no byte's presence is tested.
#[inline(always)]
pub(crate) fn read_in_bay(bytes: &[u8], numbers: u8, regions: u8) -> Result<Label, u8> {
    let label = read_label(bytes)?.label;
    refuse(LABEL_NUMBERS, bytes[1] != numbers)?;
    refuse(NO_SUCH_REGION, label.dirty & !regions != 0)?;
    Ok(label)
}

/// Label writing: 4, 8, 20, 21. Yields the label's length.
pub fn write_label(output: &mut [u8], disk: usize, disks: usize, label: &Label) -> Result<usize, u8> {
    refuse(DISK_COUNT, !(1..=8).contains(&disks))?;
    refuse(NO_SUCH_DISK, disk >= disks)?;
    let (numbers, disks) = ((disks << 4 | disk) as u8, disks as u8);
    refuse(LABEL_SET, !are_right(label, disk, disks))?;
    let mut slot = [0; SLOT];
    let length = fill_slot(numbers, label, &mut slot);
    refuse(OUTPUT_SHORT, output.len() < length)?;
    output[..length].copy_from_slice(&slot[..length]);
    Ok(length)
}

/// Fills a slot, whose second byte is given, and yields the label's length. A field of 0 is put down too, and the next
/// one in its place.
#[inline]
pub(crate) fn fill_slot(numbers: u8, label: &Label, slot: &mut [u8; SLOT]) -> usize {
    *slot = [0, numbers, 0, 0, 0];
    let mut end = 2;
    for (bit, field) in [label.committed, label.tentative, label.dirty].into_iter().enumerate() {
        slot[end] = field;
        slot[0] |= u8::from(field != 0) << bit;
        end += usize::from(field != 0);
    }
    end
}

/// Whether both sets of this disk's label are right.
fn are_right(label: &Label, disk: usize, disks: u8) -> bool {
    let is_right = |set| names_rightly(set, disk, disks);
    is_right(label.committed) && is_right(label.tentative)
}
