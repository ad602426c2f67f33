//! Labels as bytes: the paper's H11 and H12, and each refusal in its order.

use cabinet::{DiskSet, Label, Refusal, Refusal::*};

/// H11's label, of disk 1 of 3.
const H11: Label = Label {
    committed: DiskSet::from_bits(3),
    tentative: DiskSet::EMPTY,
    dirty: 1,
};

/// What each byte of an output is before.
const BEFORE: u8 = 0xee;

#[test]
fn h11_and_h12_are_written_and_read_back_whatever_follows() {
    for (number, disks, label, bytes) in [
        (1, 3, H11, &[0x05, 0x31, 0x03, 0x01][..]),
        (0, 1, Label::default(), &[0x00, 0x10]),
    ] {
        let mut output = [BEFORE; 7];
        let written = label.write(&mut output, number, disks);
        assert_eq!((written.outcome(), written.length), (Ok(()), bytes.len()));
        assert_eq!(output[..written.length], *bytes);
        assert!(output[written.length..].iter().all(|&byte| byte == BEFORE));
        let reading = Label::read(&output);
        assert_eq!(reading.outcome(), Ok(()));
        assert_eq!((reading.number, reading.disks), (number, disks));
        assert_eq!((reading.label, reading.length), (label, bytes.len()));
    }
}

/// Checks that the bytes are refused so, and that all else is 0.
fn reading_is_refused(refusal: Refusal, bytes: &[u8]) {
    let reading = Label::read(bytes);
    assert_eq!(reading.outcome(), Err(refusal), "{bytes:02x?}");
    assert_eq!((reading.number, reading.disks, reading.length), (0, 0, 0));
    assert_eq!(reading.label, Label::default());
}

/// Each comes with a later refusal that fits too, where there is one.
#[test]
fn reading_refuses_in_its_order() {
    reading_is_refused(LabelCutShort, &[]);
    reading_is_refused(LabelCutShort, &[0xff]);
    reading_is_refused(LabelMap, &[0x08, 0x00]);
    reading_is_refused(LabelPlace, &[0x01, 0x00]);
    reading_is_refused(LabelPlace, &[0x01, 0x33]);
    reading_is_refused(LabelPlace, &[0x01, 0x94]);
    reading_is_refused(LabelCutShort, &[0x03, 0x31, 0x00]);
    reading_is_refused(LabelEmptyField, &[0x07, 0x31, 0x01, 0x01, 0x00]);
    reading_is_refused(LabelSet, &[0x01, 0x31, 0x01]);
    reading_is_refused(LabelSet, &[0x02, 0x31, 0x0a]);
}

/// Checks that H11's label with these sets is refused so, and that the output stays.
fn writing_is_refused(refusal: Refusal, sets: (u8, u8), number: usize, disks: usize, length: usize) {
    let label = Label {
        committed: DiskSet::from_bits(sets.0),
        tentative: DiskSet::from_bits(sets.1),
        ..H11
    };
    let mut output = vec![BEFORE; length];
    let written = label.write(&mut output, number, disks);
    assert_eq!((written.outcome(), written.length), (Err(refusal), 0));
    assert_eq!(output, vec![BEFORE; length]);
}

#[test]
fn writing_refuses_in_its_order() {
    writing_is_refused(DiskCount, (3, 0), 9, 9, 0);
    writing_is_refused(DiskCount, (3, 0), 1, 256 + 3, 5);
    writing_is_refused(NoSuchDisk, (3, 0), usize::MAX, 3, 0);
    writing_is_refused(LabelSet, (1, 0), 1, 3, 0);
    writing_is_refused(LabelSet, (0, 10), 1, 3, 0);
    writing_is_refused(NoRoom, (3, 0), 1, 3, 3);
    writing_is_refused(NoRoom, (3, 2), 1, 3, 4);
}
