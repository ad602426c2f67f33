//! Labels and slots: what is written can be read, and what is read has one way of writing.

use reference::label::{self, Label};
use reference::random::Random;
use reference::sets::DiskSet;

/// Each disk of each n.
fn disks() -> impl Iterator<Item = (u16, u16)> {
    (1..=8).flat_map(|n| (0..n).map(move |d| (d, n)))
}

#[test]
fn a_written_label_is_read_back() {
    for (disk, disks) in disks() {
        for bits in 0..=0xffffu16 {
            let label = Label {
                committed: DiskSet(bits as u8),
                tentative: DiskSet((bits >> 8) as u8),
                dirty: (bits % 7) as u8,
            };
            let mut output = [170; 5];
            let Ok(length) = label::write(disk, disks, &label, &mut output) else {
                continue;
            };
            let reading = label::read(&output).expect("a written label can be read");
            assert_eq!((reading.label, reading.length), (label, length));
            let numbers = (reading.disk.into(), reading.disks.into());
            assert_eq!(numbers, (disk, disks));
            assert_eq!(label::read(&output[..length]), Ok(reading));
            assert!(label::read(&output[..length - 1]).is_err());
        }
    }
}

#[test]
fn a_label_that_is_read_has_one_way_of_writing() {
    let mut random = Random::new(5);
    let mut read = 0;
    for _ in 0..500_000 {
        let mut bytes = [0; 5].map(|_: u8| random.byte());
        bytes[0] &= 7;
        let Ok(reading) = label::read(&bytes) else {
            continue;
        };
        let mut output = [0; 5];
        let (disk, disks) = (reading.disk.into(), reading.disks.into());
        let length = label::write(disk, disks, &reading.label, &mut output);
        assert_eq!(length, Ok(reading.length));
        assert_eq!(output[..reading.length], bytes[..reading.length]);
        read += 1;
    }
    assert!(read > 10_000, "{read}");
}
