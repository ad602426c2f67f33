//! Every state of one disk with small numbers, sound or not, for what is said of any state.

use crate::label::Label;
use crate::sets::DiskSet;
use crate::state::{Power, State};

/// All states with n = 1, b from 0 to 2, sets of disks 0 and 1, two dirty bits, and a second label that is zero or
/// not.
pub fn all() -> impl Iterator<Item = State> {
    let powers = [Power::Stopped].into_iter().chain(sets().map(Power::Running));
    powers.flat_map(|power| {
        let heads = (0..=2).flat_map(move |blocks| sets().map(move |reach| (blocks, reach)));
        heads.flat_map(move |(blocks, reach)| {
            labels()
                .flat_map(move |first| [Label::ZERO, first].map(|second| state(blocks, reach, power, [first, second])))
        })
    })
}

fn sets() -> impl Iterator<Item = DiskSet> {
    (0..=3).map(DiskSet)
}

fn labels() -> impl Iterator<Item = Label> {
    (0..64).map(|bits: u8| Label {
        committed: DiskSet(bits & 3),
        tentative: DiskSet(bits >> 2 & 3),
        dirty: bits >> 4,
    })
}

fn state(blocks: u8, reach: DiskSet, power: Power, labels: [Label; 2]) -> State {
    let mut state = State {
        disks: 1,
        blocks,
        reach,
        power,
        ..State::ZERO
    };
    state.labels[..2].copy_from_slice(&labels);
    state
}
