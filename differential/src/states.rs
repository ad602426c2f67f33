//! Random states: sound ones, some of them the paper's, sound ones with a byte or two damaged, and any bytes.

use crate::arguments::{blocks, byte, disks};
use crate::state_bytes;
use plain::{Label, State};
use reference::random::Random;

/// The sets that the labels of one state name, besides those of one disk.
const POOL: usize = 3;

/// "Labels and cuts to check by hand", H1 to H10: C and T of each disk, and R.
pub const BY_HAND: [(&[u8], &[u8], u8); 10] = [
    (&[1, 3, 7], &[0, 0, 0], 7),
    (&[1, 3, 7], &[0, 0, 0], 6),
    (&[3, 3, 6], &[0, 0, 0], 7),
    (&[7, 7, 7], &[3, 3, 0], 3),
    (&[3, 7, 7], &[0, 3, 0], 7),
    (&[7, 7, 7], &[3, 0, 0], 3),
    (&[7, 7, 7], &[3, 0, 0], 7),
    (&[3, 3, 7], &[7, 7, 7], 3),
    (&[3, 3, 7], &[7, 7, 7], 7),
    (&[1, 2], &[0, 0], 3),
];

/// Any state, sound in about two of three. Of the sound ones so many of a hundred are stopped.
pub fn any(random: &mut Random, stopped: usize) -> State {
    let state = sound(random, stopped);
    match random.below(12) {
        0 => garbage(random),
        1..=3 => damaged(random, &state),
        _ => state,
    }
}

/// A sound state, also such as no history reaches; so many of a hundred are stopped.
pub fn sound(random: &mut Random, stopped: usize) -> State {
    let state = if random.percent(5) {
        by_hand(random)
    } else {
        stopped_state(random)
    };
    if random.percent(stopped) {
        state
    } else {
        running(random, state)
    }
}

/// A sound state of a stopped cabinet. Its labels name few sets, so that a restart finds none, one or several of them.
fn stopped_state(random: &mut Random) -> State {
    let (disks, blocks) = (disks(random) as u8, blocks(random) as u8);
    let all = below(disks);
    let mut state = State {
        disks,
        blocks,
        reach: all & byte(random, 0xff, 60),
        ..State::default()
    };
    let pool: [u8; POOL] = std::array::from_fn(|_| byte(random, 0xff, 25) & byte(random, 0xff, 50) & all);
    let (loyalty, proposing) = (random.pick(&[40, 80, 100]), random.pick(&[0, 40, 90]));
    let regions = regions_of(random, blocks);
    for disk in 0..disks {
        state.labels[usize::from(disk)] = Label {
            committed: named(random, &pool, disk, loyalty),
            tentative: if random.percent(proposing) {
                named(random, &pool, disk, loyalty)
            } else {
                0
            },
            dirty: regions & random.byte(),
        };
    }
    state
}

/// One of the paper's states, with any number of blocks.
fn by_hand(random: &mut Random) -> State {
    let (committed, tentative, reach) = random.pick(&BY_HAND);
    let blocks = blocks(random) as u8;
    let mut state = State {
        disks: committed.len() as u8,
        blocks,
        reach,
        ..State::default()
    };
    let regions = regions_of(random, blocks);
    for (label, (&committed, &tentative)) in state.labels.iter_mut().zip(committed.iter().zip(tentative)) {
        *label = Label {
            committed,
            tentative,
            dirty: regions & random.byte(),
        };
    }
    state
}

/// The regions that may be dirty in a state: all or none.
fn regions_of(random: &mut Random, blocks: u8) -> u8 {
    below(blocks.div_ceil(8)) & random.pick(&[0, 0xff])
}

/// A set that a label of this disk may name: mostly the first of the pool that has the disk.
fn named(random: &mut Random, pool: &[u8], disk: u8, loyalty: usize) -> u8 {
    let has_disk = |set: &&u8| *set >> disk & 1 == 1;
    let first = pool.iter().find(has_disk).copied().unwrap_or(0);
    let last = pool.iter().rfind(has_disk).copied().unwrap_or(0);
    if random.percent(loyalty) {
        first
    } else {
        random.pick(&[0, 1 << disk, last])
    }
}

/// The state made to run with a random set.
fn running(random: &mut Random, mut state: State) -> State {
    let one = 1 << random.below(state.disks.into());
    let current = byte(random, 0xff, 30) & below(state.disks) | one;
    for (disk, label) in state.labels.iter_mut().enumerate() {
        if current >> disk & 1 == 1 {
            (label.committed, label.tentative) = (current, 0);
        }
    }
    State { current, ..state }
}

/// The state with one or two bytes changed, by a bit, by one or wholly.
fn damaged(random: &mut Random, state: &State) -> State {
    let mut bytes = state_bytes::bytes_of(state);
    for _ in 0..random.pick(&[1, 1, 2]) {
        let byte = &mut bytes[random.below(state_bytes::LENGTH)];
        *byte = changed(random, *byte);
    }
    state_bytes::state_of(&bytes)
}

/// Another byte, or seldom the same.
pub fn changed(random: &mut Random, byte: u8) -> u8 {
    match random.below(4) {
        0 => byte ^ 1 << random.below(8),
        1 => byte.wrapping_add(1),
        2 => byte.wrapping_sub(1),
        _ => random.byte(),
    }
}

/// A state of any bytes, in half of the cases with numbers of disks and blocks that may be.
fn garbage(random: &mut Random) -> State {
    let mut state = state_bytes::state_of(&std::array::from_fn(|_| random.byte()));
    if random.percent(50) {
        (state.disks, state.blocks) = (disks(random) as u8, blocks(random) as u8);
    }
    state
}

/// The lowest bits, so many; at most 8.
fn below(count: u8) -> u8 {
    ((1u16 << count) - 1) as u8
}
