//! Random arguments of calls: mostly good ones, and bad ones in so many of a hundred.

use crate::case::{Call, Case};
use crate::implementations::{to_reference, Implementation, Plain};
use plain::State;
use reference::random::Random;
use reference::shown::Shown;
use reference::slots::SLOT;
use reference::state::BLOCK;
use std::ops::RangeInclusive;

/// Numbers at the edges of what some call takes, and of what some width holds.
const EDGES: [usize; 12] = [
    0,
    7,
    8,
    9,
    63,
    64,
    65,
    255,
    u16::MAX as usize,
    1 << 16,
    u32::MAX as usize,
    usize::MAX,
];

/// What makes a good number a bad one that looks good in fewer bits, or once it is multiplied by 64.
const HIDDEN: [usize; 5] = [1 << 8, 1 << 16, 1 << 32, 1 << 58, 1 << 63];

/// A call on this state and this area, which are as good or bad as they are.
pub fn call_on(random: &mut Random, call: Call, state: State, area: Vec<u8>, bad: usize) -> Case {
    let mut case = Case {
        state,
        area,
        number: number_for(random, call, &state, bad),
        ..Case::new(call)
    };
    if call == Call::Diagnose {
        case.stage = number(random, 1..=3, bad);
    }
    if call == Call::Return {
        case.buffer = shown(random, &state, case.number, 6 * bad);
    }
    if let Some(right) = buffer_length(call, &state) {
        case.buffer = bytes(random, right, bad);
    }
    if call.takes_supply() {
        case.supply = supply(random, &case);
    }
    case
}

/// What a returned disk shows: its stored label; or in so many of a hundred that of another bay, of another cabinet or
/// of another time, some of these damaged in a byte; or the label with bytes behind it.
fn shown(random: &mut Random, state: &State, disk: usize, foreign: usize) -> Vec<u8> {
    let is_foreign = random.percent(foreign);
    let kind = if is_foreign {
        random.pick(&Shown::ALL[1..])
    } else {
        Shown::Stored
    };
    let mut bytes = kind.bytes(&to_reference(*state), u16::try_from(disk).unwrap_or(u16::MAX));
    if is_foreign && random.percent(30) && !bytes.is_empty() {
        let place = random.below(bytes.len());
        bytes[place] ^= 1 << random.below(8);
    }
    if random.percent(25) {
        let behind = random.pick(&[1, SLOT, BLOCK]);
        bytes.extend((0..behind).map(|_| random.byte()));
    }
    bytes
}

/// The length of the output, data or slots that the call should be given.
fn buffer_length(call: Call, state: &State) -> Option<usize> {
    match call {
        Call::Read | Call::Write => Some(BLOCK),
        Call::Save => Some(SLOT * usize::from(state.disks)),
        _ => None,
    }
}

/// The block or the disk of a call on this state: for most calls one that suits, so that they are done. 0 if the call
/// takes none.
fn number_for(random: &mut Random, call: Call, state: &State, bad: usize) -> usize {
    match call {
        Call::Read | Call::Write => number(random, 0..=usize::from(state.blocks.max(1)) - 1, bad),
        Call::Join => disk(random, state, state.reach & !state.current, bad),
        Call::Lose => disk(random, state, state.reach, bad),
        Call::Return | Call::Swap => disk(random, state, !state.reach, bad),
        Call::Diagnose => disk(random, state, state.reach, bad),
        _ => 0,
    }
}

/// A disk, mostly one that is in the set.
fn disk(random: &mut Random, state: &State, set: u8, bad: usize) -> usize {
    let disks = usize::from(state.disks.max(1));
    let members: Vec<usize> = (0..disks.min(8)).filter(|disk| set >> disk & 1 == 1).collect();
    if members.is_empty() || random.percent(25) {
        number(random, 0..=disks - 1, bad)
    } else {
        random.pick(&members)
    }
}

/// A number of this range, or a bad one.
pub fn number(random: &mut Random, good: RangeInclusive<usize>, bad: usize) -> usize {
    let number = good.start() + random.below(good.end() - good.start() + 1);
    if !random.percent(bad) {
        return number;
    }
    match random.below(4) {
        0 => random.pick(&EDGES),
        1 => number + random.pick(&HIDDEN),
        2 => random.pick(&[good.end() + 1, good.start().wrapping_sub(1)]),
        _ => random.below(usize::MAX),
    }
}

/// This byte in so many of a hundred, otherwise any.
pub fn byte(random: &mut Random, usual: u8, percent: usize) -> u8 {
    if random.percent(percent) {
        usual
    } else {
        random.byte()
    }
}

/// The number of disks of a cabinet.
pub fn disks(random: &mut Random) -> usize {
    1 + random.below(8)
}

/// The number of blocks of a disk: mostly small.
pub fn blocks(random: &mut Random) -> usize {
    let most = random.pick(&[3, 9, 12, 12, 20, 64]);
    1 + random.below(most)
}

/// A supply for this case: none, small, around the length of its list, or ample. The length is what plain Rust says,
/// for it is quick; a wrong one would make a poorer choice, and no wrong comparison.
fn supply(random: &mut Random, case: &Case) -> u16 {
    let ample = || Case {
        supply: u16::MAX,
        ..case.clone()
    };
    let length = || Plain.make(ample()).stores as u16;
    match random.below(20) {
        0 => 0,
        1..=3 => random.between(0, 12),
        4..=6 => random.between(0, length()),
        7..=10 => (length() + random.between(0, 2)).saturating_sub(1),
        _ => random.pick(&[600, 999, u16::MAX]),
    }
}

/// The length of a buffer, which should be this.
pub fn length(random: &mut Random, right: usize, bad: usize) -> usize {
    let shorter = |less| right.saturating_sub(less);
    let near = [right + 1, right + BLOCK, shorter(1), shorter(BLOCK)];
    match random.below(4) {
        _ if !random.percent(bad) => right,
        0 => 0,
        1 => random.below(2 * right + 2),
        _ => random.pick(&near),
    }
}

/// Bytes that should be so many. Each block is a run, as `word` writes it: a byte that is out of its place is seen, but
/// for the few blocks whose step is 0.
pub fn bytes(random: &mut Random, right: usize, bad: usize) -> Vec<u8> {
    let mut bytes = vec![0; length(random, right, bad)];
    for block in bytes.chunks_mut(BLOCK) {
        let (mut byte, step) = (random.byte(), random.byte());
        block.fill_with(|| {
            byte = byte.wrapping_add(step);
            byte
        });
    }
    bytes
}
