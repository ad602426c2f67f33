//! The enumeration of sound states has each of them, and each once.

use reference::definitions;
use reference::label::Label;
use reference::sets::DiskSet;
use reference::sound_states;
use reference::state::{Power, State};
use std::collections::HashSet;

/// The enumerated states: each is sound, and none comes twice.
fn enumerated(n: u8) -> HashSet<State> {
    let mut states = HashSet::new();
    for state in sound_states::all(n) {
        assert!(definitions::is_sound(&state), "{state:?}");
        assert!(states.insert(state), "twice: {state:?}");
    }
    states
}

/// Given G, each disk is on its own: a bit of R, and a label, of which a member has 2 and another disk as many as there
/// are choices of C, T and the dirty bit. C is 0 or its own disk with any of the n - 1 others, and so is T. To sum over
/// G, where an empty one stands for stopped, is to let each disk choose: member or not.
fn counted(n: u32) -> usize {
    let sets = 1 + 2_usize.pow(n - 1);
    let (of_member, of_other) = (2, sets * sets * 2);
    (2 * (of_member + of_other)).pow(n)
}

#[test]
fn there_are_as_many_sound_states_as_can_be_counted() {
    for n in 1..=3 {
        assert_eq!(enumerated(n).len(), counted(n.into()), "n = {n}");
    }
}

/// All states with b = 1, two labels of any sets of three disks and two dirty bits, and any such R and G: of one or two
/// disks these are all the sound ones and many others.
fn plain_states(n: u8) -> impl Iterator<Item = State> {
    let powers = || [Power::Stopped].into_iter().chain(sets().map(Power::Running));
    let heads = sets().flat_map(move |reach| powers().map(move |power| (reach, power)));
    heads.flat_map(move |(reach, power)| {
        let pairs = plain_labels().flat_map(|first| plain_labels().map(move |second| [first, second]));
        pairs.map(move |pair| {
            let mut labels = [Label::ZERO; 8];
            labels[..2].copy_from_slice(&pair);
            State {
                disks: n,
                blocks: 1,
                reach,
                power,
                labels,
            }
        })
    })
}

fn sets() -> impl Iterator<Item = DiskSet> {
    (0..8).map(DiskSet)
}

fn plain_labels() -> impl Iterator<Item = Label> {
    (0..=255).map(|bits: u8| Label {
        committed: DiskSet(bits & 7),
        tentative: DiskSet(bits >> 3 & 7),
        dirty: bits >> 6,
    })
}

#[test]
fn the_sound_ones_of_a_plain_enumeration_are_all_there() {
    for n in [1, 2] {
        let sound: HashSet<State> = plain_states(n).filter(definitions::is_sound).collect();
        assert!(sound == enumerated(n), "n = {n}");
    }
}
