//! The states that cases are made of are of the kinds that they are said to be.

use differential::implementations::to_reference;
use differential::state_bytes;
use differential::states;
use plain::{Label, State};
use reference::mistakes::Rules;
use reference::random::Random;

/// How many states are looked at.
const STATES: usize = 20_000;

/// Whether the reference takes the state for sound.
fn is_sound(state: State) -> bool {
    to_reference(state).is_sound(Rules::PAPER)
}

#[test]
fn sound_states_are_sound() {
    let mut random = Random::new(11);
    assert!((0..STATES).all(|_| is_sound(states::sound(&mut random, 50))));
}

#[test]
fn any_state_is_sound_or_not() {
    let mut random = Random::new(11);
    let sound = (0..STATES).filter(|_| is_sound(states::any(&mut random, 50))).count();
    assert!((STATES / 2..STATES * 4 / 5).contains(&sound), "{sound}");
}

#[test]
fn a_state_is_its_bytes() {
    let mut random = Random::new(11);
    for _ in 0..STATES {
        let state = states::any(&mut random, 50);
        assert_eq!(state_bytes::state_of(&state_bytes::bytes_of(&state)), state);
    }
}

/// The state's disks with their labels, and the lowest bits, one for each disk.
fn disks_of(state: &State) -> (&[Label], u8) {
    let disks = usize::from(state.disks).min(state.labels.len());
    (&state.labels[..disks], ((1u16 << disks) - 1) as u8)
}

/// Whether each disk of the state has this.
fn each(state: &State, has: impl Fn(u8, &Label) -> bool) -> bool {
    (0..).zip(disks_of(state).0).all(|(disk, label)| has(disk, label))
}

/// "A state is sound when", clause by clause.
const CLAUSES: [fn(&State) -> bool; 9] = [
    |s| (1..=8).contains(&s.disks),
    |s| (1..=64).contains(&s.blocks),
    |s| s.reach & !disks_of(s).1 == 0,
    |s| s.current & !disks_of(s).1 == 0,
    |s| each(s, |_, label| (label.committed | label.tentative) & !disks_of(s).1 == 0),
    |s| {
        each(s, |disk, label| {
            [label.committed, label.tentative]
                .iter()
                .all(|set| *set == 0 || set >> disk & 1 == 1)
        })
    },
    |s| each(s, |_, label| u32::from(label.dirty) >> s.blocks.div_ceil(8) == 0),
    |s| {
        let disks = disks_of(s).0.len();
        s.labels[disks..].iter().all(|label| *label == Label::default())
    },
    |s| {
        each(s, |disk, label| {
            s.current >> disk & 1 == 0 || (label.committed, label.tentative) == (s.current, 0)
        })
    },
];

#[test]
fn each_clause_of_soundness_is_broken_alone() {
    let mut random = Random::new(11);
    let mut alone = [0; CLAUSES.len()];
    for _ in 0..STATES {
        let state = states::any(&mut random, 20);
        let broken: Vec<usize> = (0..CLAUSES.len()).filter(|&clause| !CLAUSES[clause](&state)).collect();
        assert_eq!(broken.is_empty(), is_sound(state));
        if let [clause] = broken[..] {
            alone[clause] += 1;
        }
    }
    assert!(alone.iter().all(|&count| count >= 10), "{alone:?}");
}

/// The stage that decides a restart, and whether by several sets. `None` if no stage has a candidate.
fn decision(state: &State) -> Option<(usize, bool)> {
    let members = |x: u8| {
        (0..8)
            .filter(move |disk| x >> disk & 1 == 1)
            .map(|disk| &state.labels[disk])
    };
    let stages: [&dyn Fn(u8) -> bool; 3] = [
        &|x| members(x).all(|label| label.tentative == x),
        &|x| {
            members(x).all(|label| label.tentative == x || label.committed == x)
                && members(x).any(|label| label.tentative == x)
        },
        &|x| members(x).all(|label| label.committed == x),
    ];
    let candidates = |stage: usize| {
        (1..=u8::MAX)
            .filter(|x| x & !state.reach == 0 && stages[stage](*x))
            .count()
    };
    let stage = (0..3).find(|&stage| candidates(stage) > 0)?;
    Some((stage, candidates(stage) > 1))
}

#[test]
fn each_stage_decides_by_one_set_and_by_several() {
    let mut random = Random::new(11);
    let decisions: Vec<_> = (0..STATES)
        .filter_map(|_| decision(&states::sound(&mut random, 100)))
        .collect();
    for wanted in (0..3).flat_map(|stage| [(stage, false), (stage, true)]) {
        let count = decisions.iter().filter(|each| **each == wanted).count();
        assert!(count >= 20, "{wanted:?}: {count}");
    }
}

#[test]
fn the_papers_states_are_among_them() {
    let mut random = Random::new(11);
    let stopped: Vec<State> = (0..STATES).map(|_| states::sound(&mut random, 100)).collect();
    for (committed, tentative, reach) in states::BY_HAND {
        let is_papers = |state: &&State| {
            let labels = disks_of(state).0;
            state.reach == reach
                && labels.iter().map(|label| label.committed).eq(committed.iter().copied())
                && labels.iter().map(|label| label.tentative).eq(tentative.iter().copied())
        };
        assert!(stopped.iter().filter(is_papers).count() >= 20, "{committed:?} {reach}");
    }
}
