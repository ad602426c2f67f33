//! The explorer under the paper's rules: every claim holds in every reachable state of the small cabinets.

use reference::definitions;
use reference::explorer::explore;
use reference::label::Label;
use reference::mistakes::Rules;
use reference::random::Random;
use reference::sets::DiskSet;
use reference::small_states;
use reference::state::{Power, State};

/// Explores a cabinet, and expects so many states and calls: a change of these numbers wants a reason.
fn all_claims_hold(n: u16, b: u16, states: usize, calls: usize) {
    let survey = explore(Rules::PAPER, Rules::PAPER, (n, b), |_| true);
    if let Some(failure) = survey.failure {
        let claim = failure.claim.words(Rules::PAPER);
        panic!("{claim}: {}", failure.history.join(", "));
    }
    assert_eq!((survey.states, survey.transitions), (states, calls));
}

#[test]
fn all_claims_hold_with_one_disk() {
    all_claims_hold(1, 1, 16, 476);
    all_claims_hold(1, 2, 32, 1_072);
}

#[test]
fn all_claims_hold_with_two_disks() {
    all_claims_hold(2, 1, 1_128, 49_432);
    all_claims_hold(2, 2, 3_808, 181_536);
}

#[test]
fn all_claims_hold_with_three_disks_of_one_block() {
    all_claims_hold(3, 1, 415_696, 17_734_794);
}

#[test]
fn all_claims_hold_with_three_disks_of_two_blocks() {
    all_claims_hold(3, 2, 2_623_968, 122_455_928);
}

#[test]
fn the_test_of_soundness_is_the_definition_on_small_states() {
    let (mut sound, mut unsound) = (0, 0);
    for state in small_states::all() {
        let is_sound = definitions::is_sound(&state);
        assert_eq!(state.is_sound(Rules::PAPER), is_sound, "{state:?}");
        if is_sound {
            sound += 1
        } else {
            unsound += 1
        }
    }
    assert!(sound > 20 && unsound > 1000);
}

/// A state with numbers that are near the bounds.
fn random_state(random: &mut Random) -> State {
    let all = DiskSet::below(random.between(1, 9) as u8);
    let mut state = State {
        disks: random.between(0, 9) as u8,
        blocks: random.pick(&[0, 1, 8, 9, 16, 63, 64, 65, 255]),
        reach: all.and(DiskSet(random.byte())),
        ..State::ZERO
    };
    let current = all.and(DiskSet(random.byte()));
    if random.percent(60) {
        state.power = Power::Running(current);
    }
    for d in 0..random.below(9) {
        let own = current.with(d as u8);
        state.labels[d] = Label {
            committed: random.pick(&[current, current, current, own, DiskSet::EMPTY]),
            tentative: random.pick(&[DiskSet::EMPTY, DiskSet::EMPTY, own]),
            dirty: random.pick(&[0, 0, 1, 2, 128]),
        };
    }
    state
}

#[test]
fn the_test_of_soundness_is_the_definition_on_random_states() {
    let mut random = Random::new(3);
    let mut sound = 0;
    for _ in 0..300_000 {
        let state = random_state(&mut random);
        let is_sound = definitions::is_sound(&state);
        assert_eq!(state.is_sound(Rules::PAPER), is_sound, "{state:?}");
        sound += usize::from(is_sound);
    }
    assert!(sound > 1000, "{sound}");
}
