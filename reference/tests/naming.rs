//! The stages, and request 2.4's lists of sets to test, on labels that no history need reach.

use reference::claims::Claim;
use reference::definitions;
use reference::mistakes::{Mistake, Rules};
use reference::naming::{named, Found};
use reference::random::Random;
use reference::refutation::refuting_history;
use reference::sets::DiskSet;
use reference::sound_states;
use reference::state::State;
use std::collections::BTreeMap;

/// The claims about labels and R alone.
const CLAIMS: [Claim; 4] = [
    Claim::NamedAsDefined,
    Claim::ListsShort,
    Claim::ListsComplete,
    Claim::FinderAgrees,
];

fn claims_hold(state: &State) {
    let failed = CLAIMS.into_iter().find(|claim| !claim.holds_in(Rules::PAPER, state));
    assert_eq!(failed, None, "{state:?}");
}

#[test]
fn claims_hold_in_all_stopped_sound_states_of_up_to_three_disks() {
    for state in (1..=3).flat_map(sound_states::all).filter(State::is_stopped) {
        claims_hold(&state);
    }
}

/// A stopped state of n disks, with any R of them and few sets, two of which share R out: a disk most often has its own
/// one, so that there are candidates. In half of the states the labels are sound.
fn random_state(random: &mut Random, n: u8) -> State {
    let all = DiskSet::below(n);
    let reach = all.and(DiskSet(random.byte()));
    let (part, any) = (reach.and(DiskSet(random.byte())), DiskSet(random.byte()));
    let is_sound = random.percent(50);
    let mut state = State {
        disks: n,
        blocks: 1,
        reach,
        ..State::ZERO
    };
    for (d, label) in (0..).zip(&mut state.labels) {
        let own = if part.has(d) { part } else { reach.minus(part) };
        let sets = [own, own, own, own, part, any, DiskSet::EMPTY];
        let fits = |set: &DiskSet| !is_sound || set.has(d) && set.inside(all);
        let mut set = || Some(random.pick(&sets)).filter(fits).unwrap_or_default();
        (label.committed, label.tentative) = (set(), set());
    }
    state
}

/// A restart's number.
fn number(found: Found) -> u8 {
    match found {
        Found::One(_) => 0,
        Found::None => 13,
        Found::Several => 14,
    }
}

/// Each restart's number occurs, with sound labels and others. But one disk has no two candidates.
#[test]
fn claims_hold_of_random_labels_sound_or_not() {
    let mut random = Random::new(4);
    for n in 1..=8 {
        let mut counts = BTreeMap::new();
        for _ in 0..20_000 {
            let state = random_state(&mut random, n);
            claims_hold(&state);
            let found = named(Rules::PAPER, &state.labels, state.reach);
            let kind = (definitions::is_sound(&state), number(found));
            *counts.entry(kind).or_insert(0) += 1;
        }
        let kinds = if n == 1 { 4 } else { 6 };
        let often = counts.values().all(|&count| count > 100);
        assert!(counts.len() == kinds && often, "n = {n}: {counts:?}");
    }
}

/// The finder goes by the lists.
#[test]
fn the_finder_errs_by_a_wrong_list() {
    for mistake in [Mistake::ListMissesLastDisk, Mistake::ListRepeatsSets] {
        let rules = Rules::with(mistake);
        assert!(
            refuting_history(rules, rules, Claim::FinderAgrees).is_some(),
            "{mistake:?}"
        );
    }
}
