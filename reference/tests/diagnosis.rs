//! Request 2.2 on every small state: the claims about diagnoses, their refusals, and that they change nothing.

use reference::cabinet::{Answer, Cabinet};
use reference::call::Call;
use reference::claims::Claim;
use reference::definitions;
use reference::diagnosis::{diagnose, questions, Diagnosis, Reason};
use reference::mistakes::{Mistake, Rules};
use reference::refutation::refuting_history;
use reference::sets::DiskSet;
use reference::small_states;
use reference::sound_states;
use reference::state::{Power, State};
use std::collections::BTreeSet;

/// Stages and no stages: no narrow number can stand for the wide ones.
const STAGES: [u32; 8] = [0, 1, 2, 3, 4, 255, 256, 65_536];

/// All claims hold of every diagnosis in every sound state of n disks; and which reasons each stage has.
fn claims_hold(n: u8) -> BTreeSet<(u32, u8)> {
    let mut seen = BTreeSet::new();
    for state in sound_states::all(n).filter(State::is_stopped) {
        for (stage, disk) in questions(n) {
            let told = diagnose(Rules::PAPER, &state, stage, disk);
            let fails = |claim: &Claim| !claim.holds_of_diagnosis(Rules::PAPER, &state, (stage, disk), told);
            let failed = Claim::OF_DIAGNOSES.into_iter().find(fails);
            assert_eq!(failed, None, "stage {stage}, disk {disk}, {state:?}");
            seen.insert((stage, told.reason.number()));
        }
    }
    seen
}

/// Each stage has each reason, but only stage 2 asks for a proposal. (With one disk it has no member that disagrees.)
fn each_reason_occurs(seen: BTreeSet<(u32, u8)>) {
    let each = (1..=3).flat_map(|stage| (1..=5).map(move |reason| (stage, reason)));
    let occurs = |&(stage, reason): &(u32, u8)| stage == 2 || reason != Reason::NoneProposes.number();
    assert_eq!(seen, each.filter(occurs).collect());
}

#[test]
fn claims_hold_with_one_and_two_disks() {
    claims_hold(1);
    each_reason_occurs(claims_hold(2));
}

#[test]
fn claims_hold_with_three_disks() {
    each_reason_occurs(claims_hold(3));
}

/// The stages with the last disk, the number after it, and numbers whose low byte is that of a disk.
fn asked(n: u8) -> impl Iterator<Item = (u32, u32)> {
    let n = u32::from(n);
    let disks = [n - 1, n, 255, 256, 65_536];
    let of_stage = move |stage| disks.map(|disk| (stage, disk));
    STAGES.into_iter().flat_map(of_stage)
}

/// "After its state check the order is 7, 8, then the stage."
fn expected(state: &State, stage: u32, disk: u32) -> u8 {
    match state.power {
        _ if !definitions::is_sound(state) => 1,
        Power::Running(_) => 7,
        Power::Stopped if disk >= u32::from(state.disks) => 8,
        Power::Stopped if !(1..=3).contains(&stage) => 23,
        Power::Stopped => 0,
    }
}

/// One diagnosis, as a call and by itself: its number is the expected one, a refused one tells nothing, and the cabinet
/// and the output are as they were.
fn is_as_expected(cabinet: &mut Cabinet, stage: u32, disk: u32) -> u8 {
    let (state, result) = (cabinet.state, expected(&cabinet.state, stage, disk));
    let told = diagnose(Rules::PAPER, &state, stage, disk);
    let nothing = Diagnosis {
        result,
        reason: Reason::None,
        set: DiskSet::EMPTY,
    };
    assert_eq!(told.result, result, "stage {stage}, disk {disk}, {state:?}");
    assert!(result == 0 || told == nothing, "stage {stage}, disk {disk}, {state:?}");
    let (before, mut output) = (cabinet.clone(), [170; 64]);
    let answer = cabinet.take(&Call::Diagnose { stage, disk }, &mut output);
    assert_eq!(answer, Answer { result, stores: 0 });
    assert!(*cabinet == before && output == [170; 64]);
    result
}

/// The length of the area is no matter, for a diagnosis takes none.
#[test]
fn refusals_fall_in_their_order_and_nothing_changes() {
    let sound = (1..=2).flat_map(sound_states::all);
    let mut seen = BTreeSet::new();
    for state in small_states::all().chain(sound) {
        let (rules, area) = (Rules::PAPER, vec![85; 64]);
        let mut cabinet = Cabinet { rules, state, area };
        let results = asked(state.disks).map(|(stage, disk)| is_as_expected(&mut cabinet, stage, disk));
        seen.extend(results);
    }
    assert_eq!(seen, [0, 1, 7, 8, 23].into());
}

#[test]
fn reasons_have_their_numbers_and_disks() {
    let reasons = [
        Reason::None,
        Reason::Empty,
        Reason::OutOfReach(7),
        Reason::Disagrees(6),
        Reason::NoneProposes,
        Reason::Candidate,
    ];
    let numbers = reasons.map(|reason| (reason.number(), reason.disk()));
    assert_eq!(numbers, [(0, 0), (1, 0), (2, 7), (3, 6), (4, 0), (5, 0)]);
}

/// The claim about 13 follows from the others where the stages are the paper's. It fails of a restart that never finds
/// a set.
#[test]
fn the_claim_about_13_can_fail() {
    let refuses = Rules::with(Mistake::RestartRefusesAlways);
    assert!(refuting_history(refuses, refuses, Claim::MissingTold).is_some());
}
