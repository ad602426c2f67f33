//! Request 2.5, 'A blank disk in an old bay': swaps of every disk at every supply, after every loss, and the
//! technician's whole path with the power cut after every store, by hand.

use reference::cabinet::{Answer, Cabinet};
use reference::call::Call;
use reference::claims::Claim;
use reference::definitions;
use reference::label::Label;
use reference::mistakes::{Mistake, Rules};
use reference::program::parse;
use reference::refutation::refuting_history;
use reference::sets::DiskSet;
use reference::small_states;
use reference::sound_states;
use reference::state::{Power, State};
use reference::swap_claims::SwapClaim;
use reference::trial::Trial;
use std::collections::BTreeSet;
use std::ops::RangeInclusive;

/// A supply that suffices for every call of these tests.
const AMPLE: u16 = 999;

/// What a swap leaves: its answer, and the state and the disk area after it.
type Left = (Answer, State, Vec<u8>);

/// A swap by the paper.
fn swap(before: &Cabinet, disk: u16, supply: u16) -> Left {
    let mut after = before.clone();
    let answer = after.swap(disk, supply);
    (answer, after.state, after.area)
}

/// An area in which no block is zeros and no two are equal.
fn area(state: &State) -> Vec<u8> {
    let blocks = state.disks * state.blocks;
    (1..=blocks).flat_map(|byte| [byte; 64]).collect()
}

/// A fresh cabinet of n disks of two blocks, all different, of which only these disks are in reach.
fn cabinet(n: u8, reach: DiskSet) -> Cabinet {
    let mut cabinet = Cabinet::fresh(Rules::PAPER, n.into(), 2).expect("n and b are in range");
    cabinet.state.reach = reach;
    cabinet.area = area(&cabinet.state);
    cabinet
}

/// What a swap leaves that is refused with this number.
fn unchanged(before: &Cabinet, result: u8) -> Left {
    (Answer::refused(result), before.state, before.area.clone())
}

/// What a swap leaves that is not refused, or with 15: all of the move's stores or the first ones, if the disk is in G;
/// and the new disk, if all are made.
fn left(before: &Cabinet, disk: u8, supply: u16) -> Left {
    let Cabinet {
        mut state, mut area, ..
    } = before.clone();
    let is_member = state.current().has(disk);
    let length = if is_member { 2 * state.live().size() } else { 0 };
    let stores = length.min(supply.into());
    state.labels = definitions::labels_in_move(&before.state, stores);
    if stores < length {
        state.power = Power::Stopped;
        return (Answer { result: 15, stores }, state, area);
    }
    if is_member {
        state.power = Power::Running(before.state.live());
    }
    state.labels[disk as usize] = Label::ZERO;
    area[state.disk_range(disk)].fill(0);
    (Answer { result: 0, stores }, state, area)
}

/// Checks a swap of a disk at every supply that its move can need, and more.
fn check_at_every_supply(before: &Cabinet, disk: u8) {
    for supply in 0..=2 * u16::from(before.state.disks) {
        let expected = left(before, disk, supply);
        let what = || format!("disk {disk}, supply {supply}, {:?}", before.state);
        assert_eq!(swap(before, disk.into(), supply), expected, "{}", what());
    }
}

/// C and T of three disks of one block after a swap of disk 2, which was lost, at each supply. The new disk's label is
/// empty.
#[test]
fn a_swap_of_a_current_disk_moves_first() {
    let mut lost = Cabinet::fresh(Rules::PAPER, 3, 1).expect("n and b are in range");
    lost.lose(2);
    lost.area.fill(7);
    let table = [
        (0, 15, [7, 7, 7], [0, 0, 0]),
        (1, 15, [7, 7, 7], [3, 0, 0]),
        (2, 15, [7, 7, 7], [3, 3, 0]),
        (3, 15, [3, 7, 7], [0, 3, 0]),
        (4, 0, [3, 3, 0], [0, 0, 0]),
    ];
    for (supply, result, committed, tentative) in table {
        let (answer, state, area) = swap(&lost, 2, supply);
        let stores = supply.into();
        assert_eq!(answer, Answer { result, stores });
        let labels = &state.labels[..3];
        assert!(labels.iter().map(|label| label.committed.0).eq(committed), "{labels:?}");
        assert!(labels.iter().map(|label| label.tentative.0).eq(tentative), "{labels:?}");
        let (power, last) = match result {
            0 => (Power::Running(DiskSet(3)), [0; 64]),
            _ => (Power::Stopped, [7; 64]),
        };
        assert_eq!((state.power, state.reach), (power, DiskSet(3)));
        assert_eq!(area, [[7; 64], [7; 64], last].concat());
    }
}

#[test]
fn swaps_of_current_disks_at_each_supply() {
    for n in 1..=8 {
        for reach in DiskSet::below(n).sets_inside().filter(|reach| !reach.is_empty()) {
            let before = cabinet(n, reach);
            for disk in before.state.lost().members() {
                check_at_every_supply(&before, disk);
            }
        }
    }
}

/// Where no member is in reach, too: "12 where d is in G".
#[test]
fn swaps_of_other_disks_need_no_supply_and_no_live_disk() {
    for (n, disk) in disks(2..=8) {
        let others = DiskSet::below(n).without(disk);
        let mut moved = cabinet(n, others);
        moved.read(0, &mut [0; 64], AMPLE);
        for reach in others.sets_inside() {
            moved.state.reach = reach;
            check_at_every_supply(&moved, disk);
            let (answer, state, _) = swap(&moved, disk.into(), 0);
            assert_eq!((answer, state.power), (Answer::DONE, Power::Running(others)));
        }
    }
}

/// Each disk of each of these n.
fn disks(cabinets: RangeInclusive<u8>) -> impl Iterator<Item = (u8, u8)> {
    cabinets.flat_map(|n| (0..n).map(move |disk| (n, disk)))
}

#[test]
fn a_swap_of_a_current_disk_with_none_live_gives_12() {
    for ((n, disk), supply) in disks(1..=8).flat_map(|asked| [(asked, 0), (asked, AMPLE)]) {
        let before = cabinet(n, DiskSet::EMPTY);
        let left = swap(&before, disk.into(), supply);
        assert_eq!(left, unchanged(&before, 12), "n = {n}, disk {disk}");
    }
}

/// A swap with this area and these numbers, of which each may be wrong.
#[derive(Clone, Copy, Debug)]
struct Asked {
    area_fits: bool,
    disk: u16,
    supply: u16,
}

/// Right and wrong areas, disks and supplies.
fn asked(n: u8) -> Vec<Asked> {
    let mut all = Vec::new();
    for area_fits in [true, false] {
        for disk in (0..=n.into()).chain([8, 256, 65_535]) {
            all.extend([0, 1, 3, AMPLE].map(|supply| Asked {
                area_fits,
                disk,
                supply,
            }));
        }
    }
    all
}

/// "The order is 1, 2, 6, 8, 24, then 12 where d is in G, then 15."
fn expected(state: &State, asked: Asked) -> u8 {
    let is_in = |set: DiskSet| asked.disk < 8 && set.0 >> asked.disk & 1 == 1;
    let live = state.live();
    match state.power {
        _ if !definitions::is_sound(state) => 1,
        _ if !asked.area_fits => 2,
        Power::Stopped => 6,
        Power::Running(_) if asked.disk >= state.disks.into() => 8,
        Power::Running(_) if is_in(state.reach) => 24,
        Power::Running(current) if is_in(current) && live.is_empty() => 12,
        Power::Running(current) if is_in(current) && usize::from(asked.supply) < 2 * live.size() => 15,
        Power::Running(_) => 0,
    }
}

/// One swap: its number is the expected one, and it leaves what is due.
fn is_as_expected(state: State, asked: Asked) -> u8 {
    let mut area = area(&state);
    if !asked.area_fits {
        area.push(0);
    }
    let rules = Rules::PAPER;
    let before = Cabinet { rules, state, area };
    let result = expected(&state, asked);
    let expected = match result {
        0 | 15 => left(&before, asked.disk as u8, asked.supply),
        _ => unchanged(&before, result),
    };
    assert_eq!(expected.0.result, result, "{asked:?}, {state:?}");
    assert_eq!(
        swap(&before, asked.disk, asked.supply),
        expected,
        "{asked:?}, {state:?}"
    );
    result
}

#[test]
fn refusals_fall_in_their_order() {
    let sound = (1..=2).flat_map(sound_states::all);
    let mut seen = BTreeSet::new();
    for state in small_states::all().chain(sound) {
        for asked in asked(state.disks) {
            seen.insert(is_as_expected(state, asked));
        }
    }
    assert_eq!(seen, [0, 1, 2, 6, 8, 12, 15, 24].into());
}

/// The trial after these calls, of which every claim holds, and the result of the last one.
fn after(trial: &Trial, calls: &[Call]) -> (Trial, u8) {
    let (trial, answer) = trial.after_all(calls, &[170; 64]).expect("all claims hold");
    (trial, answer.result)
}

/// The trial after these calls, each of which gives 0.
fn done(trial: &Trial, calls: &[Call]) -> Trial {
    calls.iter().fold(trial.clone(), |trial, call| {
        let (after, result) = after(&trial, std::slice::from_ref(call));
        assert_eq!(result, 0, "{call:?}");
        after
    })
}

/// The technician's calls for one bay.
#[derive(Clone, Copy)]
struct Bay {
    disk: u16,
}

impl Bay {
    fn lose(self) -> Call {
        Call::Lose { disk: self.disk }
    }

    fn swap(self, supply: u16) -> Call {
        let disk = self.disk;
        Call::Swap { disk, supply }
    }

    /// The disk comes back as it is in this trial.
    fn give_back(self, trial: &Trial) -> Call {
        Call::unaltered_return(&trial.cabinet.state, self.disk)
    }

    fn join(self, supply: u16) -> Call {
        let disk = self.disk;
        Call::Join { disk, supply }
    }
}

const RESTART: Call = Call::Restart { supply: AMPLE };

/// A trial of n disks of two blocks, both written and no region dirty, so that no restart mends anything; then the disk
/// of this bay died.
fn trial_after_a_death(n: u8, bay: Bay) -> Trial {
    let fresh = Trial::fresh(Rules::PAPER, Rules::PAPER, n.into(), 2).expect("n and b are in range");
    let write = |block: u16| Call::Write {
        block,
        data: vec![7 + block as u8; 64],
        supply: AMPLE,
    };
    done(&fresh, &[write(0), write(1), Call::Quiet { supply: AMPLE }, bay.lose()])
}

/// All disks are in reach, current and right.
fn is_whole(trial: &Trial) {
    let Cabinet { state, area, .. } = &trial.cabinet;
    let all = DiskSet::below(state.disks);
    assert_eq!((state.reach, state.power), (all, Power::Running(all)));
    for disk in all.members() {
        assert_eq!(area[state.disk_range(disk)], [[7; 64], [8; 64]].concat(), "disk {disk}");
    }
}

/// A restart of a cabinet that was cut, with the disk of this bay in reach and without it, and all of the path once
/// more. Without the disk the restart gives the expected result; where that is 13, the disk must come back.
fn goes_on(stopped: &Trial, bay: Bay, without: u8) {
    let with_disk = done(stopped, &[bay.give_back(stopped), RESTART]);
    goes_on_running(&with_disk, bay);
    let (restarted, result) = after(stopped, &[bay.lose(), RESTART]);
    assert_eq!(result, without, "{:?}", stopped.cabinet.state);
    if result == 0 {
        goes_on_running(&restarted, bay);
    }
}

/// A read yields the book; a claim says so. The disk is swapped, again or at last, or if it is not current joined as it
/// is.
fn goes_on_running(restarted: &Trial, bay: Bay) {
    done(restarted, &[0, 1].map(|block| Call::Read { block, supply: AMPLE }));
    is_made_whole(&done(restarted, &[bay.lose(), bay.swap(AMPLE)]), bay);
    if !restarted.cabinet.state.current().has(bay.disk as u8) {
        is_made_whole(restarted, bay);
    }
}

/// The disk comes back and joins.
fn is_made_whole(trial: &Trial, bay: Bay) {
    is_whole(&done(trial, &[bay.give_back(trial), bay.join(AMPLE)]));
}

#[test]
fn the_technicians_path_ends_with_all_disks_current() {
    for (n, disk) in disks(2..=8) {
        let bay = Bay { disk: disk.into() };
        let dead = trial_after_a_death(n, bay);
        is_made_whole(&done(&dead, &[bay.swap(AMPLE)]), bay);
    }
}

/// Without the old disk a restart needs L proposed to all its members.
#[test]
fn the_technicians_path_survives_a_cut_of_the_swap() {
    for (n, disk) in disks(2..=8) {
        let bay = Bay { disk: disk.into() };
        let dead = trial_after_a_death(n, bay);
        let live = u16::from(n) - 1;
        for supply in 0..2 * live {
            let (stopped, result) = after(&dead, &[bay.swap(supply)]);
            assert_eq!(result, 15);
            goes_on(&stopped, bay, if supply < live { 13 } else { 0 });
        }
    }
}

#[test]
fn the_technicians_path_survives_a_cut_between_its_calls() {
    for (n, disk) in disks(2..=8) {
        let bay = Bay { disk: disk.into() };
        let swapped = done(&trial_after_a_death(n, bay), &[bay.swap(AMPLE)]);
        let returned = done(&swapped, &[bay.give_back(&swapped)]);
        for trial in [swapped, returned] {
            goes_on(&done(&trial, &[Call::Cut]), bay, 0);
        }
    }
}

/// A join has two copies, n proposals and n commits. When another disk than the new one has committed, a restart needs
/// the new one.
#[test]
fn the_technicians_path_survives_a_cut_of_the_join() {
    for (n, disk) in disks(2..=8) {
        let bay = Bay { disk: disk.into() };
        let swapped = done(&trial_after_a_death(n, bay), &[bay.swap(AMPLE)]);
        let returned = done(&swapped, &[bay.give_back(&swapped)]);
        let n = u16::from(n);
        let first_commit_of_another = 2 + n + if disk == 0 { 2 } else { 1 };
        for supply in 0..2 + 2 * n {
            let (stopped, result) = after(&returned, &[bay.join(supply)]);
            assert_eq!(result, 15);
            goes_on(&stopped, bay, if supply < first_commit_of_another { 0 } else { 13 });
        }
    }
}

/// The claims that stand against no mistake, since each of the two breaks demand 3 too.
#[test]
fn the_claims_about_cut_swaps_and_stopped_cabinets_can_fail() {
    let mistakes = [
        (Mistake::SwapZeroesThoughCut, SwapClaim::CutLeavesDisk),
        (Mistake::SwapOfStoppedCabinet, SwapClaim::NeedsPower),
    ];
    for (mistake, claim) in mistakes {
        let rules = Rules::with(mistake);
        assert!(
            refuting_history(rules, rules, Claim::Swap(claim)).is_some(),
            "{mistake:?}"
        );
    }
}

/// "No letter": the line of a swap is for people.
#[test]
fn the_program_has_no_letter_for_a_swap() {
    let (disk, supply) = (2, 99);
    let line = Call::Swap { disk, supply }.line(&State::ZERO);
    assert_eq!((line.as_str(), parse(line.as_bytes())), ("swap 2 99", None));
}
