//! Request 2.1, "membership is tested before reach in a join", changes nothing else: the old order and the paper's are
//! run side by side on every small state. `cargo test --release --test join_order -- --nocapture` prints the counts.

use reference::cabinet::{Answer, Cabinet};
use reference::definitions;
use reference::mistakes::{Mistake, Rules};
use reference::sets::DiskSet;
use reference::small_states;
use reference::sound_states;
use reference::state::{Power, State};

/// A supply that suffices for every join of a small cabinet.
const AMPLE: u16 = 99;

/// What was run.
#[derive(Debug, Default, PartialEq, Eq)]
struct Tally {
    states: usize,
    /// The joins, each by both orders.
    joins: usize,
    /// Those with two results.
    differ: usize,
}

/// "The only old results that change are joins of a current member that is out of reach." That is, in document 01's
/// terms: the cabinet runs, and d is in G and not in R. On a state that is not sound, or an area of a wrong length,
/// every join gives 1 or 2 as before.
fn changes(state: &State, area: &[u8], disk: u16) -> bool {
    let Power::Running(current) = state.power else {
        return false;
    };
    let fits = area.len() == usize::from(state.disks) * usize::from(state.blocks) * 64;
    let is_in = |set: DiskSet| disk < 8 && set.0 & 1 << disk != 0;
    fits && is_in(current) && !is_in(state.reach) && definitions::is_sound(state)
}

/// A join by these rules: its answer, and the cabinet after it.
fn joined(rules: Rules, state: State, area: &[u8], disk: u16, supply: u16) -> (Answer, Cabinet) {
    let area = area.to_vec();
    let mut cabinet = Cabinet { rules, state, area };
    (cabinet.join(disk, supply), cabinet)
}

/// One join by both orders, which give "11 where it was 10", or else the same; and whether the results differ.
fn compare(state: State, area: &[u8], disk: u16, supply: u16) -> bool {
    let before = Rules::with(Mistake::JoinReachBeforeMember);
    let (old, old_after) = joined(before, state, area, disk, supply);
    let (new, new_after) = joined(Rules::PAPER, state, area, disk, supply);
    let what = || format!("disk {disk}, supply {supply}, {} bytes, {state:?}", area.len());
    if changes(&state, area, disk) {
        assert_eq!((old.result, new.result), (10, 11), "{}", what());
    } else {
        assert_eq!(old.result, new.result, "{}", what());
    }
    let same = old.stores == new.stores && old_after.state == new_after.state && old_after.area == new_after.area;
    assert!(same, "{}", what());
    old.result != new.result
}

/// Every join of these states: each disk, two numbers beyond and the largest, without supply and with enough, on each
/// area.
fn compare_all(name: &str, states: impl Iterator<Item = State>) -> Tally {
    let mut tally = Tally::default();
    for state in states {
        tally.states += 1;
        let disks = (0..=u16::from(state.disks) + 1).chain([u16::MAX]);
        let numbers: Vec<(u16, u16)> = disks.flat_map(|disk| [(disk, 0), (disk, AMPLE)]).collect();
        for area in areas(&state) {
            for &(disk, supply) in &numbers {
                tally.joins += 1;
                tally.differ += usize::from(compare(state, &area, disk, supply));
            }
        }
    }
    let Tally { states, joins, differ } = tally;
    println!("{name}: {states} states, {joins} joins, {differ} differ");
    tally
}

/// An area of n × b × 64 bytes in which no two disks have the same block, so that a copy shows; and that area without
/// its last byte, if it has one.
fn areas(state: &State) -> Vec<Vec<u8>> {
    let part = usize::from(state.blocks) * 64;
    let whole: Vec<u8> = (1..=state.disks).flat_map(|byte| vec![byte; part]).collect();
    match whole.split_last() {
        Some((_, short)) => vec![short.to_vec(), whole],
        None => vec![whole],
    }
}

/// Every sound state of n disks. A disk has this number of choices: to be a member or not, its label, and its bit of R;
/// `tests/sound_states.rs` counts them. In two of them, clean and dirty, it is a member out of reach: then its joins
/// with the right area differ, with either supply.
fn compare_sound(n: u8, choices: usize) {
    let disks = usize::from(n);
    let of_others = choices.pow(u32::from(n) - 1);
    let states = choices * of_others;
    let expected = Tally {
        states,
        joins: states * (disks + 3) * 2 * 2,
        differ: disks * 2 * of_others * 2,
    };
    assert_eq!(compare_all(&format!("sound, n = {n}"), sound_states::all(n)), expected);
}

#[test]
fn only_the_named_joins_change_with_one_disk() {
    compare_sound(1, 20);
}

#[test]
fn only_the_named_joins_change_with_two_disks() {
    compare_sound(2, 40);
}

#[test]
fn only_the_named_joins_change_with_three_disks() {
    compare_sound(3, 104);
}

/// Of these, the joins of disk 0 differ where it is alone, a member, out of reach and rightly labelled: with 1 or 2
/// blocks, clean or dirty, and two supplies.
#[test]
fn only_the_named_joins_change_on_states_sound_or_not() {
    let tally = compare_all("sound or not, n = 1", small_states::all());
    assert_eq!(tally.differ, 2 * 2 * 2);
}
