//! Request 2.3, 'Reads should notice a loss': reads of every block at every supply, after every loss, by hand.

use reference::cabinet::{Answer, Cabinet};
use reference::call::Call;
use reference::definitions;
use reference::driver;
use reference::mistakes::{Mistake, Rules};
use reference::program::{parse, Command};
use reference::sets::DiskSet;
use reference::small_states;
use reference::sound_states;
use reference::state::{Power, State};
use reference::trial::Trial;
use std::collections::BTreeSet;

/// A supply that suffices for every call of these tests.
const AMPLE: u16 = 999;

/// What a read leaves: its answer, and the state, the disk area and the output after it.
type Left = (Answer, State, Vec<u8>, Vec<u8>);

/// The output that a read is given. No block of the areas here equals it.
fn given(length: usize) -> Vec<u8> {
    vec![170; length]
}

/// A read by these rules with an output of this length.
fn read(rules: Rules, before: &Cabinet, output_length: usize, block: u16, supply: u16) -> Left {
    let (mut after, mut output) = (before.clone(), given(output_length));
    after.rules = rules;
    let answer = after.read(block, &mut output, supply);
    (answer, after.state, after.area, output)
}

/// What a read leaves that is refused with this number.
fn unchanged(before: &Cabinet, output_length: usize, result: u8) -> Left {
    let answer = Answer::refused(result);
    (answer, before.state, before.area.clone(), given(output_length))
}

/// A fresh cabinet of n disks of two blocks, all different, of which only these disks are in reach.
fn cabinet(n: u8, reach: DiskSet) -> Cabinet {
    let mut cabinet = Cabinet::fresh(Rules::PAPER, n.into(), 2).expect("n and b are in range");
    cabinet.state.reach = reach;
    cabinet.area = area(&cabinet.state);
    cabinet
}

/// An area in which no two blocks are equal.
fn area(state: &State) -> Vec<u8> {
    let blocks = state.disks * state.blocks;
    (1..=blocks).flat_map(|byte| [byte; 64]).collect()
}

/// Each n with each set of disks in reach but the empty one.
fn live_sets() -> impl Iterator<Item = (u8, DiskSet)> {
    let sets_of = |n| DiskSet::below(n).sets_inside().map(move |reach| (n, reach));
    (1..=8).flat_map(sets_of).filter(|(_, reach)| !reach.is_empty())
}

/// The length of a read's list: a move to L has two stores a disk.
fn length(state: &State) -> usize {
    if state.current().inside(state.reach) {
        0
    } else {
        2 * state.live().size()
    }
}

/// Checks a read of a block with an L that is not empty: it makes the first stores of its list, and "leaves the output
/// buffer unchanged" if it is cut.
fn check(before: &Cabinet, block: u8, supply: u16) {
    let (live, length) = (before.state.live(), length(&before.state));
    let stores = length.min(supply.into());
    let byte = live.0.trailing_zeros() as u8 * 2 + block + 1;
    let (result, power, output) = if stores < length {
        (15, Power::Stopped, given(64))
    } else {
        (0, Power::Running(live), vec![byte; 64])
    };
    let state = State {
        power,
        labels: definitions::labels_in_move(&before.state, stores),
        ..before.state
    };
    let expected = (Answer { result, stores }, state, before.area.clone(), output);
    let left = read(Rules::PAPER, before, 64, block.into(), supply);
    assert_eq!(left, expected, "block {block}, supply {supply}, {:?}", before.state);
}

#[test]
fn a_read_after_a_loss_moves_and_copies() {
    for (n, reach) in live_sets() {
        let before = cabinet(n, reach);
        for block in 0..2 {
            check(&before, block, length(&before.state) as u16);
            check(&before, block, AMPLE);
        }
    }
}

#[test]
fn a_read_after_a_loss_is_cut_at_each_supply() {
    for (n, reach) in live_sets() {
        let before = cabinet(n, reach);
        for supply in 0..length(&before.state) as u16 {
            check(&before, 1, supply);
        }
    }
}

#[test]
fn a_read_without_a_loss_needs_no_supply() {
    for n in 1..=8 {
        check(&cabinet(n, DiskSet::below(n)), 1, 0);
    }
}

#[test]
fn a_read_that_moved_leaves_nothing_to_move() {
    for (n, reach) in live_sets() {
        let mut moved = cabinet(n, reach);
        moved.read(1, &mut given(64), AMPLE);
        check(&moved, 1, 0);
    }
}

#[test]
fn a_read_with_none_live_gives_12_and_does_not_move() {
    for (n, supply) in (1..=8).flat_map(|n| [(n, 0), (n, AMPLE)]) {
        let before = cabinet(n, DiskSet::EMPTY);
        let left = read(Rules::PAPER, &before, 64, 1, supply);
        assert_eq!(left, unchanged(&before, 64, 12), "n = {n}");
    }
}

/// A read with these buffers and numbers, of which each may be wrong.
#[derive(Clone, Copy, Debug)]
struct Asked {
    area_fits: bool,
    output_length: usize,
    block: u16,
    supply: u16,
}

/// Right and wrong lengths, blocks and supplies.
fn asked(blocks: u8) -> Vec<Asked> {
    let mut all = Vec::new();
    for (area_fits, output_length) in [(true, 64), (true, 63), (true, 65), (false, 64), (false, 0)] {
        for block in [0, blocks.into(), 256, 65_535] {
            all.extend([0, 1, 3, AMPLE].map(|supply| Asked {
                area_fits,
                output_length,
                block,
                supply,
            }));
        }
    }
    all
}

/// The result, where each refusal "falls in the order of its paragraph, on its condition only": 1, 2, 3, 6, 9, 12, 15.
fn expected(state: &State, asked: Asked) -> u8 {
    match state.power {
        _ if !definitions::is_sound(state) => 1,
        _ if !asked.area_fits => 2,
        _ if asked.output_length != 64 => 3,
        Power::Stopped => 6,
        Power::Running(_) if asked.block >= state.blocks.into() => 9,
        Power::Running(current) if current.and(state.reach).is_empty() => 12,
        Power::Running(_) if usize::from(asked.supply) < length(state) => 15,
        Power::Running(_) => 0,
    }
}

/// One read: its number is the expected one, and a refused one changes nothing. By the rule before the request it left
/// the same, unless it now has a move to make.
fn is_as_expected(state: State, asked: Asked) -> u8 {
    let mut area = area(&state);
    if !asked.area_fits {
        area.push(0);
    }
    let rules = Rules::PAPER;
    let before = Cabinet { rules, state, area };
    let read_by = |rules| read(rules, &before, asked.output_length, asked.block, asked.supply);
    let (left, result) = (read_by(rules), expected(&state, asked));
    let is_refused = ![0, 15].contains(&result);
    assert_eq!(left.0.result, result, "{asked:?}, {state:?}");
    if is_refused {
        assert_eq!(
            left,
            unchanged(&before, asked.output_length, result),
            "{asked:?}, {state:?}"
        );
    }
    let is_new = left != read_by(Rules::with(Mistake::ReadStays));
    assert_eq!(is_new, !is_refused && length(&state) > 0, "{asked:?}, {state:?}");
    result
}

#[test]
fn refusals_fall_in_their_order_and_only_reads_after_a_loss_change() {
    let sound = (1..=2).flat_map(sound_states::all);
    let mut seen = BTreeSet::new();
    for state in small_states::all().chain(sound) {
        for asked in asked(state.blocks) {
            seen.insert(is_as_expected(state, asked));
        }
    }
    assert_eq!(seen, [0, 1, 2, 3, 6, 9, 12, 15].into());
}

/// The trial after these calls, of which every claim holds, and the result of the last one.
fn after(trial: &Trial, calls: &[Call]) -> (Trial, u8) {
    let (trial, answer) = trial.after_all(calls, &given(64)).expect("all claims hold");
    (trial, answer.result)
}

/// The cut read, then a restart, with the lost disks still away or back. With all back it must find a set; then the
/// book's blocks are on the disks of that set, which a claim says, and a read yields them.
fn restarts(trial: &Trial, supply: u16, returns: &[Call]) -> u8 {
    let cut = Call::Read { block: 1, supply };
    let restart = Call::Restart { supply: AMPLE };
    let (stopped, result) = after(trial, &[cut]);
    assert_eq!(result, 15, "supply {supply}");
    let (restarted, result) = after(&stopped, &[returns, &[restart]].concat());
    if result == 0 {
        let reads = [0, 1].map(|block| Call::Read { block, supply: AMPLE });
        assert_eq!(after(&restarted, &reads).1, 0);
    }
    result
}

/// A trial of n disks of two blocks, both written, after which these disks were lost.
fn trial_after_a_loss(n: u8, lost: DiskSet) -> Trial {
    let fresh = Trial::fresh(Rules::PAPER, Rules::PAPER, n.into(), 2).expect("n and b are in range");
    let writes = [0, 1].map(|block| Call::Write {
        block,
        data: vec![7 + block as u8; 64],
        supply: AMPLE,
    });
    let losses: Vec<Call> = lost.members().map(|disk| Call::Lose { disk: disk.into() }).collect();
    after(&fresh, &[&writes[..], &losses].concat()).0
}

/// Without the lost disks a restart needs the set on all others, proposed or committed.
#[test]
fn after_a_cut_read_a_restart_holds_the_book() {
    for (n, reach) in live_sets() {
        let lost = DiskSet::below(n).minus(reach);
        let trial = trial_after_a_loss(n, lost);
        let unaltered = |disk: u8| Call::unaltered_return(&trial.cabinet.state, disk.into());
        let returns: Vec<Call> = lost.members().map(unaltered).collect();
        for supply in 0..length(&trial.cabinet.state) {
            let found = if supply < reach.size() { 13 } else { 0 };
            assert_eq!(restarts(&trial, supply as u16, &[]), found);
            assert_eq!(restarts(&trial, supply as u16, &returns), 0);
        }
    }
}

/// "The program's line becomes `g k p`."
#[test]
fn a_line_has_a_supply() {
    let (block, supply) = (0, 99);
    assert_eq!(parse(b"g 0 99"), Some(Command::Call(Call::Read { block, supply })));
    assert_eq!(parse(b"g 0"), None);
}

/// "The first byte read (0 unless a read was done)."
#[test]
fn a_line_that_is_cut_prints_no_byte() {
    let answers = driver::answers(Rules::PAPER, b"f 2 1\nw 0 7 9\nx 0\ng 0 1\ns 9\ng 0 0\n");
    let expected = "0 0 3 3 0\n0 4 3 3 0\n0 0 3 2 0\n15 1 0 2 0\n0 2 2 2 0\n0 0 2 2 7\n";
    assert_eq!(String::from_utf8_lossy(&answers), expected);
}
