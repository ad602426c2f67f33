//! What random arguments meet seldom, on all implementations: reads and swaps at every supply that a move can need, and
//! returns of every disk with bytes of every kind.

use differential::arguments::{bytes, call_on};
use differential::case::{Call, Case};
use differential::comparison::Comparison;
use differential::implementations::{to_reference, Outcome, Plain, Proved, Reference};
use differential::states;
use reference::mistakes::Rules;
use reference::random::Random;
use reference::shown::Shown;
use reference::state::BLOCK;
use std::collections::BTreeSet;

/// The states in which a block is read at every supply, and those in which a disk is swapped.
const MOVED: usize = 10_000;
/// The states in which each disk shows bytes of every kind.
const RETURNED: usize = 1_000;
/// Bad numbers and lengths, of a hundred.
const BAD: usize = 12;
/// More blocks than a sound state has; unsound ones would ask for megabytes.
const MOST_BLOCKS: usize = 8 * 64 + 1;

/// What all three give.
fn agreed(case: Case) -> Outcome {
    let comparison = Comparison::of(&[&Proved, &Reference(Rules::PAPER), &Plain], case);
    let outcome = comparison.agreed().cloned();
    outcome.unwrap_or_else(|| panic!("{comparison}"))
}

/// The results and counts of this call in random states, in each at every supply that a move can need, and more.
fn at_every_supply(random: &mut Random, call: Call) -> BTreeSet<(u8, usize)> {
    let mut seen = BTreeSet::new();
    for _ in 0..MOVED {
        let state = states::any(random, 20);
        let blocks = usize::from(state.disks) * usize::from(state.blocks);
        let area = bytes(random, blocks.min(MOST_BLOCKS) * BLOCK, BAD);
        let case = call_on(random, call, state, area, BAD);
        for supply in 0..=17 {
            let outcome = agreed(Case { supply, ..case.clone() });
            seen.insert((outcome.result, outcome.stores));
        }
    }
    seen
}

/// Every result and number of stores of a call that may move to L, which is one to seven of eight disks and has two
/// stores a disk: done, cut, or refused with these numbers.
fn results_of_moves(refusals: &[u8]) -> BTreeSet<(u8, usize)> {
    let refused = refusals.iter().map(|&result| (result, 0));
    let (done, cut) = ((0..=7).map(|size| (0, 2 * size)), (0..14).map(|made| (15, made)));
    done.chain(cut).chain(refused).collect()
}

#[test]
fn reads_agree_at_every_supply() {
    let seen = at_every_supply(&mut Random::new(3), Call::Read);
    assert_eq!(seen, results_of_moves(&[1, 2, 3, 6, 9, 12]));
}

#[test]
fn swaps_agree_at_every_supply() {
    let seen = at_every_supply(&mut Random::new(4), Call::Swap);
    assert_eq!(seen, results_of_moves(&[1, 2, 6, 8, 12, 24]));
}

/// Each disk and one that there is not, with bytes of each kind and with fewer, down to none.
#[test]
fn returns_agree_whatever_is_shown() {
    let mut random = Random::new(5);
    let mut seen = BTreeSet::new();
    for _ in 0..RETURNED {
        let state = states::any(&mut random, 50);
        for number in 0..=usize::from(state.disks).min(9) {
            for kind in Shown::ALL {
                let shown = kind.bytes(&to_reference(state), number as u16);
                let with = |count: usize| Case {
                    state,
                    number,
                    buffer: shown[..count].to_vec(),
                    ..Case::new(Call::Return)
                };
                seen.extend((0..=shown.len()).map(|count| agreed(with(count)).result));
            }
        }
    }
    assert_eq!(seen, BTreeSet::from([0, 1, 8, 16, 17, 18, 19, 20, 22, 25]));
}
