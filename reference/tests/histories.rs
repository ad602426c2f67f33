//! Demand 3 and the claims beside it, on random histories with the book kept beside. The seeds are fixed; the variable
//! HISTORY_SEED gives another one.

use reference::cabinet::Answer;
use reference::call::Call;
use reference::claims::Claim;
use reference::mistakes::{Mistake, Rules};
use reference::random::Random;
use reference::refutation::{claim_against, REFUSED_BY_ONE};
use reference::shown::Shown;
use reference::state::State;
use reference::trial::{Outcome, Trial};
use std::collections::BTreeMap;

/// Histories of each cabinet, and calls of each history.
const HISTORIES: usize = 24;
const CALLS: usize = 1000;

fn seed() -> u64 {
    let given = std::env::var("HISTORY_SEED").ok();
    given.map_or(1, |word| word.parse().expect("HISTORY_SEED is a number"))
}

/// A block or disk number, most often one below the bound.
fn number(random: &mut Random, bound: u8) -> u16 {
    match random.below(40) {
        0 => bound.into(),
        1 => random.pick(&[8, 64, 255, 256, 257, 65535]),
        _ => random.between(0, u16::from(bound) - 1),
    }
}

/// A disk to swap or to return, most often one that can, and rather one in G.
fn lost(random: &mut Random, state: &State) -> u16 {
    let (current, others): (Vec<u8>, Vec<u8>) = state.lost().members().partition(|d| state.current().has(*d));
    let choices = if current.is_empty() { others } else { current };
    match choices[..] {
        [_, ..] if random.percent(80) => random.pick(&choices).into(),
        _ => number(random, state.disks),
    }
}

/// A disk to join, most often one that can.
fn apart(random: &mut Random, state: &State) -> u16 {
    let joins = state.reach.minus(state.current()).lowest();
    match joins {
        Some(disk) if random.percent(70) => disk.into(),
        _ => number(random, state.disks),
    }
}

/// What a returned disk shows: most often its stored label, else bytes of another kind, some of them with a bit turned
/// or with more behind.
fn shown(random: &mut Random, state: &State, disk: u16) -> Vec<u8> {
    if random.percent(65) {
        return Shown::Stored.bytes(state, disk);
    }
    let mut bytes = random.pick(&Shown::ALL).bytes(state, disk);
    let place = random.below(20);
    if let Some(byte) = bytes.get_mut(place) {
        *byte ^= 1 << random.below(8);
    }
    if random.percent(30) {
        bytes.extend(data(random));
    }
    bytes
}

/// A supply: one that suffices, one of the size of a move or of most lists, or any.
fn supply(random: &mut Random, state: &State) -> u16 {
    let disks = u16::from(state.disks);
    match random.below(10) {
        0..=3 => 65535,
        4..=5 => random.between(0, 2 * disks),
        6..=7 => random.between(0, 4 * disks + 2),
        8 => random.between(0, 3 * disks + u16::from(state.blocks) * disks),
        _ => random.between(0, 65535),
    }
}

/// Data, most often of 64 bytes.
fn data(random: &mut Random) -> Vec<u8> {
    let length = match random.below(30) {
        0 => random.pick(&[0, 1, 63, 65, 128]),
        _ => 64,
    };
    (0..length).map(|_| random.byte()).collect()
}

/// Which of the ten calls: more often one that gets the cabinet on.
fn kind(random: &mut Random, state: &State) -> usize {
    match (random.below(100), state.is_stopped()) {
        (0..=34, true) => 4,
        (0..=24, false) if !state.current().inside(state.reach) => 0,
        (25..=34, false) if !state.current().inside(state.reach) => 9,
        (0..=34, false) => 1,
        (35..=49, _) => 6,
        (50..=59, _) => 2,
        (other, _) => other % 10,
    }
}

fn random_call(random: &mut Random, state: &State) -> Call {
    let (kind, supply) = (kind(random, state), supply(random, state));
    match kind {
        0 => Call::Read {
            block: number(random, state.blocks),
            supply,
        },
        1 => Call::Write {
            block: number(random, state.blocks),
            data: data(random),
            supply,
        },
        2 => Call::Join {
            disk: apart(random, state),
            supply,
        },
        3 => Call::Quiet { supply },
        4 => Call::Restart { supply },
        5 => Call::Lose {
            disk: number(random, state.disks),
        },
        6 => {
            let (any, lost) = (number(random, state.disks), lost(random, state));
            let disk = random.pick(&[any, any, lost]);
            let shown = shown(random, state, disk);
            Call::Return { disk, shown }
        }
        7 => Call::Cut,
        8 => Call::Diagnose {
            stage: random.below(5) as u32,
            disk: number(random, state.disks).into(),
        },
        _ => {
            let of_a_move = random.between(0, 2 * u16::from(state.disks));
            Call::Swap {
                disk: lost(random, state),
                supply: random.pick(&[supply, of_a_move]),
            }
        }
    }
}

/// What happened in histories, to show that they are not empty of it.
#[derive(Debug, Default)]
struct Tally {
    /// Restarts that were finished.
    finished: usize,
    /// Those of more than one disk, with all n in reach.
    finished_with_all: usize,
    /// Reads, writes, joins, restarts and swaps that were cut.
    cut: [usize; 5],
    /// Reads that moved, writes, joins, diagnoses, swaps that moved and swaps that did not, that were done.
    done: [usize; 6],
    /// Returns, by their results.
    returns: BTreeMap<u8, usize>,
}

/// The results of a return. 22 is not among them where a disk has all eight regions.
const OF_RETURNS: [u8; 8] = [0, 8, 16, 17, 18, 19, 20, 25];

impl Tally {
    fn count(&mut self, call: &Call, answer: Answer, after: &State) {
        let all = after.current().size() > 1 && after.lost().is_empty();
        match (call, answer.result) {
            (Call::Restart { .. }, 0) => {
                self.finished += 1;
                self.finished_with_all += usize::from(all);
            }
            (Call::Read { .. }, 15) => self.cut[0] += 1,
            (Call::Write { .. }, 15) => self.cut[1] += 1,
            (Call::Join { .. }, 15) => self.cut[2] += 1,
            (Call::Restart { .. }, 15) => self.cut[3] += 1,
            (Call::Swap { .. }, 15) => self.cut[4] += 1,
            (Call::Read { .. }, 0) => self.done[0] += usize::from(answer.stores > 0),
            (Call::Write { .. }, 0) => self.done[1] += 1,
            (Call::Join { .. }, 0) => self.done[2] += 1,
            (Call::Diagnose { .. }, 0) => self.done[3] += 1,
            (Call::Swap { .. }, 0) => self.done[if answer.stores > 0 { 4 } else { 5 }] += 1,
            (Call::Return { .. }, result) => *self.returns.entry(result).or_default() += 1,
            _ => {}
        }
    }

    fn is_full(&self) -> bool {
        let often = [self.finished, self.finished_with_all];
        let returns = OF_RETURNS.map(|result| self.returns.get(&result).copied().unwrap_or(0));
        let counts = often.iter().chain(&self.cut).chain(&self.done).chain(&returns);
        counts.min().is_some_and(|&least| least > 100)
    }
}

/// The claims that failed, each with the lines up to its first failure.
type Failed = Vec<(Claim, String)>;

/// One history, checked after each call.
fn history(random: &mut Random, rules: Rules, (n, b): (u16, u16), failed: &mut Failed, tally: &mut Tally) {
    let mut trial = Trial::fresh(rules, rules, n, b).expect("n and b are in range");
    let mut lines = vec![format!("f {n} {b}")];
    for _ in 0..CALLS {
        let call = random_call(random, &trial.cabinet.state);
        lines.push(call.line(&trial.cabinet.state));
        let length = if random.percent(95) { 64 } else { random.below(129) };
        let (after, outcome) = checked(&trial, &call, &vec![170; length], failed, &lines);
        trial = after;
        tally.count(&call, outcome.answer, &trial.cabinet.state);
    }
}

/// A call, made again until none fails of the claims that did not fail before.
fn checked(trial: &Trial, call: &Call, given: &[u8], failed: &mut Failed, lines: &[String]) -> (Trial, Outcome) {
    loop {
        let unknown = |mut claims: Vec<Claim>| {
            claims.retain(|claim| failed.iter().all(|(known, _)| known != claim));
            claims
        };
        let (after, outcome) = trial.after(call, given, &unknown(Claim::of_call(call)));
        let in_state = || after.failing_in_state(&unknown(Claim::OF_STATES.to_vec()));
        match outcome.failed.or_else(in_state) {
            Some(claim) => failed.push((claim, lines.join(", "))),
            None => return (after, outcome),
        }
    }
}

/// Histories with each n and these numbers of blocks.
fn histories(b: impl Fn(&mut Random) -> u16, salt: u64) {
    let mut random = Random::new(seed() ^ salt << 32);
    let (mut failed, mut tally) = (Failed::new(), Tally::default());
    for n in 1..=8 {
        for _ in 0..HISTORIES {
            let b = b(&mut random);
            history(&mut random, Rules::PAPER, (n, b), &mut failed, &mut tally);
            assert!(failed.is_empty(), "{failed:?}");
        }
    }
    assert!(tally.is_full(), "{tally:?}");
}

/// The claims that fail on a history with each n and two regions, the second of them short.
fn failing(mistake: Mistake) -> Vec<Claim> {
    let (mut random, mut failed) = (Random::new(seed()), Failed::new());
    for n in 1..=8 {
        history(
            &mut random,
            Rules::with(mistake),
            (n, 9),
            &mut failed,
            &mut Tally::default(),
        );
    }
    failed.into_iter().map(|(claim, _)| claim).collect()
}

#[test]
fn some_wrong_rules_fail_one_claim_alone() {
    for mistake in REFUSED_BY_ONE {
        assert_eq!(failing(mistake), [claim_against(mistake)], "{mistake:?}");
    }
}

#[test]
fn claims_hold_with_one_block() {
    histories(|_| 1, 1);
}

#[test]
fn claims_hold_with_one_region() {
    histories(|_| 8, 2);
}

#[test]
fn claims_hold_with_a_short_second_region() {
    histories(|_| 9, 3);
}

#[test]
fn claims_hold_with_the_most_blocks() {
    histories(|_| 64, 4);
}

#[test]
fn claims_hold_with_other_blocks() {
    histories(|random| random.between(2, 63), 5);
}
