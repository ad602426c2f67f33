//! Every reachable state of a small cabinet, with the book: from fresh, under all ten calls, with the power cut
//! after every store, and every disk lost and returned, with its stored label and with other bytes. Breadth first, so
//! the first history on which a claim fails is a shortest one.

use crate::cabinet::Answer;
use crate::call::Call;
use crate::claims::Claim;
use crate::diagnosis::questions;
use crate::mistakes::Rules;
use crate::packing::{pack, unpack};
use crate::program::Reply;
use crate::refusal::SUPPLY_ENDED;
use crate::shown::Shown;
use crate::state::{State, BLOCK};
use crate::trial::Trial;
use std::collections::HashSet;
use std::fmt::Display;
use std::num::NonZero;
use std::ops::Range;
use std::thread;

/// The n and b of the cabinets that are explored, in this order.
pub const SIZES: [(u16, u16); 6] = [(1, 1), (1, 2), (2, 1), (3, 1), (2, 2), (3, 2)];

/// The output that each call is given. No block equals it, so that it shows when a read fills it.
const GIVEN: [u8; BLOCK] = [170; BLOCK];

/// The most states whose calls are made at a time, shared out among the threads.
const BATCH: usize = 1 << 14;

/// What an exploration found.
pub struct Survey {
    /// The reachable states that were visited.
    pub states: usize,
    /// The calls that were made in them.
    pub transitions: usize,
    /// The first claim that failed.
    pub failure: Option<Failure>,
}

/// A claim that fails, and a shortest history on which it does.
pub struct Failure {
    /// The claim.
    pub claim: Claim,
    /// The lines of the cabinet program, each with what it gives.
    pub history: Vec<String>,
}

/// A call without its supply, with small numbers. A write's data is one byte, 0 or 1, over and over.
#[derive(Clone, Copy)]
enum Step {
    Read { block: u8 },
    Write { block: u8, byte: u8 },
    Join { disk: u8 },
    Quiet,
    Restart,
    Lose { disk: u8 },
    Return { disk: u8, shown: Shown },
    Cut,
    Diagnose { stage: u32, disk: u32 },
    Swap { disk: u8 },
}

/// A state that was visited: how it came to be.
#[derive(Clone, Copy)]
struct Visited {
    packed: u128,
    parent: usize,
    made: Option<(Step, u16)>,
}

/// The calls that were made in some states: how many, and in their order the states that they led to and that were not
/// visited before. A claim that failed stands with the state in which it did, or to which the call led.
#[derive(Default)]
struct Made {
    calls: usize,
    reached: Vec<(Visited, Option<Claim>)>,
}

/// An exploration.
struct Explorer {
    /// The trial that it starts from.
    fresh: Trial,
    /// The steps that are made in each state, each with the claims that are checked.
    steps: Vec<(Step, Vec<Claim>)>,
    /// The claims about states that are checked.
    of_states: Vec<Claim>,
    seen: HashSet<u128>,
    visited: Vec<Visited>,
    transitions: usize,
}

/// Visits every reachable state of a cabinet of at most 3 disks and 2 blocks, until one of the claims fails that are to
/// be checked. The book may follow other rules than the cabinet.
pub fn explore(rules: Rules, book_rules: Rules, size: (u16, u16), is_checked: impl Fn(Claim) -> bool) -> Survey {
    let (n, b) = size;
    assert!(n <= 3 && b <= 2, "a larger trial cannot be packed");
    let checked = |mut claims: Vec<Claim>| {
        claims.retain(|claim| is_checked(*claim));
        claims
    };
    let fresh = Trial::fresh(rules, book_rules, n, b).expect("n and b are in range");
    let with_claims = |step: Step| (step, checked(Claim::of_call(&step.call(&fresh.cabinet.state, 0))));
    let steps = steps(n as u8, b as u8).into_iter().map(with_claims).collect();
    let mut explorer = Explorer {
        fresh,
        steps,
        of_states: checked(Claim::OF_STATES.to_vec()),
        seen: HashSet::new(),
        visited: Vec::new(),
        transitions: 0,
    };
    let failure = explorer.run();
    Survey {
        states: explorer.visited.len(),
        transitions: explorer.transitions,
        failure,
    }
}

impl Explorer {
    fn run(&mut self) -> Option<Failure> {
        self.visit(Visited {
            packed: pack(&self.fresh),
            parent: 0,
            made: None,
        });
        let mut next = 0;
        while next < self.visited.len() {
            let end = self.visited.len().min(next + BATCH);
            for made in self.calls_by_threads(next..end) {
                self.transitions += made.calls;
                for (reached, failed) in made.reached {
                    if let Some(claim) = failed {
                        return Some(self.failure(claim, &reached));
                    }
                    self.visit(reached);
                }
            }
            next = end;
        }
        None
    }

    /// Visits a state if it is new.
    fn visit(&mut self, reached: Visited) {
        if self.seen.insert(reached.packed) {
            self.visited.push(reached);
        }
    }

    /// Makes every call in these states, each thread those in a part of them. The parts come in their order, so that
    /// the number of threads makes no difference.
    fn calls_by_threads(&self, states: Range<usize>) -> Vec<Made> {
        let threads = thread::available_parallelism().map_or(1, NonZero::get);
        let size = states.len().div_ceil(threads);
        thread::scope(|scope| {
            let parts = states.clone().step_by(size);
            let make = |start| scope.spawn(move || self.calls(start..states.end.min(start + size)));
            let running: Vec<_> = parts.map(make).collect();
            let made = running.into_iter().map(|thread| thread.join().expect("no call panics"));
            made.collect()
        })
    }

    /// Checks the claims about each of these states, and makes every call in it.
    fn calls(&self, states: Range<usize>) -> Made {
        let mut made = Made::default();
        for from in states {
            let state = self.visited[from];
            let trial = unpack(&self.fresh, state.packed);
            if let Some(claim) = trial.failing_in_state(&self.of_states) {
                made.reached.push((state, Some(claim)));
            }
            let is_due = |(step, _): &&(Step, Vec<Claim>)| step.is_due(&trial.cabinet.state);
            for (step, claims) in self.steps.iter().filter(is_due) {
                self.step_at_every_supply(from, &trial, (*step, claims), &mut made);
            }
        }
        made
    }

    /// Makes a call with every supply from 0 to the length of its list, the least at which neither cabinet is cut. A
    /// larger one makes no difference.
    fn step_at_every_supply(&self, from: usize, trial: &Trial, (step, claims): (Step, &[Claim]), made: &mut Made) {
        for supply in 0.. {
            let call = step.call(&trial.cabinet.state, supply);
            let (after, outcome) = trial.after(&call, &GIVEN, claims);
            let is_new = after != *trial && !self.seen.contains(&pack(&after));
            if is_new || outcome.failed.is_some() {
                let reached = Visited {
                    packed: pack(&after),
                    parent: from,
                    made: Some((step, supply)),
                };
                made.reached.push((reached, outcome.failed));
            }
            made.calls += 1;
            let results = [outcome.answer.result, outcome.book_answer.result];
            if !results.contains(&SUPPLY_ENDED) {
                break;
            }
        }
    }

    /// The history to a state, run once more from fresh: the claim must fail there too.
    fn failure(&self, claim: Claim, reached: &Visited) -> Failure {
        let (mut steps, mut at) = (Vec::new(), reached);
        while let Some(made) = at.made {
            steps.push(made);
            at = &self.visited[at.parent];
        }
        let mut trial = self.fresh.clone();
        let state = &trial.cabinet.state;
        let line = format!("f {} {}", state.disks, state.blocks);
        let mut history = vec![line_of(&line, Reply::new(Answer::DONE, state, 0))];
        let mut failed = trial.failing_in_state(&[claim]);
        for (step, supply) in steps.into_iter().rev() {
            let call = step.call(&trial.cabinet.state, supply);
            let line = call.line(&trial.cabinet.state);
            let (after, outcome) = trial.after(&call, &GIVEN, &[claim]);
            trial = after;
            failed = outcome.failed.or_else(|| trial.failing_in_state(&[claim]));
            let reply = Reply::to_call(&call, outcome.answer, &trial.cabinet.state, &outcome.output);
            history.push(match outcome.told {
                Some(diagnosis) => line_of(&line, diagnosis),
                None => line_of(&line, reply),
            });
        }
        assert_eq!(failed, Some(claim), "the history fails when it is run anew");
        Failure { claim, history }
    }
}

/// A line of a history with its reply.
fn line_of(line: &str, reply: impl Display) -> String {
    format!("{line:<9} -> {reply}")
}

impl Step {
    /// Whether the step is made in this state. A return does not look at what a disk in reach shows: there the stored
    /// label and no byte at all stand for all bytes.
    fn is_due(self, state: &State) -> bool {
        match self {
            Step::Return { disk, shown } => !state.reach.has(disk) || [Shown::Stored, Shown::Nothing].contains(&shown),
            _ => true,
        }
    }

    /// The call of this step in this state.
    fn call(self, state: &State, supply: u16) -> Call {
        match self {
            Step::Read { block } => Call::Read {
                block: block.into(),
                supply,
            },
            Step::Write { block, byte } => Call::Write {
                block: block.into(),
                data: vec![byte; BLOCK],
                supply,
            },
            Step::Join { disk } => Call::Join {
                disk: disk.into(),
                supply,
            },
            Step::Quiet => Call::Quiet { supply },
            Step::Restart => Call::Restart { supply },
            Step::Lose { disk } => Call::Lose { disk: disk.into() },
            Step::Return { disk, shown } => Call::Return {
                disk: disk.into(),
                shown: shown.bytes(state, disk.into()),
            },
            Step::Cut => Call::Cut,
            Step::Diagnose { stage, disk } => Call::Diagnose { stage, disk },
            Step::Swap { disk } => Call::Swap {
                disk: disk.into(),
                supply,
            },
        }
    }
}

/// The steps on n disks of b blocks: every block, disk and stage that exists, and one that does not. The plainest come
/// first, so that of several shortest histories a plain one is found.
fn steps(n: u8, b: u8) -> Vec<Step> {
    let mut steps = vec![Step::Cut];
    for disk in 0..=n {
        steps.push(Step::Lose { disk });
        let shown = Shown::Stored;
        steps.push(Step::Return { disk, shown });
    }
    for block in 0..=b {
        steps.push(Step::Write { block, byte: 1 });
        steps.push(Step::Write { block, byte: 0 });
        steps.push(Step::Read { block });
    }
    for disk in 0..=n {
        steps.push(Step::Join { disk });
        steps.push(Step::Swap { disk });
    }
    steps.extend([Step::Quiet, Step::Restart]);
    let none = [(1, n.into()), (4, 0)];
    let diagnose = |(stage, disk)| Step::Diagnose { stage, disk };
    steps.extend(questions(n).chain(none).map(diagnose));
    for shown in others_shown(n) {
        steps.extend((0..n).map(|disk| Step::Return { disk, shown: *shown }));
    }
    steps
}

/// What a returned disk of n shows beside its stored label: of one or two, bytes of every other kind. Of three it shows
/// more bytes and none: a return compares the label of one disk alone, and all kinds would add nothing but time.
fn others_shown(n: u8) -> &'static [Shown] {
    let [_stored, others @ ..] = &Shown::ALL;
    match n {
        ..=2 => others,
        _ => &[Shown::StoredAndMore, Shown::Nothing],
    }
}
