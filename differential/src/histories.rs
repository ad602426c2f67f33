//! Random histories: from a fresh on, each call on the state and the area that the last one left.

use crate::arguments::{blocks, byte, bytes, call_on, disks, number};
use crate::case::{Call, Case};
use crate::comparison::Source;
use crate::implementations::Outcome;
use plain::State;
use reference::random::Random;
use reference::state::BLOCK;

/// Bad numbers and lengths, of a hundred.
const BAD: usize = 3;

/// The calls of a history, at most.
const LONGEST: usize = 400;

/// The calls with their shares of a hundred, of a running and of a stopped cabinet. An assemble follows its save.
const MIX: [(Call, usize, usize); 12] = [
    (Call::Read, 14, 3),
    (Call::Write, 29, 4),
    (Call::Join, 11, 3),
    (Call::Swap, 4, 1),
    (Call::Quiet, 7, 3),
    (Call::Restart, 3, 39),
    (Call::Lose, 12, 8),
    (Call::Return, 9, 24),
    (Call::Cut, 6, 3),
    (Call::Diagnose, 1, 6),
    (Call::Save, 3, 6),
    (Call::Fresh, 1, 1),
];

/// The source of these cases.
pub struct Histories {
    random: Random,
    state: State,
    area: Vec<u8>,
    /// The call whose outcome comes next.
    call: Call,
    /// The slots of the last call, if it was a done save.
    saved: Option<Vec<u8>>,
    /// The calls before the next history begins.
    left: usize,
}

impl Source for Histories {
    fn next_case(&mut self) -> Case {
        let case = match self.saved.take() {
            Some(slots) => self.assemble(slots),
            None if self.left == 0 => self.beginning(),
            None => self.call_by_mix(),
        };
        self.left = self.left.saturating_sub(1);
        self.call = case.call;
        case
    }

    /// "Refused, they yield one that is all zero and stopped, and the program then keeps the one it had."
    fn follow(&mut self, outcome: &Outcome) {
        if self.call.takes_area() {
            self.area.clone_from(&outcome.area);
        }
        if self.call.takes_state() || outcome.result == 0 {
            self.state = outcome.state;
        }
        if self.call == Call::Save && outcome.result == 0 {
            self.saved = Some(outcome.buffer.clone());
        }
    }
}

impl Histories {
    /// Histories by these random numbers.
    pub fn new(random: Random) -> Histories {
        Histories {
            random,
            state: State::default(),
            area: Vec::new(),
            call: Call::Fresh,
            saved: None,
            left: 0,
        }
    }

    /// A fresh, which begins a history: of another size, on an area with anything in it.
    fn beginning(&mut self) -> Case {
        let random = &mut self.random;
        self.left = 1 + random.below(LONGEST);
        let (disks, blocks) = (disks(random), blocks(random));
        Case {
            disks,
            blocks,
            area: bytes(random, disks * blocks * BLOCK, 0),
            ..Case::new(Call::Fresh)
        }
    }

    /// A call on the state and the area that the last one left.
    fn call_by_mix(&mut self) -> Case {
        let call = self.call_of_mix();
        let area = if call.takes_area() {
            self.area.clone()
        } else {
            Vec::new()
        };
        match call {
            Call::Fresh => self.fresh(area),
            _ => call_on(&mut self.random, call, self.state, area, BAD),
        }
    }

    /// A fresh in the midst of a history.
    fn fresh(&mut self, area: Vec<u8>) -> Case {
        let (disks, blocks) = (self.state.disks.into(), self.state.blocks.into());
        Case {
            disks: number(&mut self.random, disks..=disks, 30),
            blocks: number(&mut self.random, blocks..=blocks, 30),
            area,
            ..Case::new(Call::Fresh)
        }
    }

    /// The call by the mix.
    fn call_of_mix(&mut self) -> Call {
        let is_stopped = self.state.current == 0;
        let share = |(call, running, stopped)| (call, if is_stopped { stopped } else { running });
        self.random.pick_by_share(&MIX.map(share))
    }

    /// An assemble of what was saved; mostly with the disks in reach that the cabinet has.
    fn assemble(&mut self, slots: Vec<u8>) -> Case {
        let (state, random) = (self.state, &mut self.random);
        Case {
            disks: state.disks.into(),
            blocks: state.blocks.into(),
            reach: byte(random, state.reach, 75),
            buffer: slots,
            ..Case::new(Call::Assemble)
        }
    }
}
