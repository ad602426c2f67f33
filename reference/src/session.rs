//! Random sessions of the cabinet program: a fixed mix of all commands, most lines good.

use crate::mistakes::Rules;
use crate::program::Program;
use crate::random::Random;
use crate::state::State;

/// A session that is being made. It runs the program beside, so that its lines fit the state: a stopped cabinet gets
/// more restarts and a running one more reads and writes.
pub struct Session {
    random: Random,
    program: Program,
}

/// What a line is about, each with its share of a hundred, for a running and for a stopped cabinet.
const MIX: [(Kind, usize, usize); 10] = [
    (Kind::Read, 26, 4),
    (Kind::Write, 32, 4),
    (Kind::Lose, 7, 8),
    (Kind::Return, 10, 22),
    (Kind::Join, 10, 4),
    (Kind::Quiet, 6, 3),
    (Kind::Cut, 4, 3),
    (Kind::Restart, 2, 48),
    (Kind::Fresh, 1, 1),
    (Kind::Bad, 2, 3),
];

/// The kinds of lines.
#[derive(Clone, Copy)]
enum Kind {
    Read,
    Write,
    Lose,
    Return,
    Join,
    Quiet,
    Cut,
    Restart,
    Fresh,
    Bad,
}

/// Lines that are no commands.
const BAD: [&str; 12] = [
    "",
    " ",
    "z 1",
    "w 0 256 1",
    "g",
    "g 1",
    "s 65536",
    "x  1",
    "c ",
    "q -1",
    "J 0 9",
    "g 000001 9",
];

impl Session {
    /// A session from this seed. Its first line is a fresh.
    pub fn new(seed: u64) -> Session {
        Session {
            random: Random::new(seed),
            program: Program::new(Rules::PAPER),
        }
    }

    /// The next line, without its line feed.
    pub fn line(&mut self) -> String {
        let kind = if *self.program.state() == State::ZERO {
            Kind::Fresh
        } else {
            self.kind()
        };
        let line = self.line_of(kind);
        self.program.answer(line.as_bytes());
        line
    }

    /// A kind, by the mix.
    fn kind(&mut self) -> Kind {
        let is_stopped = self.program.state().is_stopped();
        let share = |(kind, running, stopped)| (kind, if is_stopped { stopped } else { running });
        self.random.pick_by_share(&MIX.map(share))
    }

    /// A line of this kind.
    fn line_of(&mut self, kind: Kind) -> String {
        match kind {
            Kind::Read => {
                let block = self.block();
                format!("g {block} {}", self.supply())
            }
            Kind::Write => {
                let (block, value) = (self.block(), self.random.byte());
                format!("w {block} {value} {}", self.supply())
            }
            Kind::Lose => format!("x {}", self.disk()),
            Kind::Return => format!("r {}", self.lost_disk()),
            Kind::Join => {
                let disk = self.disk();
                format!("j {disk} {}", self.supply())
            }
            Kind::Quiet => format!("q {}", self.supply()),
            Kind::Cut => "c".to_string(),
            Kind::Restart => format!("s {}", self.supply()),
            Kind::Fresh => self.fresh(),
            Kind::Bad => self.random.pick(&BAD).to_string(),
        }
    }

    /// A fresh, now and then a refused one.
    fn fresh(&mut self) -> String {
        let (mut n, mut b) = (self.random.between(1, 8), self.random.between(1, 64));
        if self.random.percent(50) {
            b = self.random.between(1, 12);
        }
        if self.random.percent(10) {
            (n, b) = self.random.pick(&[(0, 1), (9, 1), (1, 0), (8, 65), (65535, 65535)]);
        }
        format!("f {n} {b}")
    }

    /// A block, most often one of the first few or one that exists.
    fn block(&mut self) -> u16 {
        let blocks = u16::from(self.program.state().blocks).max(1);
        match self.random.below(100) {
            0..=1 => blocks,
            2 => self.random.pick(&[64, 256, 65535]),
            3..=60 => self.random.between(0, blocks.min(3) - 1),
            _ => self.random.between(0, blocks - 1),
        }
    }

    /// A disk, most often one that exists.
    fn disk(&mut self) -> u16 {
        let disks = u16::from(self.program.state().disks).max(1);
        match self.random.below(100) {
            0..=1 => disks,
            2 => self.random.pick(&[8, 256, 65535]),
            _ => self.random.between(0, disks - 1),
        }
    }

    /// A disk, most often one that is out of reach.
    fn lost_disk(&mut self) -> u16 {
        let state = self.program.state();
        let lost: Vec<u8> = state.lost().members().collect();
        if lost.is_empty() || self.random.percent(40) {
            self.disk()
        } else {
            self.random.pick(&lost).into()
        }
    }

    /// A supply, most often one that suffices.
    fn supply(&mut self) -> u16 {
        match self.random.below(100) {
            0..=17 => self.random.between(0, 30),
            18..=20 => self.random.between(0, 600),
            _ => self.random.pick(&[999, 9999, 65535]),
        }
    }
}
