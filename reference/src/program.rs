//! 'The cabinet program': from a line's bytes to its answer line.

use crate::cabinet::{Answer, Cabinet};
use crate::call::Call;
use crate::mistakes::Rules;
use crate::refusal::DONE;
use crate::state::{State, BLOCK};

/// The result of a line that is no command.
pub const BAD_LINE: u8 = 99;

/// The most bytes that a line may have before its line feed.
pub const LONGEST_LINE: usize = 32;

/// What a good line asks.
#[derive(Clone, Debug, PartialEq, Eq)]
pub enum Command {
    /// `f n b`.
    Fresh { n: u16, b: u16 },
    /// `r d`.
    Return { disk: u16 },
    /// Any other letter.
    Call(Call),
}

/// Reads a line, without its line feed. `None` is a bad one.
pub fn parse(line: &[u8]) -> Option<Command> {
    if line.len() > LONGEST_LINE {
        return None;
    }
    let mut words = line.split(|&byte| byte == b' ');
    let letter = words.next()?;
    let numbers = words.map(number).collect::<Option<Vec<u16>>>()?;
    let call = match (letter, numbers.as_slice()) {
        (b"f", &[n, b]) => return Some(Command::Fresh { n, b }),
        (b"r", &[disk]) => return Some(Command::Return { disk }),
        (b"x", &[disk]) => Call::Lose { disk },
        (b"c", &[]) => Call::Cut,
        (b"w", &[block, value @ ..=255, supply]) => Call::Write {
            block,
            data: vec![value as u8; BLOCK],
            supply,
        },
        (b"j", &[disk, supply]) => Call::Join { disk, supply },
        (b"q", &[supply]) => Call::Quiet { supply },
        (b"s", &[supply]) => Call::Restart { supply },
        (b"g", &[block, supply]) => Call::Read { block, supply },
        _ => return None,
    };
    Some(Command::Call(call))
}

/// "Numbers are decimal, 1 to 5 digits, at most 65,535."
fn number(word: &[u8]) -> Option<u16> {
    let is_number = (1..=5).contains(&word.len()) && word.iter().all(u8::is_ascii_digit);
    let value = |sum: u32, digit: &u8| sum * 10 + u32::from(digit - b'0');
    if is_number {
        u16::try_from(word.iter().fold(0, value)).ok()
    } else {
        None
    }
}

/// "Five decimal numbers, one space between: result, stores made, G (0 if stopped), R, and the first byte read (0
/// unless a read was done)."
#[derive(Clone, Copy, Debug, PartialEq, Eq)]
pub struct Reply {
    /// The result.
    pub result: u8,
    /// The stores made.
    pub stores: usize,
    /// G.
    pub current: u8,
    /// R.
    pub reach: u8,
    /// The first byte read.
    pub byte: u8,
}

impl Reply {
    /// The reply to a call that left this state.
    pub fn new(answer: Answer, state: &State, byte: u8) -> Reply {
        Reply {
            result: answer.result,
            stores: answer.stores,
            current: state.current().0,
            reach: state.reach.0,
            byte,
        }
    }

    /// The reply to a call of the list, with the first byte of a read that was done.
    pub fn to_call(call: &Call, answer: Answer, state: &State, output: &[u8]) -> Reply {
        let read = answer.result == DONE && matches!(call, Call::Read { .. });
        Reply::new(answer, state, if read { output[0] } else { 0 })
    }
}

impl std::fmt::Display for Reply {
    fn fmt(&self, f: &mut std::fmt::Formatter) -> std::fmt::Result {
        let (result, stores, byte) = (self.result, self.stores, self.byte);
        write!(f, "{result} {stores} {} {} {byte}", self.current, self.reach)
    }
}

/// The program: the cabinet that it keeps.
#[derive(Clone, Debug)]
pub struct Program {
    cabinet: Cabinet,
}

impl Program {
    /// "Before the first good `f` the state is all zero and calls give 1."
    pub fn new(rules: Rules) -> Program {
        let (state, area) = (State::ZERO, Vec::new());
        let cabinet = Cabinet { rules, state, area };
        Program { cabinet }
    }

    /// The state that it keeps.
    pub fn state(&self) -> &State {
        &self.cabinet.state
    }

    /// The answer to a line, given without its line feed.
    pub fn answer(&mut self, line: &[u8]) -> Reply {
        match parse(line) {
            None => self.reply(Answer::refused(BAD_LINE)),
            Some(Command::Fresh { n, b }) => self.fresh(n, b),
            Some(Command::Return { disk }) => self.give_back(disk),
            Some(Command::Call(call)) => self.call(&call),
        }
    }

    /// A refused fresh: "the program then keeps the one it had".
    fn fresh(&mut self, n: u16, b: u16) -> Reply {
        let answer = match Cabinet::fresh(self.cabinet.rules, n, b) {
            Ok(cabinet) => {
                self.cabinet = cabinet;
                Answer::DONE
            }
            Err(number) => Answer::refused(number),
        };
        self.reply(answer)
    }

    /// "The program's `r d` line shows the stored label" (request 2.6).
    fn give_back(&mut self, disk: u16) -> Reply {
        let call = Call::unaltered_return(self.state(), disk);
        self.call(&call)
    }

    /// Any call of the list.
    fn call(&mut self, call: &Call) -> Reply {
        let mut output = [0; BLOCK];
        let answer = self.cabinet.take(call, &mut output);
        Reply::to_call(call, answer, &self.cabinet.state, &output)
    }

    /// The reply to a line that makes no call of the list.
    fn reply(&self, answer: Answer) -> Reply {
        Reply::new(answer, &self.cabinet.state, 0)
    }
}
