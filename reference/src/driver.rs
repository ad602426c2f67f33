//! Splits input into lines and answers each. The input may come in pieces of any size.

use crate::mistakes::Rules;
use crate::program::{Program, LONGEST_LINE};
use std::io::{self, Read, Write};

/// The program, and the line that has begun.
pub struct Driver {
    program: Program,
    /// The bytes of a line that has no line feed yet: at most one more than a line may have, which suffices to know
    /// that it is too long.
    begun: Vec<u8>,
}

impl Driver {
    /// A driver of a program that follows these rules.
    pub fn new(rules: Rules) -> Driver {
        Driver {
            program: Program::new(rules),
            begun: Vec::new(),
        }
    }

    /// Takes a piece of the input, and answers each line that ends in it.
    pub fn feed(&mut self, piece: &[u8], output: &mut impl Write) -> io::Result<()> {
        let mut rest = piece;
        while let Some(end) = rest.iter().position(|&byte| byte == b'\n') {
            let line = &rest[..end];
            rest = &rest[end + 1..];
            if self.begun.is_empty() {
                writeln!(output, "{}", self.program.answer(line))?;
            } else {
                self.keep(line);
                self.answer_begun(output)?;
            }
        }
        self.keep(rest);
        Ok(())
    }

    /// "The last line may lack its line feed, and an end of input right after a line feed starts no line."
    pub fn finish(mut self, output: &mut impl Write) -> io::Result<()> {
        if self.begun.is_empty() {
            Ok(())
        } else {
            self.answer_begun(output)
        }
    }

    /// Keeps the bytes of a line that goes on.
    fn keep(&mut self, bytes: &[u8]) {
        let room = LONGEST_LINE + 1 - self.begun.len();
        self.begun.extend(bytes.iter().take(room));
    }

    /// Answers the line that was begun, which is over.
    fn answer_begun(&mut self, output: &mut impl Write) -> io::Result<()> {
        writeln!(output, "{}", self.program.answer(&self.begun))?;
        self.begun.clear();
        Ok(())
    }
}

/// Answers all lines of the input by the paper's rules. The input is read by blocks.
pub fn run(mut input: impl Read, mut output: impl Write) -> io::Result<()> {
    let mut driver = Driver::new(Rules::PAPER);
    let mut block = vec![0; 1 << 16];
    loop {
        match input.read(&mut block) {
            Ok(0) => break,
            Ok(count) => driver.feed(&block[..count], &mut output)?,
            Err(error) if error.kind() == io::ErrorKind::Interrupted => continue,
            Err(error) => return Err(error),
        }
    }
    driver.finish(&mut output)?;
    output.flush()
}

/// The whole output for a whole input, by these rules.
pub fn answers(rules: Rules, input: &[u8]) -> Vec<u8> {
    let (mut driver, mut output) = (Driver::new(rules), Vec::new());
    let fed = driver
        .feed(input, &mut output)
        .and_then(|()| driver.finish(&mut output));
    fed.expect("a vector takes every write");
    output
}
