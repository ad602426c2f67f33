//! What the command line asks for: both parts from a seed, or one case again.

use crate::arbitrary::Arbitrary;
use crate::case::Case;
use crate::comparison::{run, Comparison, Source};
use crate::histories::Histories;
use crate::implementations::Implementation;
use reference::random::Random;
use std::io::{self, Write};

/// The seed, unless another one is given.
const SEED: u64 = 2001;

/// The calls of each part.
const CALLS: usize = 1_000_000;

/// The exit status of a run.
#[derive(Clone, Copy, Debug, PartialEq, Eq)]
pub enum Status {
    /// The implementations agree.
    Agreed = 0,
    /// They differ.
    Differed = 1,
    /// The words are no command.
    Misused = 2,
}

/// Runs the command of these words on the implementations.
pub fn command(implementations: &[&dyn Implementation], words: &[&str], output: &mut dyn Write) -> io::Result<Status> {
    match words {
        [] => parts(implementations, SEED, output),
        ["case", line] => match Case::from_line(line) {
            Some(case) => again(implementations, case, output),
            None => misused(output),
        },
        [seed] => match seed.parse() {
            Ok(seed) => parts(implementations, seed, output),
            Err(_) => misused(output),
        },
        _ => misused(output),
    }
}

/// Says what the commands are.
fn misused(output: &mut dyn Write) -> io::Result<Status> {
    writeln!(output, "usage: differential [SEED], or differential case 'LINE'")?;
    Ok(Status::Misused)
}

/// Runs histories and arbitrary cases from the seed, up to the first difference.
fn parts(implementations: &[&dyn Implementation], seed: u64, output: &mut dyn Write) -> io::Result<Status> {
    writeln!(output, "seed {seed}")?;
    let mut histories = Histories::new(Random::new(seed));
    let mut arbitrary = Arbitrary(Random::new(!seed));
    let parts: [(&str, &mut dyn Source); 2] = [("histories", &mut histories), ("arbitrary", &mut arbitrary)];
    let mut calls = 0;
    for (name, source) in parts {
        match run(implementations, source, CALLS) {
            Ok(counts) => {
                write!(
                    output,
                    "{name}, each result with the number of calls that gave it:\n{counts}"
                )?;
                calls += counts.total();
            }
            Err(difference) => {
                write!(output, "{name}, the first difference:\n{difference}")?;
                return Ok(Status::Differed);
            }
        }
    }
    writeln!(output, "{calls} calls, 0 differences")?;
    Ok(Status::Agreed)
}

/// Runs one case.
fn again(implementations: &[&dyn Implementation], case: Case, output: &mut dyn Write) -> io::Result<Status> {
    let comparison = Comparison::of(implementations, case);
    write!(output, "{comparison}")?;
    Ok(match comparison.agreed() {
        Some(_) => Status::Agreed,
        None => Status::Differed,
    })
}
