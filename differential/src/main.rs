//! The command: see `command`.

use differential::command::command;
use differential::implementations::{Plain, Proved, Reference};
use reference::mistakes::Rules;
use std::process::ExitCode;
use std::{env, io};

fn main() -> io::Result<ExitCode> {
    let words: Vec<String> = env::args().skip(1).collect();
    let words: Vec<&str> = words.iter().map(String::as_str).collect();
    let all = [&Proved as _, &Reference(Rules::PAPER) as _, &Plain as _];
    let status = command(&all, &words, &mut io::stdout())?;
    Ok(ExitCode::from(status as u8))
}
