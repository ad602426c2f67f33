//! `session N SEED` prints a random session of N lines.

#![forbid(unsafe_code)]

use reference::session::Session;
use std::io::{self, BufWriter, Write};
use std::process::ExitCode;

fn main() -> ExitCode {
    let arguments: Option<Vec<u64>> = std::env::args().skip(1).map(|a| a.parse().ok()).collect();
    let Some(&[lines, seed]) = arguments.as_deref() else {
        eprintln!("usage: session N SEED");
        return ExitCode::from(2);
    };
    match print(lines, seed) {
        Ok(()) => ExitCode::SUCCESS,
        Err(error) => {
            eprintln!("session: {error}");
            ExitCode::FAILURE
        }
    }
}

fn print(lines: u64, seed: u64) -> io::Result<()> {
    let mut output = BufWriter::new(io::stdout().lock());
    let mut session = Session::new(seed);
    for _ in 0..lines {
        writeln!(output, "{}", session.line())?;
    }
    output.flush()
}
