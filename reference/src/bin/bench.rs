//! `bench PROGRAM_A PROGRAM_B [LINES]` runs two cabinet programs on the same session, alternating, and prints the
//! median time of each and their ratio. The outputs must be equal.

#![forbid(unsafe_code)]

use reference::session::Session;
use std::fs::{self, File};
use std::io::{self, BufWriter, Write};
use std::path::{Path, PathBuf};
use std::process::{Command, ExitCode};
use std::time::{Duration, Instant};

/// The runs of each program.
const RUNS: usize = 5;
/// The lines of the session unless told.
const LINES: usize = 1_000_000;
/// The seed of the session.
const SEED: u64 = 20_010;

fn main() -> ExitCode {
    let arguments: Vec<String> = std::env::args().skip(1).collect();
    let (programs, lines) = match arguments.as_slice() {
        [a, b] => ([a, b], Some(LINES)),
        [a, b, lines] => ([a, b], lines.parse().ok()),
        _ => return usage(),
    };
    let Some(lines) = lines else {
        return usage();
    };
    match bench(programs.map(Path::new), lines) {
        Ok(()) => ExitCode::SUCCESS,
        Err(error) => {
            eprintln!("bench: {error}");
            ExitCode::FAILURE
        }
    }
}

fn usage() -> ExitCode {
    eprintln!("usage: bench PROGRAM_A PROGRAM_B [LINES]");
    ExitCode::from(2)
}

/// A file in the folder for temporary ones, which is removed at the end.
struct Temporary(PathBuf);

impl Temporary {
    fn new(name: &str) -> Temporary {
        let name = format!("cabinet-bench-{}-{name}", std::process::id());
        Temporary(std::env::temp_dir().join(name))
    }
}

impl Drop for Temporary {
    fn drop(&mut self) {
        // It may not have been made; then there is nothing to remove.
        let _ = fs::remove_file(&self.0);
    }
}

fn bench(programs: [&Path; 2], lines: usize) -> io::Result<()> {
    let input = Temporary::new("input");
    write_session(&input.0, lines)?;
    let outputs = [Temporary::new("a"), Temporary::new("b")];
    let mut times = [Vec::new(), Vec::new()];
    for _ in 0..RUNS {
        for which in 0..2 {
            times[which].push(run(programs[which], &input.0, &outputs[which].0)?);
        }
        if fs::read(&outputs[0].0)? != fs::read(&outputs[1].0)? {
            return Err(io::Error::other("the two outputs differ"));
        }
    }
    let [a, b] = times.map(median);
    println!("{lines} lines, {RUNS} runs each, outputs equal");
    for (program, time) in programs.iter().zip([a, b]) {
        println!("{:.3} s  {}", time.as_secs_f64(), program.display());
    }
    println!("ratio {:.2}", a.as_secs_f64() / b.as_secs_f64());
    Ok(())
}

fn write_session(path: &Path, lines: usize) -> io::Result<()> {
    let mut file = BufWriter::new(File::create(path)?);
    let mut session = Session::new(SEED);
    for _ in 0..lines {
        writeln!(file, "{}", session.line())?;
    }
    file.flush()
}

/// The time of one run.
fn run(program: &Path, input: &Path, output: &Path) -> io::Result<Duration> {
    let (input, output) = (File::open(input)?, File::create(output)?);
    let start = Instant::now();
    let status = Command::new(program).stdin(input).stdout(output).status()?;
    let time = start.elapsed();
    if status.success() {
        Ok(time)
    } else {
        Err(io::Error::other(format!("{} ended with {status}", program.display())))
    }
}

/// The middle one of the times.
fn median(mut times: Vec<Duration>) -> Duration {
    times.sort();
    times[times.len() / 2]
}
