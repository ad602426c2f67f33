//! Times each proved call beside the same call in plain Rust, and prints a table.

#![forbid(unsafe_code)]

mod chains;
mod copies;
mod rows;
mod sides;
mod timing;

use chains::Chain;
use rows::{Buffers, Row};
use sides::{PLAIN, PROVED};
use std::process::ExitCode;
use timing::{medians, CALLS, RUNS};

/// Rows with a ratio above this are named at the end.
const NOTABLE: f64 = 1.2;

fn main() -> ExitCode {
    match report() {
        Ok(()) => ExitCode::SUCCESS,
        Err(error) => {
            eprintln!("benchmark: {error}");
            ExitCode::FAILURE
        }
    }
}

fn report() -> Result<(), String> {
    print_heading();
    let mut notable = Vec::new();
    for row in rows::rows() {
        if print_row(&row)? > NOTABLE {
            notable.push(row.name);
        }
    }
    print_copies();
    print_chains();
    let names = match notable.as_slice() {
        [] => "none".to_string(),
        names => names.join("; "),
    };
    println!("\nRows above {NOTABLE}: {names}.");
    Ok(())
}

fn print_heading() {
    let cores = std::thread::available_parallelism().map_or(0, usize::from);
    println!("# The proved calls beside plain Rust\n");
    println!("Machine: {}, {cores} cores.", model());
    println!("Command, in the folder `benchmark`: `cargo run --release --offline --locked`.\n");
    println!(
        "8 disks of 64 blocks. A run is {CALLS} calls in a row, each on the state that the run began with, and its"
    );
    println!(
        "time is divided by {CALLS}. A number is the median of {RUNS} runs, in nanoseconds a call. The two sides take"
    );
    println!(
        "turns, run by run, on the same buffers. These are cleared by fresh and then written before the timing, so"
    );
    println!(
        "that pages are resident and caches warm. Before a row is timed, both sides have given the same answer and"
    );
    println!("left the same buffers.\n");
    println!("| call | stores | proved, ns | plain Rust, ns | ratio |");
    println!("| --- | ---: | ---: | ---: | ---: |");
}

/// The processor's name, where the system tells it.
fn model() -> String {
    let text = std::fs::read_to_string("/proc/cpuinfo").unwrap_or_default();
    let name = |line: &str| Some(line.strip_prefix("model name")?.split_once(": ")?.1.to_string());
    text.lines().find_map(name).unwrap_or("unknown processor".to_string())
}

/// Checks and times a row, and gives the ratio.
fn print_row(row: &Row) -> Result<f64, String> {
    let stores = check(row)?;
    let proved = |buffers: &mut Buffers| PROVED.run(row, buffers, CALLS).0;
    let plain = |buffers: &mut Buffers| PLAIN.run(row, buffers, CALLS).0;
    let [proved, plain] = medians(&mut Buffers::new(row.state), [&proved, &plain]);
    let ratio = proved / plain;
    println!("| {} | {stores} | {proved:.1} | {plain:.1} | {ratio:.2} |", row.name);
    Ok(ratio)
}

/// Both sides must give the same answer, with the row's result, and leave the same buffers. It gives the number of
/// stores.
fn check(row: &Row) -> Result<u16, String> {
    let mut by_proved = Buffers::new(row.state);
    let mut by_plain = by_proved.clone();
    let (_, proved) = PROVED.run(row, &mut by_proved, 1);
    let (_, plain) = PLAIN.run(row, &mut by_plain, 1);
    if proved != plain || proved.result() != row.result {
        return Err(format!("{}: proved {proved:?}, plain {plain:?}", row.name));
    }
    if by_proved != by_plain {
        return Err(format!("{}: the two sides leave different buffers", row.name));
    }
    Ok(proved.stores())
}

/// The longest restart again, beside copies of as many bytes.
fn print_copies() {
    let row = rows::longest_restart();
    let source = vec![1; copies::COPIES * rows::BLOCK_SIZE];
    let proved = |buffers: &mut Buffers| PROVED.run(&row, buffers, CALLS).0;
    let plain = |buffers: &mut Buffers| PLAIN.run(&row, buffers, CALLS).0;
    let whole = |buffers: &mut Buffers| copies::whole(&source, buffers, CALLS);
    let by_blocks = |buffers: &mut Buffers| copies::by_blocks(buffers, CALLS);
    let mut buffers = Buffers::new(row.state);
    let [proved, plain, whole, by_blocks] = medians(&mut buffers, [&proved, &plain, &whole, &by_blocks]);
    println!(
        "\nThe restart with all regions dirty, timed again by turns with `copy_from_slice` of as many bytes: proved"
    );
    println!("{proved:.1} ns, plain Rust {plain:.1} ns.\n");
    println!("| copy | ns | proved to copy | plain Rust to copy |");
    println!("| --- | ---: | ---: | ---: |");
    let one_call = format!("one of {} bytes", source.len());
    let block_calls = format!("{} of {} bytes", copies::COPIES, rows::BLOCK_SIZE);
    for (name, copy) in [(one_call, whole), (block_calls, by_blocks)] {
        println!("| {name} | {copy:.1} | {:.2} | {:.2} |", proved / copy, plain / copy);
    }
}

/// Calls one after the other, as a program makes them.
fn print_chains() {
    println!("\nEach call on the state that the last one left, by a `Cabinet` and in plain Rust:\n");
    println!("| chain | Cabinet, ns a call | plain Rust, ns | ratio |");
    println!("| --- | ---: | ---: | ---: |");
    for (name, chain) in [("read after read", Chain::Reads), ("write after write", Chain::Writes)] {
        let cabinet = |buffers: &mut Buffers| chains::of_cabinet(chain, buffers, CALLS);
        let plain = |buffers: &mut Buffers| chains::of_plain(chain, buffers, CALLS);
        let [cabinet, plain] = medians(&mut Buffers::new(rows::fresh()), [&cabinet, &plain]);
        println!("| {name} | {cabinet:.1} | {plain:.1} | {:.2} |", cabinet / plain);
    }
}
