//! The cabinet program by the reference: reads lines from standard input and answers each on standard output.

#![forbid(unsafe_code)]

use std::io::{self, BufWriter};

fn main() -> io::Result<()> {
    let output = BufWriter::with_capacity(1 << 16, io::stdout().lock());
    reference::driver::run(io::stdin().lock(), output)
}
