//! The proved cabinet, the reference and plain Rust on the same calls: result, count of stores, state and every buffer
//! must be equal.

#![forbid(unsafe_code)]
#![warn(missing_docs)]

pub mod arbitrary;
pub mod arguments;
pub mod case;
pub mod command;
pub mod comparison;
pub mod counts;
pub mod histories;
pub mod implementations;
pub mod line;
pub mod state_bytes;
pub mod states;
pub mod word;
