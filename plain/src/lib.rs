//! The calls of document 01, and of document 02's requests 2.1 to 2.6, for speed: what an engineer writes who has the
//! papers and no proofs. The benchmark times the proved product beside it. It depends on neither the product nor the
//! reference; the differential tests hold it to both.
//!
//! It keeps the paper's method: the same stores in the same order, counted one by one. Stores of blocks that are
//! neighbours both in the list and in the area go to one copy. Numbers, states and buffers may be anything: what does
//! not fit is refused. Nothing is allocated, and every index is checked.

#![no_std]
#![forbid(unsafe_code)]
#![warn(missing_docs)]

mod answer;
mod diagnosis;
mod fresh;
mod label;
mod naming;
mod reach;
pub mod refusal;
mod restart;
mod running;
mod sets;
mod slots;
mod state;
mod stores;
mod swap;

pub use answer::Answer;
pub use diagnosis::{diagnose, Diagnosis};
pub use fresh::fresh;
pub use label::{read_label, write_label, Reading};
pub use reach::{cut, give_back, lose};
pub use restart::restart;
pub use running::{join, quiet, read, write};
pub use slots::{assemble, save};
pub use state::{Label, State, BLOCK, SLOT};
pub use swap::swap;
