//! A cabinet of mirrored disks that knows, after any power cut, which disks are current: the proved library, for Rust.
//!
//! # What a cabinet is
//!
//! Up to 8 disks hold the same blocks of 64 bytes. A disk may be pulled while the cabinet runs; it then misses what is
//! written, and must not be believed when it comes back. So each disk has a [`Label`], which names the set of disks
//! that was current when the disk was last one of them. After the power went, a [restart](Cabinet::restart) finds the
//! current set from the labels of the disks in reach, or refuses: it never takes an old block for a new one.
//!
//! A [`Cabinet`] has all disks in one buffer, the disk area, and a state with their labels. Its calls change both,
//! store by store, and the power may go after any store. `budget` says after how many: in a program it is a way to try
//! a cut, or simply a number that is large enough. No call has more than 520 stores to make, so [`u16::MAX`] is.
//!
//! # From format to a restart after a cut
//!
//! ```
//! use cabinet::{area_length, Cabinet, Error, Refusal, BLOCK_SIZE};
//!
//! // Three disks of 8 blocks. The area may be a vector, an array or a slice.
//! let mut cabinet = Cabinet::format(3, 8, vec![0; area_length(3, 8).unwrap()])?;
//! cabinet.write(0, &[7; BLOCK_SIZE], 99)?;
//!
//! // Disk 2 is pulled. The next write moves to disks 0 and 1, which takes 4 stores. The block's region is still marked
//! // as being written, so the fifth store is the block on disk 0. There it is cut: disk 1 has the old block.
//! cabinet.detach(2)?;
//! let cut = cabinet.write(0, &[8; BLOCK_SIZE], 5).unwrap_err();
//! assert_eq!((cut.refusal, cut.stores), (Refusal::PowerLost, 5));
//! assert!(cabinet.current().is_empty());
//!
//! // The restart names disks 0 and 1, and copies the region that was being written.
//! cabinet.restart(99)?;
//! assert_eq!(cabinet.current().to_string(), "{0, 1}");
//! let mut block = [0; BLOCK_SIZE];
//! cabinet.read(0, &mut block, 99)?;
//! assert_eq!(block, [8; BLOCK_SIZE]);
//!
//! // A call that is refused, and not cut, says so by number and reason, and changes nothing.
//! let refused = cabinet.restart(99).unwrap_err();
//! assert_eq!(refused.to_string(), "refused with 7: the cabinet is running");
//! # Ok::<(), Error>(())
//! ```
//!
//! [`Cabinet::attach`] has a disk that comes back, [`Cabinet::swap`] one that is replaced, [`Cabinet::diagnose`] tells
//! why a restart found no set. To keep a cabinet beyond the program, keep its [area](Cabinet::area) and its labels
//! ([`Cabinet::save`]), and put them together again ([`Cabinet::assemble`]).
//!
//! # What is proved
//!
//! The library is written in Rattle, and each function is proved, for any state, any buffers and any numbers, to give
//! exactly what the definition of its call says: the refusal, the stores made, the state and every byte of the buffers,
//! after a cut too. Of the definitions it is proved that for any calls from a format on, the power going after any
//! store: each finished restart names disks that all hold the right blocks; none finds two sets; and a restart with
//! every disk in reach finds one, and finishes if the budget is enough. The right blocks are those of the writes that
//! were done; a cut write counts once its block is on the lowest of the disks that it goes to. Saving and assembling
//! are apart: what was saved assembles to the cabinet after a power cut.
//!
//! Not proved is this crate: that it declares the functions as they are, and hands on what it is given and gets. All
//! its unsafe code is in one module. Nothing is allocated, and only `core` is used. And not covered is a process that
//! dies inside a call: the area may have changed, and the labels that go with it are lost. Keep area and slots of the
//! same moment, after a call.
//!
//! # By value
//!
//! [`State`] has the same calls by value: each takes a state and yields an [`Answer`] with the next one. They are for
//! those who keep the state elsewhere, and take any state whatever. That a state is the last one no call can check.

#![no_std]
#![deny(unsafe_code)]
#![deny(unsafe_op_in_unsafe_fn)]
#![warn(missing_docs)]

mod answer;
mod cabinet;
#[allow(unsafe_code)]
mod calls;
mod diagnosis;
mod disk_set;
mod error;
mod label;
mod refusal;
mod state;

pub use answer::Answer;
pub use cabinet::Cabinet;
pub use diagnosis::{Diagnosis, Reason};
pub use disk_set::{DiskSet, Members};
pub use error::Error;
pub use label::{Label, Reading, Written};
pub use refusal::Refusal;
pub use state::{area_length, slots_length, State, BLOCK_SIZE, MOST_BLOCKS, MOST_DISKS, SLOT_SIZE};
