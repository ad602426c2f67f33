//! An independent implementation of document 01, *The cohort-set disk cabinet*, and of document 02's requests 2.1
//! to 2.6.
//!
//! It is written from the papers and shares no code, table or layout with the proved product. It is meant to be read
//! beside the paper: each rule stands once, at a place named in the paper's terms, and the comments give the paper's
//! sentence. The restart searches all sets, as the definition says, and does not try to be fast.

#![forbid(unsafe_code)]

pub mod bay;
pub mod book;
pub mod cabinet;
pub mod call;
pub mod claims;
pub mod corpus;
pub mod definitions;
pub mod diagnosis;
pub mod driver;
pub mod explorer;
pub mod files;
pub mod join_claims;
pub mod label;
pub mod lists;
pub mod loss_claims;
pub mod mistakes;
pub mod naming;
pub mod order_claim;
pub mod packing;
pub mod program;
pub mod quiet_claims;
pub mod random;
pub mod read_claims;
pub mod refusal;
pub mod refutation;
pub mod restart_claims;
pub mod return_claims;
pub mod session;
pub mod sets;
pub mod shown;
pub mod slots;
pub mod small_states;
pub mod sound_states;
pub mod state;
pub mod store;
pub mod swap_claims;
pub mod trial;
pub mod write_claims;
