//! A label held against the bay that its disk is in: what assembling asks of each slot, and a return of what its disk
//! shows.

use crate::label::{self, Label};
use crate::mistakes::{Mistake, Rules};
use crate::refusal::{self, *};
use crate::state::State;

/// The label of disk d's bay that the bytes read as. "The label's own refusal; 18, its number or n is not this slot's;
/// 22, a dirty bit names no region", and so of a bay (request 2.6). Only the state's n and b are looked at.
pub fn label(rules: Rules, state: &State, disk: u8, bytes: &[u8]) -> Result<Label, u8> {
    let reading = label::read(bytes)?;
    let is_of_other_count = reading.disks != state.disks && !rules.makes(Mistake::BayIgnoresDiskCount);
    let names_no_region = (state.regions()..8).any(|r| reading.label.is_dirty(r));
    refusal::first(&[
        (LABEL_NUMBERS, reading.disk != disk || is_of_other_count),
        (NO_SUCH_REGION, names_no_region),
    ])?;
    Ok(reading.label)
}
