//! What document 01 and request 2.6 say of a return, as claims about the bytes that the disk shows and about R before
//! and after it.

use crate::claims::Event;
use crate::definitions::{self, Written};
use crate::label;
use crate::mistakes::{Mistake, Rules};
use crate::refusal::{DONE, LABEL_DIFFERS, LABEL_NUMBERS, NO_SUCH_REGION};
use crate::state::State;

/// One claim about returns.
#[derive(Clone, Copy, Debug, PartialEq, Eq)]
pub enum ReturnClaim {
    /// "The disk comes into reach only if they read as its stored label."
    TakesStoredOnly,
    /// A return changes R alone, by its disk alone, and only when it is done.
    ChangesReachAlone,
    /// "Returning a disk that is already in reach still has no effect and does not look at the bytes."
    InReachUnseen,
    /// The stored label is taken, "running or stopped", whatever follows it.
    TakesStored,
    /// "18 where its number or n is not this bay's, 22, then 25" of labels that can be read.
    OthersTold,
    /// "A returned disk that is in G is current again."
    CurrentAgain,
}

impl ReturnClaim {
    /// The claim in words, as these rules have it.
    pub fn words(self, rules: Rules) -> &'static str {
        match self {
            ReturnClaim::TakesStoredOnly => {
                "a return that gives 0 is of a disk in reach, or of one that shows the bytes of its stored label first"
            }
            ReturnClaim::ChangesReachAlone => {
                "a return that gives 0 leaves its disk in R and all else as it was, another one changes nothing"
            }
            ReturnClaim::InReachUnseen => "a return of a disk in reach gives 0 and changes nothing, whatever it shows",
            ReturnClaim::TakesStored => {
                "a return of a disk that shows its stored label gives 0, whatever bytes follow the label"
            }
            ReturnClaim::OthersTold => {
                "a return of a disk out of reach that shows a label of another number or n gives 18, \
                 else one with a dirty bit that names no region 22, else one that is not the stored label 25"
            }
            ReturnClaim::CurrentAgain if rules.makes(Mistake::ReturnedIsCurrent) => {
                "a return to a running cabinet that gives 0 leaves its disk in L and G as it was"
            }
            ReturnClaim::CurrentAgain if rules.makes(Mistake::ReturnedLeavesSet) => {
                "a return of a disk of G that gives 0 leaves G without it"
            }
            ReturnClaim::CurrentAgain => "a return of a disk of G that gives 0 leaves it in L and G as it was",
        }
    }

    /// Whether the claim holds of this return of a disk that shows these bytes. Three speak of sound states.
    pub fn holds_of(self, event: &Event, disk: u16, shown: &[u8]) -> bool {
        let (before, is_done) = (&event.before.state, event.answer.result == DONE);
        let was_in_reach = event.was_in_reach(disk);
        let is_unsound = || !definitions::is_sound(before);
        match self {
            ReturnClaim::TakesStoredOnly => !is_done || was_in_reach || begins_with_stored(before, disk, shown),
            ReturnClaim::ChangesReachAlone => changes_reach_alone(event, disk),
            ReturnClaim::InReachUnseen => !was_in_reach || is_done && event.after == event.before || is_unsound(),
            ReturnClaim::TakesStored => is_done || !begins_with_stored(before, disk, shown) || is_unsound(),
            ReturnClaim::OthersTold => was_in_reach || is_told_apart(event, disk, shown) || is_unsound(),
            ReturnClaim::CurrentAgain => !is_done || is_current_again(event, disk),
        }
    }
}

/// G is as it was, and if it has the disk, so has L.
fn is_current_again(event: &Event, disk: u16) -> bool {
    let (before, after) = (&event.before.state, &event.after.state);
    let becomes_current = !before.is_stopped() && event.after.rules.makes(Mistake::ReturnedIsCurrent);
    let is_current = becomes_current || event.was_current(disk);
    let leaves_set = event.after.rules.makes(Mistake::ReturnedLeavesSet);
    let is_as_said = match leaves_set {
        true => after.current() == before.current().without(disk as u8),
        false => after.live().has(disk as u8) && after.power == before.power,
    };
    !is_current || is_as_said
}

/// The first of the bytes are what the label writer writes for the disk's stored label. No other disk has one.
fn begins_with_stored(state: &State, disk: u16, shown: &[u8]) -> bool {
    let stored = state.labels.get(usize::from(disk));
    let written = stored.and_then(|label| label::written(disk, state.disks.into(), label).ok());
    written.is_some_and(|bytes| shown.starts_with(&bytes))
}

/// Of all that a cabinet has only R may be otherwise after the return, and only by its disk, if it gives 0.
fn changes_reach_alone(event: &Event, disk: u16) -> bool {
    let (before, after) = (&event.before.state, &event.after.state);
    let reach = match event.answer.result {
        DONE => before.reach.with(disk as u8),
        _ => before.reach,
    };
    let expected = State { reach, ..*before };
    (event.answer.stores, after) == (0, &expected) && event.after.area == event.before.area
}

/// A disk below n that shows a label which the writer wrote, and not the stored one, is refused by its number.
fn is_told_apart(event: &Event, disk: u16, shown: &[u8]) -> bool {
    let state = &event.before.state;
    let written = definitions::written(shown).filter(|_| disk < state.disks.into());
    let told = written.and_then(|written| number_of(state, disk, written));
    told.is_none_or(|number| event.answer.result == number)
}

/// The number of a label that differs from the one that disk d of this state has stored.
fn number_of(state: &State, disk: u16, written: Written) -> Option<u8> {
    let is_of_bay = (written.disk.into(), written.disks) == (disk, state.disks);
    let mut dirty = (0..8).filter(|r| written.label.dirty & 1 << r != 0);
    let conditions = [
        (LABEL_NUMBERS, !is_of_bay),
        (NO_SUCH_REGION, dirty.any(|r| 8 * r >= u16::from(state.blocks))),
        (LABEL_DIFFERS, written.label != state.labels[usize::from(disk)]),
    ];
    let first = conditions.into_iter().find(|(_, holds)| *holds);
    first.map(|(number, _)| number)
}
