//! What document 01 says of the loss of a disk and of the power: "Lose, return and cut change only R or the power
//! condition. Losing a lost disk, returning one in reach and cutting a stopped cabinet are done, with no effect."

use crate::cabinet::{Answer, Cabinet};
use crate::call::Call;
use crate::claims::Event;
use crate::mistakes::{Mistake, Rules};
use crate::shown::Shown;
use crate::state::State;

/// One claim about losses.
#[derive(Clone, Copy, Debug, PartialEq, Eq)]
pub enum LossClaim {
    /// Losing a lost disk.
    OfLostDisk,
    /// Cutting a stopped cabinet.
    OfLostPower,
    /// A loss changes R by its disk alone, which the return gives back: "a lost disk comes back unaltered". A claim
    /// about states.
    Undone,
}

impl LossClaim {
    /// The claim in words, as these rules have it.
    pub fn words(self, rules: Rules) -> &'static str {
        match self {
            LossClaim::OfLostDisk if rules.makes(Mistake::LoseChangesNothing) => {
                "losing a disk in reach gives 0 without a store, and changes nothing"
            }
            LossClaim::OfLostPower if rules.makes(Mistake::CutChangesNothing) => {
                "cutting any cabinet gives 0 without a store, and changes nothing"
            }
            LossClaim::Undone if rules.makes(Mistake::LossUndoneUnseen) => {
                "a loss of a disk in reach and its return, whatever it shows, leave the cabinet as it was"
            }
            LossClaim::OfLostDisk => "losing a lost disk gives 0 without a store, and changes nothing",
            LossClaim::OfLostPower => "cutting a stopped cabinet gives 0 without a store, and changes nothing",
            LossClaim::Undone => {
                "a loss of a disk in reach and its return with the stored label, \
                 also with a byte behind it, leave the cabinet as it was"
            }
        }
    }

    /// Whether the claim holds of this loss of a disk or this cut.
    pub fn holds_of(self, event: &Event) -> bool {
        let rules = event.after.rules;
        let is_meant = match (self, event.call) {
            (LossClaim::OfLostDisk, Call::Lose { disk }) if rules.makes(Mistake::LoseChangesNothing) => {
                event.was_in_reach(*disk)
            }
            (LossClaim::OfLostDisk, Call::Lose { disk }) => event.was_lost(*disk),
            (LossClaim::OfLostPower, Call::Cut) => {
                event.before.state.is_stopped() || rules.makes(Mistake::CutChangesNothing)
            }
            _ => false,
        };
        !is_meant || has_no_effect(event)
    }

    /// Whether the claim about states holds in this one.
    pub fn holds_in(self, rules: Rules, state: &State) -> bool {
        let shows = match rules.makes(Mistake::LossUndoneUnseen) {
            true => &[Shown::Nothing][..],
            false => &[Shown::Stored, Shown::StoredAndMore],
        };
        let is_undone = |disk: u8| {
            shows
                .iter()
                .all(|shown| loss_is_undone(rules, state, disk.into(), *shown))
        };
        match self {
            LossClaim::Undone => state.reach.members().all(is_undone),
            _ => true,
        }
    }
}

/// "Done, with no effect."
fn has_no_effect(event: &Event) -> bool {
    event.answer == Answer::DONE && event.after == event.before
}

/// Loses the disk and returns it. Neither call takes the disk area, so none is here.
fn loss_is_undone(rules: Rules, state: &State, disk: u16, shown: Shown) -> bool {
    let mut cabinet = Cabinet {
        rules,
        state: *state,
        area: Vec::new(),
    };
    let bytes = shown.bytes(state, disk);
    let answers = [cabinet.lose(disk), cabinet.give_back(disk, &bytes)];
    answers == [Answer::DONE; 2] && cabinet.state == *state
}
