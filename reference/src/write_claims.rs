//! What document 01 says of a write: when it counts in the book, and how many stores it reports.

use crate::claims::Event;
use crate::lists;
use crate::mistakes::{Mistake, Rules};
use crate::refusal::{DONE, SUPPLY_ENDED};
use crate::store::Store;

/// One claim about writes.
#[derive(Clone, Copy, Debug, PartialEq, Eq)]
pub enum WriteClaim {
    /// Acknowledged writes count.
    AcknowledgedCounts,
    /// Cut writes count from the store on the lowest member of L on.
    CutCounts,
    /// The bound of a write, be it done, cut or refused: a stopped cabinet has no disk in L.
    Bound,
}

impl WriteClaim {
    /// The claim in words, as these rules have it.
    pub fn words(self, rules: Rules) -> String {
        match self {
            WriteClaim::AcknowledgedCounts => "a write that gives 0 counts in the book".to_string(),
            WriteClaim::CutCounts => {
                "a cut write counts exactly when its stores reach that on the lowest member of L".to_string()
            }
            WriteClaim::Bound => {
                let bound = bound(rules);
                format!("a write makes at most {bound} times as many stores as L has disks")
            }
        }
    }

    /// Whether the claim holds of this write.
    pub fn holds_of(self, event: &Event, block: u16) -> bool {
        let (result, stores) = (event.answer.result, event.answer.stores);
        match self {
            WriteClaim::AcknowledgedCounts => result != DONE || event.counted,
            WriteClaim::CutCounts => result != SUPPLY_ENDED || event.counted == (stores >= source_store(event, block)),
            WriteClaim::Bound => stores <= bound(event.after.rules) * event.before.state.live().size(),
        }
    }
}

/// "A write makes at most 4 times as many stores as L has disks."
fn bound(rules: Rules) -> usize {
    if rules.makes(Mistake::WriteBoundThree) {
        3
    } else {
        4
    }
}

/// The place in a write's list, from 1, of the block store on the lowest member of L: it is the first block store.
fn source_store(event: &Event, block: u16) -> usize {
    let list = lists::write(event.after.rules, &event.before.state, block as u8, &[]);
    let before = list.iter().take_while(|store| !matches!(store, Store::Block { .. }));
    before.count() + usize::from(!event.after.rules.makes(Mistake::CutWriteCountsEarly))
}
