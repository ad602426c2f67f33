//! 'Which set a restart names.'

use crate::label::Label;
use crate::mistakes::{Mistake, Rules};
use crate::sets::DiskSet;

/// What the stages yield.
#[derive(Clone, Copy, Debug, PartialEq, Eq)]
pub enum Found {
    /// "No candidate in any stage is 13."
    None,
    /// "One candidate is the set."
    One(DiskSet),
    /// "More than one is refused with 14."
    Several,
}

/// The three stages.
#[derive(Clone, Copy, Debug, PartialEq, Eq)]
pub enum Stage {
    /// "Every member has T = X."
    First,
    /// "Every member has T = X or C = X, and some member has T = X."
    Second,
    /// "Every member has C = X."
    Third,
}

/// The stages in their order.
pub const STAGES: [Stage; 3] = [Stage::First, Stage::Second, Stage::Third];

impl Stage {
    /// The stage of this number, from 1.
    pub fn numbered(number: u32) -> Option<Stage> {
        let place = number.checked_sub(1)?;
        STAGES.get(place as usize).copied()
    }

    /// Whether a member's label is as the stage asks of every member of X.
    pub fn is_backed_by(self, label: &Label, x: DiskSet) -> bool {
        let (proposes, has_committed) = (label.tentative == x, label.committed == x);
        match self {
            Stage::First => proposes,
            Stage::Second => proposes || has_committed,
            Stage::Third => has_committed,
        }
    }

    /// Whether "some member has T = X", if the stage asks it.
    pub fn is_proposed(self, rules: Rules, labels: &[Label; 8], x: DiskSet) -> bool {
        let asks = self == Stage::Second && !rules.makes(Mistake::StageTwoWithoutProposal);
        !asks || x.members().any(|d| labels[d as usize].tentative == x)
    }
}

/// The set that a restart names: a search over all sets X inside R in each stage. "The first stage with a candidate
/// decides."
pub fn named(rules: Rules, labels: &[Label; 8], reach: DiskSet) -> Found {
    if rules.makes(Mistake::RestartNamesAll) {
        return Found::One(reach);
    }
    if rules.makes(Mistake::RestartRefusesAlways) {
        return Found::None;
    }
    decide(rules, |stage| {
        let fits = |x: &DiskSet| is_candidate(rules, stage, labels, reach, *x);
        reach.sets_inside().filter(fits).collect()
    })
}

/// The same by a test of the listed sets alone, with R inside n. A claim compares it with the definition.
pub fn found_in_lists(rules: Rules, disks: u8, labels: &[Label; 8], reach: DiskSet) -> Found {
    decide(rules, |stage| {
        let mut sets = sets_to_test(rules, stage, disks, labels);
        sets.retain(|x| x.inside(reach) && is_candidate(rules, stage, labels, reach, *x));
        sets
    })
}

/// "List for each stage at most n sets to test" (request 2.4): one set a disk, ascending, since a candidate of a stage
/// is that set of one of its members. Each stands once, at the lowest disk that has it. A candidate is not empty.
pub fn sets_to_test(rules: Rules, stage: Stage, disks: u8, labels: &[Label; 8]) -> Vec<DiskSet> {
    let left_out = usize::from(rules.makes(Mistake::ListMissesLastDisk));
    let listed = usize::from(disks).saturating_sub(left_out);
    let mut sets = Vec::new();
    for label in labels.iter().take(listed) {
        let set = set_to_test(rules, stage, label);
        let is_listed = sets.contains(&set) && !rules.makes(Mistake::ListRepeatsSets);
        if !set.is_empty() && !is_listed {
            sets.push(set);
        }
    }
    sets
}

/// The one set of a disk that is tested in a stage: T in the first two and C in the third.
fn set_to_test(rules: Rules, stage: Stage, label: &Label) -> DiskSet {
    match stage {
        Stage::Third if !rules.makes(Mistake::FinderMissesCommitted) => label.committed,
        _ => label.tentative,
    }
}

/// "The first stage with a candidate decides: one candidate is the set, more than one is refused."
fn decide(rules: Rules, candidates: impl Fn(Stage) -> Vec<DiskSet>) -> Found {
    for stage in STAGES {
        if stage == Stage::Second && rules.makes(Mistake::FallbackToCommitted) {
            continue;
        }
        match candidates(stage).as_slice() {
            [] => continue,
            [set] => return Found::One(*set),
            several if rules.makes(Mistake::LargerSet) => return largest(several),
            _ => return Found::Several,
        }
    }
    Found::None
}

/// A mistake's choice: the largest of several sets, and of those of one size the last.
fn largest(sets: &[DiskSet]) -> Found {
    let largest = sets.iter().copied().max_by_key(|x| x.size());
    largest.map_or(Found::None, Found::One)
}

/// Whether X is a candidate in this stage: it is not empty, and its members' labels are as the stage asks.
fn is_candidate(rules: Rules, stage: Stage, labels: &[Label; 8], reach: DiskSet, x: DiskSet) -> bool {
    let backs = |d: u8| stage.is_backed_by(&labels[d as usize], x);
    let backed = if rules.makes(Mistake::LargerSet) {
        x.members().any(backs)
    } else {
        !x.is_empty() && x.members().all(backs)
    };
    let outvoted = rules.makes(Mistake::Majority) && 2 * x.size() <= reach.size();
    backed && stage.is_proposed(rules, labels, x) && !outvoted
}
