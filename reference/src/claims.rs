//! What the paper claims of every list of calls: demand 3, and the claims that stand beside it.

use crate::book::Book;
use crate::cabinet::{Answer, Cabinet};
use crate::call::Call;
use crate::definitions;
use crate::diagnosis::{Diagnosis, Reason};
use crate::join_claims::JoinClaim;
use crate::lists;
use crate::loss_claims::LossClaim;
use crate::mistakes::Rules;
use crate::naming::{self, Found, STAGES};
use crate::order_claim;
use crate::quiet_claims::QuietClaim;
use crate::read_claims::ReadClaim;
use crate::refusal::*;
use crate::restart_claims::RestartClaim;
use crate::return_claims::ReturnClaim;
use crate::sets::DiskSet;
use crate::slots::{self, SLOT};
use crate::state::{Power, State};
use crate::swap_claims::SwapClaim;
use crate::write_claims::WriteClaim;
use std::collections::BTreeSet;

/// One claim.
#[derive(Clone, Copy, Debug, PartialEq, Eq)]
pub enum Claim {
    /// Demand 3: blocks after a finished restart.
    RestartedBlocks,
    /// Demand 3: no 14.
    NotSeveral,
    /// Demand 3: a restart with all disks in reach.
    RestartFinds,
    /// Soundness after each call.
    Sound,
    /// No call gives 1.
    NoneUnsound,
    /// Refusals change nothing.
    RefusedUnchanged,
    /// The order of the stores in each list.
    StoresInOrder,
    /// Members that are asked to join are told so.
    MembersTold,
    /// Saving and assembling.
    SavedAssembles,
    /// The stages name what the definition says.
    NamedAsDefined,
    /// The lists of sets to test are short. This and the next two are about any labels, and any R inside n.
    ListsShort,
    /// The lists of sets to test have every candidate.
    ListsComplete,
    /// The finder agrees with the definition.
    FinderAgrees,
    /// The test of soundness agrees with the definition; a claim about any state, not only reached ones.
    TestAgrees,
    /// The reason of a diagnosis is true and the earliest. This and the next three are about any state too.
    EarliestReason,
    /// A diagnosis says 'a candidate' of candidates only, and of all of them.
    CandidateTold,
    /// The set of a diagnosis is the one that a restart would find without the disk.
    OtherSet,
    /// Where a restart gives 13, a diagnosis says neither 'a candidate' nor that none proposes the set.
    MissingTold,
    /// What document 01 and request 2.3 say of a read.
    Read(ReadClaim),
    /// What document 01 says of a write.
    Write(WriteClaim),
    /// What document 01 says of a join.
    Join(JoinClaim),
    /// What document 01 says of a quiet.
    Quiet(QuietClaim),
    /// How many stores a restart reports.
    Restart(RestartClaim),
    /// What document 01 says of lose and cut.
    Loss(LossClaim),
    /// What request 2.5 says of a swap.
    Swap(SwapClaim),
    /// What request 2.6 says of a return.
    Return(ReturnClaim),
}

/// A call that was made: what was before it and what is after it.
pub struct Event<'a> {
    /// The cabinet before.
    pub before: &'a Cabinet,
    /// The call.
    pub call: &'a Call,
    /// The output that it was given, as it was before the call.
    pub given: &'a [u8],
    /// Its answer.
    pub answer: Answer,
    /// What it told, if it is a diagnosis.
    pub told: Option<Diagnosis>,
    /// That output after the call, if it is a read.
    pub output: &'a [u8],
    /// The cabinet after.
    pub after: &'a Cabinet,
    /// The book after.
    pub book: &'a Book,
    /// Whether the call is a write that counts in the book.
    pub counted: bool,
}

impl Event<'_> {
    /// Whether the disk was in G before the call. A stopped cabinet has no G.
    pub fn was_current(&self, disk: u16) -> bool {
        has(self.before.state.current(), disk)
    }

    /// Whether the disk was in reach before the call.
    pub fn was_in_reach(&self, disk: u16) -> bool {
        has(self.before.state.reach, disk)
    }

    /// Whether there is such a disk, and it was out of reach before the call.
    pub fn was_lost(&self, disk: u16) -> bool {
        has(self.before.state.lost(), disk)
    }

    /// Each disk but this one has the blocks that it had.
    pub fn other_blocks_stay(&self, disk: u16) -> bool {
        let state = &self.before.state;
        let mut others = (0..state.disks).filter(|d| u16::from(*d) != disk);
        others.all(|d| self.after.area[state.disk_range(d)] == self.before.area[state.disk_range(d)])
    }

    /// Of each of these disks and "each k below b, block k of d in the disk area equals block k of the book".
    pub fn hold_book(&self, disks: DiskSet) -> bool {
        let Cabinet { state, area, .. } = self.after;
        disks.members().all(|d| area[state.disk_range(d)] == self.book.blocks)
    }
}

/// Whether a disk, of whatever number, is in the set.
fn has(set: DiskSet, disk: u16) -> bool {
    set.members().any(|member| u16::from(member) == disk)
}

impl Claim {
    /// The claims about each state that is reached.
    pub const OF_STATES: [Claim; 8] = [
        Claim::Sound,
        Claim::SavedAssembles,
        Claim::NamedAsDefined,
        Claim::ListsShort,
        Claim::ListsComplete,
        Claim::FinderAgrees,
        Claim::TestAgrees,
        Claim::Loss(LossClaim::Undone),
    ];

    /// The claims about each call that is made, whichever it is. Those that follow are about one kind each.
    const OF_EVERY_CALL: [Claim; 3] = [Claim::NoneUnsound, Claim::RefusedUnchanged, Claim::StoresInOrder];

    /// The claims about each restart that is made.
    const OF_RESTARTS: [Claim; 5] = [
        Claim::RestartedBlocks,
        Claim::NotSeveral,
        Claim::RestartFinds,
        Claim::Restart(RestartClaim::Counts),
        Claim::Restart(RestartClaim::CutCounts),
    ];

    /// The claims about each read that is made.
    const OF_READS: [Claim; 5] = [
        Claim::Read(ReadClaim::YieldsBook),
        Claim::Read(ReadClaim::MakesStores),
        Claim::Read(ReadClaim::KeepsOutput),
        Claim::Read(ReadClaim::WithinReach),
        Claim::Read(ReadClaim::Moves),
    ];

    /// The claims about each write that is made.
    const OF_WRITES: [Claim; 3] = [
        Claim::Write(WriteClaim::AcknowledgedCounts),
        Claim::Write(WriteClaim::CutCounts),
        Claim::Write(WriteClaim::Bound),
    ];

    /// The claims about each join that is made.
    const OF_JOINS: [Claim; 6] = [
        Claim::MembersTold,
        Claim::Join(JoinClaim::KeepsMap),
        Claim::Join(JoinClaim::KeepsOtherBlocks),
        Claim::Join(JoinClaim::CopiesLowest),
        Claim::Join(JoinClaim::Moves),
        Claim::Join(JoinClaim::HoldsBook),
    ];

    /// The claims about each quiet that is made.
    const OF_QUIETS: [Claim; 4] = [
        Claim::Quiet(QuietClaim::Clears),
        Claim::Quiet(QuietClaim::Counts),
        Claim::Quiet(QuietClaim::KeepsSets),
        Claim::Quiet(QuietClaim::KeepsOthers),
    ];

    /// The claims about each loss of a disk and each cut that is made.
    const OF_LOSSES: [Claim; 1] = [Claim::Loss(LossClaim::OfLostDisk)];
    const OF_CUTS: [Claim; 1] = [Claim::Loss(LossClaim::OfLostPower)];

    /// The claims about each diagnosis that is made.
    pub const OF_DIAGNOSES: [Claim; 4] = [
        Claim::EarliestReason,
        Claim::CandidateTold,
        Claim::OtherSet,
        Claim::MissingTold,
    ];

    /// The claims about each swap that is made.
    const OF_SWAPS: [Claim; 6] = [
        Claim::Swap(SwapClaim::Blanks),
        Claim::Swap(SwapClaim::KeepsReach),
        Claim::Swap(SwapClaim::MovesForMember),
        Claim::Swap(SwapClaim::CutLeavesDisk),
        Claim::Swap(SwapClaim::OtherNeedsNothing),
        Claim::Swap(SwapClaim::NeedsPower),
    ];

    /// The claims about each return that is made.
    const OF_RETURNS: [Claim; 6] = [
        Claim::Return(ReturnClaim::TakesStoredOnly),
        Claim::Return(ReturnClaim::ChangesReachAlone),
        Claim::Return(ReturnClaim::InReachUnseen),
        Claim::Return(ReturnClaim::TakesStored),
        Claim::Return(ReturnClaim::OthersTold),
        Claim::Return(ReturnClaim::CurrentAgain),
    ];

    /// The claims about such a call.
    pub fn of_call(call: &Call) -> Vec<Claim> {
        let of_kind = match call {
            Call::Read { .. } => &Claim::OF_READS[..],
            Call::Write { .. } => &Claim::OF_WRITES,
            Call::Join { .. } => &Claim::OF_JOINS,
            Call::Restart { .. } => &Claim::OF_RESTARTS,
            Call::Diagnose { .. } => &Claim::OF_DIAGNOSES,
            Call::Swap { .. } => &Claim::OF_SWAPS,
            Call::Return { .. } => &Claim::OF_RETURNS,
            Call::Quiet { .. } => &Claim::OF_QUIETS,
            Call::Lose { .. } => &Claim::OF_LOSSES,
            Call::Cut => &Claim::OF_CUTS,
        };
        [of_kind, &Claim::OF_EVERY_CALL].concat()
    }

    /// The claim in words, as these rules have it.
    pub fn words(self, rules: Rules) -> String {
        let words = match self {
            Claim::RestartedBlocks => "after a finished restart each block of each named disk equals the book's",
            Claim::NotSeveral => "no restart gives 14",
            Claim::RestartFinds => {
                "a restart of a stopped cabinet with all disks in reach finds a set, \
                 and gives 0 when its supply suffices"
            }
            Claim::Sound => "the state is sound after each call",
            Claim::NoneUnsound => "no call gives 1",
            Claim::RefusedUnchanged => "a refusal, other than 15, and a diagnosis change nothing and count no stores",
            Claim::StoresInOrder => return order_claim::words(rules),
            Claim::MembersTold => "a join of a current disk gives 11, in reach or not",
            Claim::SavedAssembles => "a saved state, assembled with its R, is the state after a cut",
            Claim::NamedAsDefined => "the stages name the set that the definition says",
            Claim::ListsShort => "the list of each stage has at most n sets to test, and none twice",
            Claim::ListsComplete => "the list of each stage has every candidate of the stage",
            Claim::FinderAgrees => "the finder, which tests the listed sets alone, gives the definition's answer",
            Claim::TestAgrees => "the test of soundness gives the definition's answer",
            Claim::EarliestReason => "the reason of a diagnosis is true of the disk's own set, and no earlier one is",
            Claim::CandidateTold => "a diagnosis says 'a candidate' exactly where the own set is one of that stage",
            Claim::OtherSet => "a diagnosis gives the set that a restart would find, if that lacks the disk, else 0",
            Claim::MissingTold => {
                "where a restart gives 13, a diagnosis says neither 'a candidate' nor that none proposes the set"
            }
            Claim::Read(claim) => claim.words(),
            Claim::Write(claim) => return claim.words(rules),
            Claim::Join(claim) => claim.words(rules),
            Claim::Quiet(claim) => claim.words(),
            Claim::Restart(claim) => return claim.words(rules),
            Claim::Loss(claim) => claim.words(rules),
            Claim::Swap(claim) => claim.words(),
            Claim::Return(claim) => claim.words(rules),
        };
        words.to_string()
    }

    /// Whether a claim about states holds in this one.
    pub fn holds_in(self, rules: Rules, state: &State) -> bool {
        let defined = || definitions::named(&state.labels, state.reach);
        match self {
            Claim::Sound => definitions::is_sound(state),
            Claim::SavedAssembles => saved_assembles(rules, state),
            Claim::NamedAsDefined => naming::named(rules, &state.labels, state.reach) == defined(),
            Claim::ListsShort => lists_are_short(rules, state),
            Claim::ListsComplete => lists_are_complete(rules, state),
            Claim::FinderAgrees => naming::found_in_lists(rules, state.disks, &state.labels, state.reach) == defined(),
            Claim::TestAgrees => state.is_sound(rules) == definitions::is_sound(state),
            Claim::Loss(claim) => claim.holds_in(rules, state),
            _ => true,
        }
    }

    /// Whether a claim about calls holds of this one.
    pub fn holds_of(self, event: &Event) -> bool {
        let result = event.answer.result;
        match (self, event.call) {
            (Claim::RestartedBlocks, Call::Restart { .. }) => {
                result != DONE || event.hold_book(event.after.state.current())
            }
            (Claim::NotSeveral, Call::Restart { .. }) => result != SEVERAL_CANDIDATES,
            (Claim::RestartFinds, Call::Restart { supply }) => restart_finds(event, *supply),
            (Claim::NoneUnsound, _) => result != UNSOUND,
            (Claim::RefusedUnchanged, _) => {
                let may_change = !matches!(event.call, Call::Diagnose { .. });
                let is_carried = may_change && event.answer.is_carried_out();
                is_carried || event.answer.stores == 0 && event.after == event.before
            }
            (Claim::MembersTold, Call::Join { disk, .. }) => result == ALREADY_MEMBER || !event.was_current(*disk),
            (Claim::StoresInOrder, _) => order_claim::holds_of(event),
            (Claim::Read(claim), Call::Read { block, .. }) => claim.holds_of(event, *block),
            (Claim::Write(claim), Call::Write { block, .. }) => claim.holds_of(event, *block),
            (Claim::Join(claim), Call::Join { disk, .. }) => claim.holds_of(event, *disk),
            (Claim::Quiet(claim), Call::Quiet { .. }) => claim.holds_of(event),
            (Claim::Restart(claim), Call::Restart { supply }) => claim.holds_of(event, *supply),
            (Claim::Loss(claim), _) => claim.holds_of(event),
            (Claim::Swap(claim), Call::Swap { disk, supply }) => claim.holds_of(event, *disk, *supply),
            (Claim::Return(claim), Call::Return { disk, shown }) => claim.holds_of(event, *disk, shown),
            (claim, Call::Diagnose { stage, disk }) => {
                let (rules, asked) = (event.after.rules, (*stage, *disk));
                let holds = |told| claim.holds_of_diagnosis(rules, &event.before.state, asked, told);
                event.told.is_none_or(holds)
            }
            _ => true,
        }
    }

    /// Whether a claim about diagnoses holds of this one, which was asked for a stage and a disk. "Refused, it gives no
    /// reason and 0 for the set."
    pub fn holds_of_diagnosis(self, rules: Rules, state: &State, asked: (u32, u32), told: Diagnosis) -> bool {
        let (stage, disk) = asked;
        let Diagnosis { result, reason, set } = told;
        if result != DONE {
            return reason == Reason::None && set.is_empty();
        }
        let says_candidate = reason == Reason::Candidate;
        match self {
            Claim::EarliestReason => definitions::is_earliest_reason(state, stage, disk, reason),
            Claim::CandidateTold => says_candidate == definitions::own_is_candidate(state, stage, disk),
            Claim::OtherSet => set == definitions::other_set(state, disk),
            Claim::MissingTold => {
                let lacks_little = says_candidate || reason == Reason::NoneProposes;
                !lacks_little || naming::named(rules, &state.labels, state.reach) != Found::None
            }
            _ => true,
        }
    }
}

/// "At most n sets to test", and none of them twice.
fn lists_are_short(rules: Rules, state: &State) -> bool {
    lists_of_stages(rules, state).iter().all(|sets| {
        let different: BTreeSet<&DiskSet> = sets.iter().collect();
        sets.len() <= state.disks.into() && different.len() == sets.len()
    })
}

/// "Proved to hold every candidate of that stage."
fn lists_are_complete(rules: Rules, state: &State) -> bool {
    (1..).zip(lists_of_stages(rules, state)).all(|(stage, sets)| {
        let mut candidates = definitions::candidates(&state.labels, state.reach, stage);
        candidates.all(|x| sets.contains(&x))
    })
}

/// The list of each stage.
fn lists_of_stages(rules: Rules, state: &State) -> [Vec<DiskSet>; 3] {
    STAGES.map(|stage| naming::sets_to_test(rules, stage, state.disks, &state.labels))
}

/// "Each one of a stopped cabinet with all n disks in R finds a set, and gives 0 when its supply is at least the length
/// of its list of stores."
fn restart_finds(event: &Event, supply: u16) -> bool {
    let (rules, before) = (event.after.rules, &event.before.state);
    if !before.is_stopped() || !before.lost().is_empty() {
        return true;
    }
    let Found::One(set) = naming::named(rules, &before.labels, before.reach) else {
        return false;
    };
    let suffices = lists::restart(rules, before, set).len() <= supply as usize;
    let result = event.answer.result;
    result == DONE || result == SUPPLY_ENDED && !suffices
}

/// "From a saved state with its own R it gives the state after a cut."
fn saved_assembles(rules: Rules, state: &State) -> bool {
    let mut bytes = vec![0; SLOT * state.disks as usize];
    let saved = slots::save(rules, state, &mut bytes);
    let (n, b) = (state.disks.into(), state.blocks.into());
    let (assembled, given) = slots::assemble(rules, n, b, state.reach, &bytes);
    let after_cut = State {
        power: Power::Stopped,
        ..*state
    };
    (saved.result, assembled.result) == (DONE, DONE) && given == after_cut
}
