//! For each mistake the claim that refuses it, and the history or the state on which that claim fails.

use crate::claims::Claim;
use crate::diagnosis::{diagnose, questions};
use crate::explorer::{explore, SIZES};
use crate::join_claims::JoinClaim;
use crate::loss_claims::LossClaim;
use crate::mistakes::{Mistake, Rules};
use crate::quiet_claims::QuietClaim;
use crate::read_claims::ReadClaim;
use crate::restart_claims::RestartClaim;
use crate::return_claims::ReturnClaim;
use crate::small_states;
use crate::sound_states;
use crate::state::{Power, State};
use crate::swap_claims::SwapClaim;
use crate::write_claims::WriteClaim;

/// Why a mistake is one.
pub struct Refutation {
    /// The claim that fails.
    pub claim: Claim,
    /// The lines of a shortest history of the smallest cabinet on which it fails, or a state in words.
    pub lines: Vec<String>,
}

/// The mistakes that show only in states that no history reaches: in every reached one the members of G have no T, and
/// no restart gives 14.
pub const IN_NO_HISTORY: [Mistake; 2] = [Mistake::OtherSetOfSeveral, Mistake::SoundIgnoresTentative];

/// Wrong rules of document 01 that fail the claim against them and no other, on any history.
pub const REFUSED_BY_ONE: [Mistake; 6] = [
    Mistake::CleanCountsDisks,
    Mistake::CutOfStoppedRefused,
    Mistake::LoseLostLosesAll,
    Mistake::LoseTakesNext,
    Mistake::RestartCountsNoCommits,
    Mistake::WriteCountsMoveTwice,
];

/// The claim that refuses a mistake: the first one of demand 3 unless another stands below. A test shows that it does.
pub fn claim_against(mistake: Mistake) -> Claim {
    let other = against_wrong_base(mistake).or_else(|| against_wrong_request(mistake));
    other.unwrap_or(Claim::RestartedBlocks)
}

/// The claim against a mistake in what document 01 says.
fn against_wrong_base(mistake: Mistake) -> Option<Claim> {
    Some(match mistake {
        Mistake::AssembleOneSlot => Claim::SavedAssembles,
        Mistake::CutRunsOn | Mistake::FormatWithTentative | Mistake::StaleTentative => Claim::Sound,
        Mistake::EarlyCommit | Mistake::FallbackToCommitted | Mistake::Majority | Mistake::RestartRefusesAlways => {
            Claim::RestartFinds
        }
        Mistake::CleanCountsDisks => Claim::Quiet(QuietClaim::Counts),
        Mistake::CleanLeavesShortRegion => Claim::Quiet(QuietClaim::Clears),
        Mistake::CutChangesNothing | Mistake::CutOfStoppedRefused => Claim::Loss(LossClaim::OfLostPower),
        Mistake::CutWriteCountsEarly => Claim::Write(WriteClaim::CutCounts),
        Mistake::JoinClearsMap => Claim::Join(JoinClaim::KeepsMap),
        Mistake::JoinCopiesFromLost => Claim::Join(JoinClaim::CopiesLowest),
        Mistake::JoinRightInReach => Claim::Join(JoinClaim::HoldsBook),
        Mistake::LoseChangesNothing | Mistake::LoseLostLosesAll => Claim::Loss(LossClaim::OfLostDisk),
        Mistake::LoseTakesNext | Mistake::LossUndoneUnseen => Claim::Loss(LossClaim::Undone),
        Mistake::ReadOfAnotherBlock => Claim::Read(ReadClaim::YieldsBook),
        Mistake::RestartClearsStanding | Mistake::RestartCountsNoCommits => Claim::Restart(RestartClaim::Counts),
        Mistake::ReturnedIsCurrent | Mistake::ReturnedLeavesSet => Claim::Return(ReturnClaim::CurrentAgain),
        Mistake::SoundIgnoresTentative => Claim::TestAgrees,
        Mistake::StageTwoWithoutProposal => Claim::NamedAsDefined,
        Mistake::StoresDescend | Mistake::WriteStoresOnAllCurrent => Claim::StoresInOrder,
        Mistake::WriteBoundThree | Mistake::WriteCountsMoveTwice => Claim::Write(WriteClaim::Bound),
        Mistake::WriteStoresNothing => Claim::Write(WriteClaim::AcknowledgedCounts),
        _ => return None,
    })
}

/// The claim against a mistake in what document 02 requests.
fn against_wrong_request(mistake: Mistake) -> Option<Claim> {
    Some(match mistake {
        Mistake::DiagnosisWithoutProposal => Claim::CandidateTold,
        Mistake::DisagreementBeforeReach | Mistake::LowestMemberTold | Mistake::OwnSetByStage => Claim::EarliestReason,
        Mistake::FinderMissesCommitted => Claim::FinderAgrees,
        Mistake::JoinNoneLiveBeforeMember | Mistake::JoinReachBeforeMember => Claim::MembersTold,
        Mistake::ListMissesLastDisk => Claim::ListsComplete,
        Mistake::ListRepeatsSets => Claim::ListsShort,
        Mistake::OtherSetOfSeveral | Mistake::OtherSetWithDisk => Claim::OtherSet,
        Mistake::ReadCountsNoStores => Claim::Read(ReadClaim::MakesStores),
        Mistake::ReadFillsThenCut => Claim::Read(ReadClaim::KeepsOutput),
        Mistake::ReadFromLostDisk => Claim::Read(ReadClaim::WithinReach),
        Mistake::ReadKeepsSet | Mistake::SwapStays => Claim::Sound,
        Mistake::ReadStays => Claim::Read(ReadClaim::Moves),
        Mistake::BayIgnoresDiskCount | Mistake::ReturnDiffersBeforeRegion | Mistake::ReturnIgnoresDirty => {
            Claim::Return(ReturnClaim::OthersTold)
        }
        Mistake::ReturnCheckedWhenStopped | Mistake::ReturnUnseen => Claim::Return(ReturnClaim::TakesStoredOnly),
        Mistake::ReturnComparesBytes => Claim::Return(ReturnClaim::TakesStored),
        Mistake::ReturnLooksInReach => Claim::Return(ReturnClaim::InReachUnseen),
        Mistake::SwapComesIntoReach => Claim::Swap(SwapClaim::KeepsReach),
        Mistake::SwapCountsBlocks | Mistake::SwapMovesAlways => Claim::Swap(SwapClaim::MovesForMember),
        Mistake::SwapKeepsBlocks | Mistake::SwapKeepsLabel => Claim::Swap(SwapClaim::Blanks),
        Mistake::SwapNeedsLiveDisk => Claim::Swap(SwapClaim::OtherNeedsNothing),
        Mistake::SwapOfStoppedCabinet => Claim::RestartFinds,
        _ => return None,
    })
}

/// Looks for a failure of the claim against a mistake: in the smallest cabinet first, and there for a shortest
/// history. The mistake is one of the paper, which cabinet and book both follow: so the claim does not fail for a mere
/// difference between the two.
pub fn refute(mistake: Mistake) -> Option<Refutation> {
    let (rules, claim) = (Rules::with(mistake), claim_against(mistake));
    if IN_NO_HISTORY.contains(&mistake) {
        refuting_state(rules, claim)
    } else {
        refuting_history(rules, rules, claim)
    }
}

/// A shortest history on which the claim fails, when the cabinet and the book follow these rules.
pub fn refuting_history(rules: Rules, book_rules: Rules, claim: Claim) -> Option<Refutation> {
    let failure = |size| explore(rules, book_rules, size, |one| one == claim).failure;
    let found = SIZES.into_iter().find_map(failure)?;
    Some(Refutation {
        claim: found.claim,
        lines: found.history,
    })
}

/// The claims that fail on some history of a cabinet of one or two disks, when the cabinet and the book follow these
/// rules: the one that fails first, then of the others the one that fails first, and so on.
pub fn failing_claims(rules: Rules) -> Vec<Claim> {
    let mut failing = Vec::new();
    for size in SIZES.into_iter().filter(|(n, _)| *n <= 2) {
        let next = |known: &[Claim]| explore(rules, rules, size, |claim| !known.contains(&claim)).failure;
        while let Some(failure) = next(&failing) {
            failing.push(failure.claim);
        }
    }
    failing
}

/// A state of one or two disks, reachable or not, in which the claim fails.
fn refuting_state(rules: Rules, claim: Claim) -> Option<Refutation> {
    let fails_of = |state: &State, (stage, disk)| {
        let told = diagnose(rules, state, stage, disk);
        !claim.holds_of_diagnosis(rules, state, (stage, disk), told)
    };
    let fails_asked = |state: &State| questions(state.disks).any(|asked| fails_of(state, asked));
    let fails = |state: &State| !claim.holds_in(rules, state) || fails_asked(state);
    let state = small_states::all().chain(sound_states::all(2)).find(fails)?;
    let power = match state.power {
        Power::Stopped => "stopped".to_string(),
        Power::Running(current) => format!("running with G {}", current.0),
    };
    let label = |d: usize| {
        let l = state.labels[d];
        format!(
            "disk {d} with C {} T {} dirty {}",
            l.committed.0, l.tentative.0, l.dirty
        )
    };
    let head = format!(
        "the state n = {}, b = {}, R {}",
        state.disks, state.blocks, state.reach.0
    );
    let line = format!("{head}, {power}, {}, {}", label(0), label(1));
    Some(Refutation {
        claim,
        lines: vec![line],
    })
}
