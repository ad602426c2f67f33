//! Request 2.2, 'Tell me why this disk is not current'.

use crate::label::Label;
use crate::mistakes::{Mistake, Rules};
use crate::naming::{self, Found, Stage};
use crate::refusal::{self, *};
use crate::sets::DiskSet;
use crate::state::State;

/// Why a disk's own set is not the one that a stage names, or that it is a candidate there.
#[derive(Clone, Copy, Debug, PartialEq, Eq)]
pub enum Reason {
    /// "Refused, it gives no reason."
    None,
    /// "The set is empty."
    Empty,
    /// "The lowest disk of it that is out of reach."
    OutOfReach(u8),
    /// "The lowest disk of it that disagrees with what that stage asks."
    Disagrees(u8),
    /// "In stage 2 that no member has the set as its T."
    NoneProposes,
    /// "The set is a candidate."
    Candidate,
}

impl Reason {
    /// The reason's place in the paper's order, 0 for none.
    pub fn number(self) -> u8 {
        match self {
            Reason::None => 0,
            Reason::Empty => 1,
            Reason::OutOfReach(_) => 2,
            Reason::Disagrees(_) => 3,
            Reason::NoneProposes => 4,
            Reason::Candidate => 5,
        }
    }

    /// The disk that the reason tells, 0 where it tells none.
    pub fn disk(self) -> u8 {
        match self {
            Reason::OutOfReach(disk) | Reason::Disagrees(disk) => disk,
            _ => 0,
        }
    }
}

/// What a diagnosis tells.
#[derive(Clone, Copy, Debug, PartialEq, Eq)]
pub struct Diagnosis {
    /// 0, or the refusal's number.
    pub result: u8,
    /// The reason.
    pub reason: Reason,
    /// The set that a restart would find without the asked disk.
    pub set: DiskSet,
}

impl Diagnosis {
    /// "Refused, it gives no reason and 0 for the set."
    fn refused(result: u8) -> Diagnosis {
        Diagnosis {
            result,
            reason: Reason::None,
            set: DiskSet::EMPTY,
        }
    }
}

impl std::fmt::Display for Diagnosis {
    fn fmt(&self, f: &mut std::fmt::Formatter) -> std::fmt::Result {
        let Diagnosis { result, reason, set } = self;
        write!(f, "{result} {reason:?} {}", set.0)
    }
}

/// Diagnose: 1, 7, 8, 23. "It changes nothing."
pub fn diagnose(rules: Rules, state: &State, stage: u32, disk: u32) -> Diagnosis {
    match asked(rules, state, stage, disk) {
        Err(number) => Diagnosis::refused(number),
        Ok((stage, disk)) => Diagnosis {
            result: DONE,
            reason: reason(rules, state, stage, disk),
            set: other_set(rules, state, disk),
        },
    }
}

/// What is asked for, or the refusal. "After its state check the order is 7, 8, then the stage."
fn asked(rules: Rules, state: &State, stage: u32, disk: u32) -> Result<(Stage, u8), u8> {
    refusal::first(&[
        (UNSOUND, !state.is_sound(rules)),
        (RUNNING, !state.is_stopped()),
        (NO_SUCH_DISK, disk >= state.disks.into()),
    ])?;
    let stage = Stage::numbered(stage).ok_or(NO_SUCH_STAGE)?;
    Ok((stage, disk as u8))
}

/// "One disk's own set (its T if there is one, else its C)", whatever the stage.
fn own_set(rules: Rules, stage: Stage, label: &Label) -> DiskSet {
    let by_stage = stage == Stage::Third && rules.makes(Mistake::OwnSetByStage);
    if label.tentative.is_empty() || by_stage {
        label.committed
    } else {
        label.tentative
    }
}

/// "The set is empty, or the lowest disk of it that is out of reach, or else the lowest disk of it that disagrees with
/// what that stage asks, or in stage 2 that no member has the set as its T, or that the set is a candidate."
fn reason(rules: Rules, state: &State, stage: Stage, disk: u8) -> Reason {
    let labels = &state.labels;
    let set = own_set(rules, stage, &labels[disk as usize]);
    let empty = set.is_empty().then_some(Reason::Empty);
    let lost = lost_member(rules, state, set).map(Reason::OutOfReach);
    let disagrees = |d: &u8| !stage.is_backed_by(&labels[*d as usize], set);
    let other = set.members().find(disagrees).map(Reason::Disagrees);
    let members = if rules.makes(Mistake::DisagreementBeforeReach) {
        other.or(lost)
    } else {
        lost.or(other)
    };
    let lacks_proposal = !stage.is_proposed(rules, labels, set) && !rules.makes(Mistake::DiagnosisWithoutProposal);
    let none_proposes = lacks_proposal.then_some(Reason::NoneProposes);
    empty.or(members).or(none_proposes).unwrap_or(Reason::Candidate)
}

/// "The lowest disk of it that is out of reach."
fn lost_member(rules: Rules, state: &State, set: DiskSet) -> Option<u8> {
    let lost = set.members().find(|d| !state.reach.has(*d));
    if rules.makes(Mistake::LowestMemberTold) {
        lost.and(set.members().next())
    } else {
        lost
    }
}

/// "If a restart at this moment would find a set without the asked disk, the tool gives that set as well, otherwise 0."
fn other_set(rules: Rules, state: &State, disk: u8) -> DiskSet {
    match naming::named(rules, &state.labels, state.reach) {
        Found::One(set) if !set.has(disk) || rules.makes(Mistake::OtherSetWithDisk) => set,
        Found::Several if rules.makes(Mistake::OtherSetOfSeveral) => DiskSet(1),
        _ => DiskSet::EMPTY,
    }
}

/// Every stage with every disk of n.
pub fn questions(n: u8) -> impl Iterator<Item = (u32, u32)> {
    (1..=3).flat_map(move |stage| (0..n.into()).map(move |disk| (stage, disk)))
}
