//! Why a disk is not current.

use crate::disk_set::DiskSet;
use crate::label::Label;
use crate::refusal::{self, Refusal};
use core::fmt;

/// Why a disk's own set is no candidate of a stage, or that it is one, in the paper's order.
#[derive(Clone, Copy, Debug, PartialEq, Eq, Hash)]
pub enum Reason {
    /// The set is empty: the disk has never been a member.
    Empty,
    /// The lowest disk of the set that is out of reach.
    OutOfReach(usize),
    /// The lowest disk of the set whose label disagrees with what the stage asks.
    Disagrees(usize),
    /// In stage 2: no disk of the set has it as its tentative set.
    NoneProposes,
    /// The set is a candidate of the stage.
    Candidate,
}

impl Reason {
    /// Its place in the paper's order, from 1.
    pub fn number(self) -> u8 {
        match self {
            Reason::Empty => 1,
            Reason::OutOfReach(_) => 2,
            Reason::Disagrees(_) => 3,
            Reason::NoneProposes => 4,
            Reason::Candidate => 5,
        }
    }

    /// The disk that it names.
    pub fn disk(self) -> Option<usize> {
        match self {
            Reason::OutOfReach(disk) | Reason::Disagrees(disk) => Some(disk),
            Reason::Empty | Reason::NoneProposes | Reason::Candidate => None,
        }
    }

    /// The reason of a number, with the disk that it names. 0 is none; the proved library gives no other number.
    fn of(number: u8, disk: usize) -> Option<Reason> {
        match number {
            1 => Some(Reason::Empty),
            2 => Some(Reason::OutOfReach(disk)),
            3 => Some(Reason::Disagrees(disk)),
            4 => Some(Reason::NoneProposes),
            5 => Some(Reason::Candidate),
            _ => None,
        }
    }
}

/// What the library's function yields: numbers only.
#[repr(C)]
pub(crate) struct Told {
    disk: usize,
    refusal: u8,
    reason: u8,
    set: DiskSet,
}

/// What [`State::diagnose`](crate::State::diagnose) yields. It is shown as a sentence for a mechanic, such as `disk 2
/// of {0, 2} is out of reach`.
#[must_use = "a diagnosis changes nothing"]
#[derive(Clone, Copy, Debug, PartialEq, Eq)]
pub struct Diagnosis {
    /// The set that the reason speaks of: the disk's [own](Label::own_set).
    pub own: DiskSet,
    /// Why this set is no candidate of the stage; none if the call was refused.
    pub reason: Option<Reason>,
    /// The set that a restart would find now, if it would find one without the disk; otherwise empty.
    pub set: DiskSet,
    /// 0, or the refusal's number, as in an [`Answer`](crate::Answer).
    refusal: u8,
}

impl Diagnosis {
    /// What was told of a disk with this label; `None` if there is no such disk.
    pub(crate) fn new(label: Option<&Label>, told: Told) -> Diagnosis {
        let asked = label.filter(|_| told.refusal == 0);
        Diagnosis {
            own: asked.map_or(DiskSet::EMPTY, Label::own_set),
            reason: Reason::of(told.reason, told.disk),
            set: told.set,
            refusal: told.refusal,
        }
    }

    /// Whether the call was done, or why not.
    pub fn outcome(self) -> Result<(), Refusal> {
        refusal::outcome(self.refusal)
    }
}

impl fmt::Display for Diagnosis {
    fn fmt(&self, f: &mut fmt::Formatter<'_>) -> fmt::Result {
        if let Err(refusal) = self.outcome() {
            return write!(f, "{refusal}");
        }
        let own = self.own;
        match self.reason {
            None => write!(f, "no reason")?,
            Some(Reason::Empty) => write!(f, "the disk has never been a member")?,
            Some(Reason::OutOfReach(disk)) => write!(f, "disk {disk} of {own} is out of reach")?,
            Some(Reason::Disagrees(disk)) => write!(f, "disk {disk} of {own} disagrees")?,
            Some(Reason::NoneProposes) => write!(f, "no disk of {own} proposes it")?,
            Some(Reason::Candidate) => write!(f, "{own} is a candidate")?,
        }
        match self.set {
            DiskSet::EMPTY => Ok(()),
            set => write!(f, "; a restart would find {set}"),
        }
    }
}
