//! The calls of 'The list and the book' with their arguments: the paper's eight, and those of requests 2.2 and 2.5.

use crate::state::State;

/// One call. "Each with whatever numbers and with data and output of its own."
#[derive(Clone, Debug, PartialEq, Eq)]
pub enum Call {
    /// Read block k.
    Read { block: u16, supply: u16 },
    /// Write block k.
    Write { block: u16, data: Vec<u8>, supply: u16 },
    /// Join disk d.
    Join { disk: u16, supply: u16 },
    /// Quiet.
    Quiet { supply: u16 },
    /// Restart.
    Restart { supply: u16 },
    /// Lose disk d.
    Lose { disk: u16 },
    /// Return disk d. It "brings the label bytes that the disk shows" (request 2.6).
    Return { disk: u16, shown: Vec<u8> },
    /// Cut the power.
    Cut,
    /// Tell why disk d is not current. Its numbers are wide, for 256 and 65,536 are no stages and no disks.
    Diagnose { stage: u32, disk: u32 },
    /// Swap disk d for a blank one.
    Swap { disk: u16, supply: u16 },
}

impl Call {
    /// The return of a disk that comes back unaltered: it shows the label that this state holds.
    pub fn unaltered_return(state: &State, disk: u16) -> Call {
        let shown = state.stored_label(disk);
        Call::Return { disk, shown }
    }

    /// The call in this state as a line of the cabinet program, which writes a block by its first byte. The program has
    /// no letter for a diagnosis, a swap, or a disk that shows other bytes than its stored label, and would answer
    /// these lines with 99.
    pub fn line(&self, state: &State) -> String {
        match self {
            Call::Read { block, supply } => format!("g {block} {supply}"),
            Call::Write { block, data, supply } => format!("w {block} {} {supply}", data.first().unwrap_or(&0)),
            Call::Join { disk, supply } => format!("j {disk} {supply}"),
            Call::Quiet { supply } => format!("q {supply}"),
            Call::Restart { supply } => format!("s {supply}"),
            Call::Lose { disk } => format!("x {disk}"),
            Call::Return { disk, .. } if *self == Call::unaltered_return(state, *disk) => format!("r {disk}"),
            Call::Return { disk, shown } => format!("return {disk} showing {shown:02x?}"),
            Call::Cut => "c".to_string(),
            Call::Diagnose { stage, disk } => format!("diagnose {stage} {disk}"),
            Call::Swap { disk, supply } => format!("swap {disk} {supply}"),
        }
    }
}
