//! A case: one call, with everything that goes into it.

use plain::{Label, State};

/// The calls, by the papers' names.
#[derive(Clone, Copy, Debug, PartialEq, Eq, PartialOrd, Ord)]
pub enum Call {
    /// Fresh: n, b; the area.
    Fresh,
    /// Read: the state, the area, k, the supply; the output.
    Read,
    /// Write: the state, the area, k, the supply; the data.
    Write,
    /// Join: the state, the area, d, the supply.
    Join,
    /// Swap: the state, the area, d, the supply.
    Swap,
    /// Quiet: the state, the supply.
    Quiet,
    /// Restart: the state, the area, the supply.
    Restart,
    /// Lose: the state, d.
    Lose,
    /// Return: the state, d; the bytes that the disk shows.
    Return,
    /// Cut: the state.
    Cut,
    /// Diagnose: the state, the stage, d.
    Diagnose,
    /// Save: the state; the slots.
    Save,
    /// Assemble: n, b, R; the slots.
    Assemble,
    /// Label reading: the bytes.
    ReadLabel,
    /// Label writing: the label, d, n; the output.
    WriteLabel,
}

impl Call {
    /// Every call, with its name in a line.
    pub const ALL: [(Call, &'static str); 15] = [
        (Call::Fresh, "fresh"),
        (Call::Read, "read"),
        (Call::Write, "write"),
        (Call::Join, "join"),
        (Call::Swap, "swap"),
        (Call::Quiet, "quiet"),
        (Call::Restart, "restart"),
        (Call::Lose, "lose"),
        (Call::Return, "return"),
        (Call::Cut, "cut"),
        (Call::Diagnose, "diagnose"),
        (Call::Save, "save"),
        (Call::Assemble, "assemble"),
        (Call::ReadLabel, "read-label"),
        (Call::WriteLabel, "write-label"),
    ];

    /// Its name.
    pub fn name(self) -> &'static str {
        Call::ALL[self as usize].1
    }

    /// "Fresh and assembling are given no state", and labels stand below the cabinet.
    pub fn takes_state(self) -> bool {
        !matches!(self, Call::Fresh | Call::Assemble | Call::ReadLabel | Call::WriteLabel)
    }

    /// Whether it takes the disk area.
    pub fn takes_area(self) -> bool {
        matches!(
            self,
            Call::Fresh | Call::Read | Call::Write | Call::Join | Call::Swap | Call::Restart
        )
    }

    /// Whether it "changes disks" and so takes a supply.
    pub fn takes_supply(self) -> bool {
        matches!(
            self,
            Call::Read | Call::Write | Call::Join | Call::Swap | Call::Quiet | Call::Restart
        )
    }
}

/// A call with its arguments. What the call does not take is zero or empty.
#[derive(Clone, Debug, PartialEq, Eq)]
pub struct Case {
    /// The call.
    pub call: Call,
    /// The state.
    pub state: State,
    /// n, of a call that is given no state.
    pub disks: usize,
    /// b, of a call that is given no state.
    pub blocks: usize,
    /// R, of an assemble.
    pub reach: u8,
    /// The number k of a block or d of a disk.
    pub number: usize,
    /// The stage of a diagnosis.
    pub stage: usize,
    /// The label to write.
    pub label: Label,
    /// The supply.
    pub supply: u16,
    /// The disk area.
    pub area: Vec<u8>,
    /// The output of a read, the data of a write, the slots, or a label's bytes: those that a returned disk shows too.
    pub buffer: Vec<u8>,
}

impl Case {
    /// The call with nothing in it.
    pub fn new(call: Call) -> Case {
        Case {
            call,
            state: State::default(),
            disks: 0,
            blocks: 0,
            reach: 0,
            number: 0,
            stage: 0,
            label: Label::default(),
            supply: 0,
            area: Vec::new(),
            buffer: Vec::new(),
        }
    }
}
