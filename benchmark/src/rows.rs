//! The rows of the table: a call, and the state that it is made on.

use plain::refusal::{DONE, UNSOUND};
use plain::{State, SLOT};

/// n of every row.
pub const DISKS: usize = 8;
/// b of every row.
pub const BLOCKS: usize = 64;
/// The bytes of a block.
pub const BLOCK_SIZE: usize = 64;
/// The disk that is joined, swapped, detached, attached and asked about.
pub const DISK: usize = 7;
/// The stage that is asked about.
pub const STAGE: usize = 3;
/// The block that is read and written.
pub const BLOCK: usize = 21;
/// More than the longest list has.
pub const SUPPLY: u16 = u16::MAX;

/// A call by the product's name.
#[derive(Clone, Copy)]
pub enum Call {
    Format,
    Read,
    Write,
    Join,
    Swap,
    Clean,
    Restart,
    Detach,
    Attach,
    PowerOff,
    Diagnose,
    Save,
    Assemble,
}

/// A row. The result is what the call must give for the row to be what its name says.
pub struct Row {
    pub name: &'static str,
    pub call: Call,
    pub state: State,
    pub result: u8,
}

/// The buffers that calls are lent. Both sides work on the same ones, so that both find the same caches.
#[derive(Clone, PartialEq, Eq)]
pub struct Buffers {
    pub area: Vec<u8>,
    pub block: Vec<u8>,
    pub slots: Vec<u8>,
}

impl Buffers {
    /// An area that has been cleared by fresh and then written, a block of data, and the slots that the state is saved
    /// in: an attached disk shows its own.
    pub fn new(state: State) -> Buffers {
        let mut area = vec![0; DISKS * BLOCKS * BLOCK_SIZE];
        plain::fresh(DISKS, BLOCKS, &mut area);
        for (i, byte) in area.iter_mut().enumerate() {
            *byte = (i + i / BLOCK_SIZE) as u8;
        }
        let mut slots = vec![0; SLOT * DISKS];
        plain::save(state, &mut slots);
        let block = (0..BLOCK_SIZE as u8).map(|i| 3 * i + 1).collect();
        Buffers { area, block, slots }
    }
}

/// The restart that copies most, which is also compared with a mere copy.
pub fn longest_restart() -> Row {
    row("restart, all regions dirty", Call::Restart, dirty(stopped(fresh())))
}

/// All rows.
pub fn rows() -> Vec<Row> {
    let moved = State {
        reach: fresh().reach & !(1 << DISK),
        ..fresh()
    };
    vec![
        row("format (fresh)", Call::Format, fresh()),
        row("read", Call::Read, fresh()),
        row("read that first moves", Call::Read, moved),
        row("write to a clean region", Call::Write, fresh()),
        row("write to a dirty region", Call::Write, dirty(fresh())),
        row("write that first moves", Call::Write, moved),
        row("join", Call::Join, without_last()),
        row("swap of a current disk", Call::Swap, moved),
        row("swap of another disk", Call::Swap, spare_lost()),
        row("clean (quiet), all regions dirty", Call::Clean, dirty(fresh())),
        row("clean (quiet), none dirty", Call::Clean, fresh()),
        row("restart, none dirty", Call::Restart, stopped(fresh())),
        longest_restart(),
        row(
            "restart, eight different sets",
            Call::Restart,
            divided(stopped(fresh())),
        ),
        row("detach (lose)", Call::Detach, fresh()),
        row("attach (return)", Call::Attach, moved),
        row("attach (return), in reach", Call::Attach, fresh()),
        row("power off (cut)", Call::PowerOff, fresh()),
        row("diagnose, a candidate", Call::Diagnose, stopped(fresh())),
        row("diagnose, out of reach", Call::Diagnose, stopped(moved)),
        row("save", Call::Save, dirty(fresh())),
        row("assemble", Call::Assemble, dirty(stopped(fresh()))),
        Row {
            result: UNSOUND,
            ..row("write, refused: unsound state", Call::Write, unsound())
        },
    ]
}

fn row(name: &'static str, call: Call, state: State) -> Row {
    Row {
        name,
        call,
        state,
        result: DONE,
    }
}

/// A cabinet that runs with all disks, and with nothing dirty.
pub fn fresh() -> State {
    plain::fresh(DISKS, BLOCKS, &mut vec![0; DISKS * BLOCKS * BLOCK_SIZE]).state
}

fn stopped(state: State) -> State {
    plain::cut(state).state
}

/// Every region dirty on every disk.
fn dirty(mut state: State) -> State {
    for label in &mut state.labels {
        label.dirty = u8::MAX;
    }
    state
}

/// The longest search for the set: each disk has another T and another C, every stage has eight sets to test, and only
/// the last one of all, the last disk's C, is a candidate.
fn divided(mut state: State) -> State {
    for (d, label) in state.labels.iter_mut().enumerate() {
        label.tentative = !(1 << ((d + 1) % DISKS));
        label.committed = !(1 << ((d + 2) % DISKS));
    }
    state.labels[DISK].committed = 1 << DISK;
    state
}

/// All disks in reach, and all but the last current.
fn without_last() -> State {
    let mut state = fresh();
    state.current &= !(1 << DISK);
    for label in &mut state.labels[..DISK] {
        label.committed = state.current;
    }
    state
}

/// The last disk out of reach, and all others current.
fn spare_lost() -> State {
    let state = without_last();
    State {
        reach: state.current,
        ..state
    }
}

/// A member with a tentative set. It is the last disk, so that nothing is found wrong before.
fn unsound() -> State {
    let mut state = fresh();
    state.labels[DISK].tentative = state.current;
    state
}
