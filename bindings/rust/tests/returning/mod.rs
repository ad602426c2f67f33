//! A disk that comes back as it was pulled.

use cabinet::{Answer, State, SLOT_SIZE};

/// Attaches the disk, which shows the label that the state holds for it.
pub fn returned(state: State, disk: usize) -> Answer {
    let mut shown = [0; SLOT_SIZE];
    let written = state.labels[disk].write(&mut shown, disk, state.disks.into());
    state.attach(disk, &shown[..written.length])
}
