//! A state as 28 bytes: n, b, R, G, then each disk's label, which is 3: C, T and the dirty map.

use plain::{Label, State};

/// The bytes of a state.
pub const LENGTH: usize = 28;

/// The bytes of this state.
pub fn bytes_of(state: &State) -> [u8; LENGTH] {
    let mut bytes = [0; LENGTH];
    bytes[..4].copy_from_slice(&[state.disks, state.blocks, state.reach, state.current]);
    for (fields, label) in bytes[4..].chunks_exact_mut(3).zip(&state.labels) {
        fields.copy_from_slice(&label_bytes(label));
    }
    bytes
}

/// The state of these bytes.
pub fn state_of(bytes: &[u8; LENGTH]) -> State {
    let mut state = State {
        disks: bytes[0],
        blocks: bytes[1],
        reach: bytes[2],
        current: bytes[3],
        ..State::default()
    };
    for (label, fields) in state.labels.iter_mut().zip(bytes[4..].chunks_exact(3)) {
        *label = label_of(fields).expect("these are 3 bytes");
    }
    state
}

/// The bytes of this label.
pub fn label_bytes(label: &Label) -> [u8; 3] {
    [label.committed, label.tentative, label.dirty]
}

/// The label of these bytes; `None` if they are not 3.
pub fn label_of(bytes: &[u8]) -> Option<Label> {
    let &[committed, tentative, dirty] = bytes else {
        return None;
    };
    Some(Label {
        committed,
        tentative,
        dirty,
    })
}
