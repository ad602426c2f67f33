//! A buffer with bytes of ours on both sides, lent to the proved library: Rust cannot see what it writes.

/// The guarding bytes on each side: an odd number, so that the buffer is not aligned, as a slice of bytes need not be.
const GUARD: usize = 61;
/// Their value.
const GUARD_BYTE: u8 = 0xc3;

/// The buffer between its guards.
pub struct Guarded(Vec<u8>);

impl Guarded {
    /// A buffer of these bytes.
    pub fn new(bytes: &[u8]) -> Guarded {
        let guard = [GUARD_BYTE; GUARD];
        Guarded([&guard, bytes, &guard].concat())
    }

    /// The buffer alone.
    pub fn buffer(&mut self) -> &mut [u8] {
        let end = self.0.len() - GUARD;
        &mut self.0[GUARD..end]
    }

    /// The buffer's bytes. If a guard was written they are given with both guards, which are no other implementation's
    /// bytes.
    pub fn into_bytes(mut self) -> Vec<u8> {
        let buffer = self.buffer().to_vec();
        if self.0 == Guarded::new(&buffer).0 {
            buffer
        } else {
            self.0
        }
    }
}

#[cfg(test)]
mod tests {
    use super::*;

    #[test]
    fn a_write_beside_the_buffer_is_seen() {
        for place in [0, GUARD - 1, GUARD + 3, GUARD + 3 + GUARD - 1] {
            let mut guarded = Guarded::new(&[1, 2, 3]);
            guarded.0[place] ^= 1;
            assert_ne!(guarded.into_bytes(), [1, 2, 3]);
        }
    }

    #[test]
    fn a_write_of_the_buffer_is_its_bytes() {
        let mut guarded = Guarded::new(&[1, 2, 3]);
        guarded.buffer()[2] = 9;
        assert_eq!(guarded.into_bytes(), [1, 2, 9]);
    }
}
