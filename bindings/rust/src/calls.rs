//! The calls, each through its function of the proved library. All unsafe code of the crate is here.
//!
//! What makes it safe: the library keeps no pointer beyond the call, reads and writes a buffer only within the length
//! given with it, and has no data of its own, so calls may be made from several threads at once. Each pointer and
//! length below come from one Rust slice, which is valid for the call and which no other argument overlaps, since it is
//! borrowed. What goes in and out by value is laid out as C does and holds numbers only, so any bytes are good ones.

use crate::answer::Answer;
use crate::diagnosis::{Diagnosis, Told};
use crate::disk_set::DiskSet;
use crate::label::{Label, Reading, Written};
use crate::state::State;

const _: () = assert!(size_of::<State>() == 28 && size_of::<Answer>() == 32);
const _: () = assert!(size_of::<Label>() == 3 && size_of::<Reading>() == 40 && size_of::<Written>() == 16);
const _: () = assert!(size_of::<Told>() == 16);

// SAFETY: these are the library's declarations, a slice being a pointer and then a length; see above.
unsafe extern "C" {
    fn cabinet_format(disks: usize, blocks: usize, area: *mut u8, area_length: usize) -> Answer;
    fn cabinet_read(
        state: State,
        area: *const u8,
        area_length: usize,
        block: usize,
        output: *mut u8,
        output_length: usize,
        budget: u16,
    ) -> Answer;
    fn cabinet_write(
        state: State,
        area: *mut u8,
        area_length: usize,
        block: usize,
        data: *const u8,
        data_length: usize,
        budget: u16,
    ) -> Answer;
    fn cabinet_join(state: State, area: *mut u8, area_length: usize, disk: usize, budget: u16) -> Answer;
    fn cabinet_swap(state: State, area: *mut u8, area_length: usize, disk: usize, budget: u16) -> Answer;
    safe fn cabinet_clean(state: State, budget: u16) -> Answer;
    fn cabinet_restart(state: State, area: *mut u8, area_length: usize, budget: u16) -> Answer;
    safe fn cabinet_detach(state: State, disk: usize) -> Answer;
    fn cabinet_attach(state: State, disk: usize, shown: *const u8, shown_length: usize) -> Answer;
    safe fn cabinet_power_off(state: State) -> Answer;
    safe fn cabinet_diagnose(state: State, stage: usize, disk: usize) -> Told;
    fn cabinet_save(state: State, slots: *mut u8, slots_length: usize) -> Answer;
    fn cabinet_assemble(disks: usize, blocks: usize, online: DiskSet, slots: *const u8, slots_length: usize) -> Answer;
    fn cabinet_read_label(bytes: *const u8, bytes_length: usize) -> Reading;
    fn cabinet_write_label(output: *mut u8, output_length: usize, number: usize, disks: usize, label: Label)
        -> Written;
}

/// The calls by value, for those who keep the state elsewhere; a [`Cabinet`](crate::Cabinet) keeps it itself. None has a
/// precondition: each takes whatever it is given, and refuses what does not fit by the first of its
/// [refusals](crate::Refusal) whose condition holds, in the order given here. `budget` is the number of stores that the
/// power lasts for (document 01's supply).
///
/// One duty no call can check: give each the state and the area that the last one left.
///
/// They are inlined, so that a state is copied once on its way to the library.
impl State {
    /// A new cabinet (document 01's fresh): all disks in reach and current, no block dirty, the area all zero.
    ///
    /// Refusals: 4 the number of disks, 5 of blocks, 2 the area's length. Refused, it yields the default state and
    /// leaves the area.
    #[inline]
    pub fn format(disks: usize, blocks: usize, area: &mut [u8]) -> Answer {
        // SAFETY: as the module says.
        unsafe { cabinet_format(disks, blocks, area.as_mut_ptr(), area.len()) }
    }

    /// Copies the block into `output`, which is of 64 bytes, from the lowest current disk that is in reach. If some are
    /// not, the cabinet first moves to those that are, and these alone are current then: take the answer's state. If
    /// all are, there is no store to make, and a budget of 0 will do.
    ///
    /// Refusals: 1 not sound, 2 the area's length, 3 the output's length, 6 stopped, 9 no such block, 12 no current
    /// disk in reach, 15 the power lost, with `output` as it was.
    #[inline]
    pub fn read(self, area: &[u8], block: usize, output: &mut [u8], budget: u16) -> Answer {
        let (to, length) = (output.as_mut_ptr(), output.len());
        // SAFETY: as the module says.
        unsafe { cabinet_read(self, area.as_ptr(), area.len(), block, to, length, budget) }
    }

    /// Writes the 64 bytes of `data` as the block, on each current disk that is in reach. If some are not, the
    /// cabinet first moves to those that are, as a read does. Then it marks the block's region dirty on each where it is
    /// not, and stores the block on each, the lowest first: from that store on the write counts, though it is cut.
    ///
    /// Refusals: 1 not sound, 2 the area's length, 3 the data's length, 6 stopped, 9 no such block, 12 no current disk
    /// in reach, 15 the power lost.
    #[inline]
    pub fn write(self, area: &mut [u8], block: usize, data: &[u8], budget: u16) -> Answer {
        let (from, length) = (data.as_ptr(), data.len());
        // SAFETY: as the module says.
        unsafe { cabinet_write(self, area.as_mut_ptr(), area.len(), block, from, length, budget) }
    }

    /// Makes a disk in reach current: it gets all blocks, then the cabinet moves to the current disks in reach and this
    /// one.
    ///
    /// Refusals: 1 not sound, 2 the area's length, 6 stopped, 8 no such disk, 11 already current (in reach or not), 10
    /// out of reach, 12 no current disk in reach, 15 the power lost.
    #[inline]
    pub fn join(self, area: &mut [u8], disk: usize, budget: u16) -> Answer {
        // SAFETY: as the module says.
        unsafe { cabinet_join(self, area.as_mut_ptr(), area.len(), disk, budget) }
    }

    /// Puts a blank disk in the place of one that is out of reach, while the cabinet runs: its label is all zero, and
    /// so are its blocks, which counts no store. If the disk is current, the cabinet first moves to the current disks
    /// in reach; if not, there is no store to make, and a budget of 0 will do. The new disk is out of reach:
    /// [attach](State::attach) it by its empty label, then [join](State::join) it.
    ///
    /// Refusals: 1 not sound, 2 the area's length, 6 stopped, 8 no such disk, 24 in reach, 12 the disk is current and
    /// no current disk is in reach, 15 the power lost, with the old disk still in.
    #[inline]
    pub fn swap(self, area: &mut [u8], disk: usize, budget: u16) -> Answer {
        // SAFETY: as the module says.
        unsafe { cabinet_swap(self, area.as_mut_ptr(), area.len(), disk, budget) }
    }

    /// Clears the dirty bits of the current disks in reach (document 01's quiet), so that a restart need not copy.
    ///
    /// Refusals: 1 not sound, 6 stopped, 12 no current disk in reach, 15 the power lost.
    #[inline]
    pub fn clean(self, budget: u16) -> Answer {
        cabinet_clean(self, budget)
    }

    /// Starts a stopped cabinet: finds the current set from the labels in reach, makes its dirty regions equal and runs
    /// with it.
    ///
    /// Refusals: 1 not sound, 2 the area's length, 7 running, 13 no set, 14 several sets, 15 the power lost.
    #[inline]
    pub fn restart(self, area: &mut [u8], budget: u16) -> Answer {
        // SAFETY: as the module says.
        unsafe { cabinet_restart(self, area.as_mut_ptr(), area.len(), budget) }
    }

    /// The disk is pulled out (document 01's lose). Done, with no effect, for one that is out of reach.
    ///
    /// Refusals: 1 not sound, 8 no such disk.
    #[inline]
    pub fn detach(self, disk: usize) -> Answer {
        cabinet_detach(self, disk)
    }

    /// The disk is pushed back (document 01's return). It is current again if the cabinet has not moved on without it.
    ///
    /// It shows its label, the bytes as they stand on it, and is taken only if they start with the label that this
    /// state holds for it: a disk that was in another cabinet meanwhile may have another. What follows the label is not
    /// read, so a slot that [`save`](State::save) wrote will do. Done, with no effect and without a look at the bytes,
    /// for a disk that is in reach.
    ///
    /// Refusals: 1 not sound, 8 no such disk; then, of a disk that is out of reach, those of [`Label::read`], 18 the
    /// label is another disk's, 22 a dirty bit without a region, 25 the label is not the stored one.
    #[inline]
    pub fn attach(self, disk: usize, shown: &[u8]) -> Answer {
        // SAFETY: as the module says.
        unsafe { cabinet_attach(self, disk, shown.as_ptr(), shown.len()) }
    }

    /// The power goes (document 01's cut). Done, with no effect, for a stopped cabinet.
    ///
    /// Refusals: 1 not sound.
    #[inline]
    pub fn power_off(self) -> Answer {
        cabinet_power_off(self)
    }

    /// Why a disk of a stopped cabinet is not current: what keeps its own set from being a candidate of the stage, 1, 2
    /// or 3, and the set that a restart would find without the disk. It changes nothing.
    ///
    /// ```
    /// # use cabinet::{DiskSet, Label, Reason, State};
    /// // Disk 0 is out of reach. It is a member of the set that disk 1 was last in.
    /// let (both, second) = (DiskSet::from_bits(0b11), DiskSet::from_bits(0b10));
    /// let mut state = State { disks: 2, blocks: 1, online: second, ..State::default() };
    /// state.labels[..2].fill(Label { committed: both, ..Label::default() });
    /// let diagnosis = state.diagnose(3, 1);
    /// assert_eq!((diagnosis.outcome(), diagnosis.reason), (Ok(()), Some(Reason::OutOfReach(0))));
    /// assert_eq!(diagnosis.to_string(), "disk 0 of {0, 1} is out of reach");
    /// ```
    ///
    /// Refusals: 1 not sound, 7 running, 8 no such disk, 23 no such stage. Refused, it gives no reason and 0 for the
    /// sets.
    #[inline]
    pub fn diagnose(self, stage: usize, disk: usize) -> Diagnosis {
        Diagnosis::new(self.labels.get(disk), cabinet_diagnose(self, stage, disk))
    }

    /// Writes the labels into `slots`, 5 bytes a disk. The number of blocks and the disks in reach are not in them.
    ///
    /// Refusals: 1 not sound, 2 the length of the slots.
    #[inline]
    pub fn save(self, slots: &mut [u8]) -> Answer {
        // SAFETY: as the module says.
        unsafe { cabinet_save(self, slots.as_mut_ptr(), slots.len()) }
    }

    /// The stopped cabinet that these slots were saved from, with the disks of the set `online` in reach.
    ///
    /// Refusals: 4 the number of disks, 5 of blocks, 2 the length of the slots, 8 a disk in reach that is not there;
    /// then slot by slot 17, 18, 19 and 20 of its label, 18 the label is another disk's, 22 a dirty bit without a
    /// region. Refused, it yields the default state.
    #[inline]
    pub fn assemble(disks: usize, blocks: usize, online: DiskSet, slots: &[u8]) -> Answer {
        // SAFETY: as the module says.
        unsafe { cabinet_assemble(disks, blocks, online, slots.as_ptr(), slots.len()) }
    }
}

/// A label as bytes: a map of the fields that are not 0, the disk's number with the number of disks, then these fields.
impl Label {
    /// The label that the bytes start with. What follows it is not read.
    ///
    /// Refusals: 16 fewer than 2 bytes, 17 a bit of the map that names no field, 18 the disk's number or the number of
    /// disks, 16 fewer bytes than the map asks, 19 a field of 0, 20 a set.
    #[inline]
    pub fn read(bytes: &[u8]) -> Reading {
        // SAFETY: as the module says.
        unsafe { cabinet_read_label(bytes.as_ptr(), bytes.len()) }
    }

    /// Writes the label of disk `number` of `disks` to the front of the output. What is behind it stays.
    ///
    /// Refusals: 4 the number of disks, 8 no such disk, 20 a set, 21 the output's length.
    #[inline]
    pub fn write(self, output: &mut [u8], number: usize, disks: usize) -> Written {
        // SAFETY: as the module says.
        unsafe { cabinet_write_label(output.as_mut_ptr(), output.len(), number, disks, self) }
    }
}
