//! A cabinet that keeps its own state.

use crate::answer::Answer;
use crate::diagnosis::Diagnosis;
use crate::disk_set::DiskSet;
use crate::error::Error;
use crate::refusal::Refusal;
use crate::state::{area_length, State, BLOCK_SIZE};
use core::fmt;

/// A cabinet: its state and its disk area, which only its calls change.
///
/// No call can tell an older state or area from the last one. Here there is none to hand in: a cabinet is not copied,
/// and each call goes on where the last one stopped. So of every cabinet that [`format`](Cabinet::format) made it holds
/// that a finished restart names disks which all have the right blocks. Of one that [`assemble`](Cabinet::assemble)
/// made it holds if slots and area are those that were kept last, both of the same moment: it is then the cabinet that
/// was saved, after a power cut.
///
/// `A` is what the area is kept in: a `Vec<u8>`, an array, or a slice that is borrowed for as long; another type has to
/// show the same bytes by `as_ref` and by `as_mut`. Its length is [`area_length`] of the numbers of disks and blocks.
///
/// A call is named as that of [`State`], which says what it does and in which order it refuses. A cabinet's state is
/// always sound, so 1 is never given, and neither is 3, since a block is an array; 2 only by `format`, `assemble` and
/// `save`. `budget` is the number of stores that the power lasts for. Done, a call with a budget gives the number of
/// stores made; cut, its [`Error`] has that number, and the cabinet is stopped.
///
/// ```compile_fail
/// # use cabinet::{area_length, Cabinet};
/// let cabinet = Cabinet::format(3, 8, vec![0; area_length(3, 8).unwrap()]).unwrap();
/// let older = cabinet.clone(); // a cabinet is not copied
/// ```
pub struct Cabinet<A> {
    state: State,
    area: A,
}

impl<A: AsRef<[u8]> + AsMut<[u8]>> Cabinet<A> {
    /// A new cabinet: all disks in reach and current, no block dirty, the area all zero.
    ///
    /// Refusals: 4 the number of disks, 5 of blocks, 2 the area's length. Refused, it drops the area: lend a slice of
    /// one that is to be kept.
    pub fn format(disks: usize, blocks: usize, mut area: A) -> Result<Cabinet<A>, Error> {
        let answer = State::format(disks, blocks, area.as_mut());
        answer.result()?;
        Ok(Cabinet {
            state: answer.state,
            area,
        })
    }

    /// The stopped cabinet whose labels were [saved](Cabinet::save) in these slots and whose blocks are in this area,
    /// with the disks of the set `online` in reach.
    ///
    /// Refusals: those of [`State::assemble`], then 2 the area's length. Refused, it drops the area: lend a slice of it
    /// if that is the only copy of the blocks.
    pub fn assemble(disks: usize, blocks: usize, online: DiskSet, slots: &[u8], area: A) -> Result<Cabinet<A>, Error> {
        let answer = State::assemble(disks, blocks, online, slots);
        answer.result()?;
        if area_length(disks, blocks) != Some(area.as_ref().len()) {
            return Err(Refusal::BufferLength.into());
        }
        Ok(Cabinet {
            state: answer.state,
            area,
        })
    }

    /// Reads a block into `output`. After a loss it first moves to the current disks in reach.
    pub fn read(&mut self, block: usize, output: &mut [u8; BLOCK_SIZE], budget: u16) -> Result<u16, Error> {
        let answer = self.state.read(self.area.as_ref(), block, output, budget);
        self.keep(answer)
    }

    /// Writes a block on each current disk that is in reach. After a loss it first moves to these. Cut, it counts if
    /// the block is on the lowest of them: the disks that a restart names then have it, and else the old block.
    pub fn write(&mut self, block: usize, data: &[u8; BLOCK_SIZE], budget: u16) -> Result<u16, Error> {
        let answer = self.state.write(self.area.as_mut(), block, data, budget);
        self.keep(answer)
    }

    /// Gives a disk in reach all blocks and makes it current.
    pub fn join(&mut self, disk: usize, budget: u16) -> Result<u16, Error> {
        let answer = self.state.join(self.area.as_mut(), disk, budget);
        self.keep(answer)
    }

    /// Puts a blank disk in the place of one that is out of reach.
    ///
    /// ```
    /// # use cabinet::{area_length, Cabinet, Error, Label, BLOCK_SIZE};
    /// # let mut cabinet = Cabinet::format(3, 8, vec![0; area_length(3, 8).unwrap()])?;
    /// cabinet.write(0, &[7; BLOCK_SIZE], 99)?;
    /// // Disk 2 dies. A blank one is put in and pushed home; its label is empty. Then it gets all blocks.
    /// cabinet.detach(2)?;
    /// cabinet.swap(2, 99)?;
    /// assert_eq!(cabinet.current().to_string(), "{0, 1}");
    /// let mut shown = [0; 2];
    /// Label::default().write(&mut shown, 2, 3).outcome()?;
    /// cabinet.attach(2, &shown)?;
    /// cabinet.join(2, 99)?;
    /// assert_eq!(cabinet.current().to_string(), "{0, 1, 2}");
    /// # Ok::<(), Error>(())
    /// ```
    pub fn swap(&mut self, disk: usize, budget: u16) -> Result<u16, Error> {
        let answer = self.state.swap(self.area.as_mut(), disk, budget);
        self.keep(answer)
    }

    /// Clears the dirty bits of the current disks in reach, so that a restart need not copy.
    pub fn clean(&mut self, budget: u16) -> Result<u16, Error> {
        self.keep(self.state.clean(budget))
    }

    /// Starts a stopped cabinet: finds the current set from the labels in reach, makes its dirty regions equal and runs
    /// with it.
    pub fn restart(&mut self, budget: u16) -> Result<u16, Error> {
        let answer = self.state.restart(self.area.as_mut(), budget);
        self.keep(answer)
    }

    /// The disk is pulled out.
    pub fn detach(&mut self, disk: usize) -> Result<(), Error> {
        self.keep(self.state.detach(disk)).map(drop)
    }

    /// The disk is pushed back, and is taken if the bytes `shown` start with the label that the cabinet holds for it:
    /// the one that it had when it was pulled.
    ///
    /// ```
    /// # use cabinet::{area_length, slots_length, Cabinet, Error, Refusal, SLOT_SIZE};
    /// # let mut cabinet = Cabinet::format(3, 8, vec![0; area_length(3, 8).unwrap()])?;
    /// // Disk 2 is pulled, with its label on it: its slot has the same bytes.
    /// cabinet.detach(2)?;
    /// let mut slots = [0; slots_length(3).unwrap()];
    /// cabinet.save(&mut slots)?;
    /// let slot = |disk: usize| &slots[SLOT_SIZE * disk..];
    ///
    /// // Disk 1 is pushed into its bay, and then disk 2 itself.
    /// assert_eq!(cabinet.attach(2, slot(1)), Err(Refusal::LabelPlace.into()));
    /// cabinet.attach(2, slot(2))?;
    /// # Ok::<(), Error>(())
    /// ```
    pub fn attach(&mut self, disk: usize, shown: &[u8]) -> Result<(), Error> {
        self.keep(self.state.attach(disk, shown)).map(drop)
    }

    /// The power goes.
    pub fn power_off(&mut self) -> Result<(), Error> {
        self.keep(self.state.power_off()).map(drop)
    }

    /// Why a disk of a stopped cabinet is not current, shown as a sentence. A restart looks for a set of disks in reach
    /// in three stages, 1, 2 and 3, and this tells what keeps the set that the disk was last to be in from being found
    /// in one. A disk that is out of reach is told in each, so 1 will do to find out which one to push in.
    pub fn diagnose(&self, stage: usize, disk: usize) -> Result<Diagnosis, Error> {
        let diagnosis = self.state.diagnose(stage, disk);
        diagnosis.outcome()?;
        Ok(diagnosis)
    }

    /// Writes the labels into `slots`, of [`slots_length`](crate::slots_length) bytes. With the area they are what
    /// [`assemble`](Cabinet::assemble) needs.
    ///
    /// Refusals: 2 the length of the slots.
    pub fn save(&self, slots: &mut [u8]) -> Result<(), Error> {
        self.state.save(slots).result().map(drop)
    }

    /// The state, to be looked at.
    pub fn state(&self) -> &State {
        &self.state
    }

    /// The current disks; none when the cabinet is stopped.
    pub fn current(&self) -> DiskSet {
        self.state.current
    }

    /// The disks in reach.
    pub fn online(&self) -> DiskSet {
        self.state.online
    }

    /// The disk area, to be looked at or kept.
    pub fn area(&self) -> &[u8] {
        self.area.as_ref()
    }

    /// State and area, for one who goes on with the calls by value.
    pub fn into_parts(self) -> (State, A) {
        (self.state, self.area)
    }

    /// Goes on with the state of this answer: a refused call's is the one that it was given.
    fn keep(&mut self, answer: Answer) -> Result<u16, Error> {
        self.state = answer.state;
        answer.result()
    }
}

/// Shows the state. The area may have thousands of bytes.
impl<A> fmt::Debug for Cabinet<A> {
    fn fmt(&self, f: &mut fmt::Formatter<'_>) -> fmt::Result {
        f.debug_struct("Cabinet")
            .field("state", &self.state)
            .finish_non_exhaustive()
    }
}
