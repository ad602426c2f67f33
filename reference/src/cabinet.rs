//! The cabinet: a state and a disk area, and the calls with their refusals in the paper's order.

use crate::bay;
use crate::call::Call;
use crate::diagnosis;
use crate::label::Label;
use crate::lists;
use crate::mistakes::{Mistake, Rules};
use crate::naming::{self, Found};
use crate::refusal::{self, *};
use crate::sets::DiskSet;
use crate::state::{Power, State, BLOCK};
use crate::store::{self, Store};
use std::ops::Range;

/// What a call gives: its result, and "the number in the list that were made".
#[derive(Clone, Copy, Debug, PartialEq, Eq)]
pub struct Answer {
    /// 0, or the refusal's number.
    pub result: u8,
    /// The number of stores made.
    pub stores: usize,
}

impl Answer {
    /// A done call without counted stores.
    pub const DONE: Answer = Answer {
        result: DONE,
        stores: 0,
    };

    /// "A refusal gives its number, a store count of 0."
    pub fn refused(result: u8) -> Answer {
        Answer { result, stores: 0 }
    }

    /// Whether the call made stores of its list: all of them, or with 15 the first ones.
    pub fn is_carried_out(self) -> bool {
        [DONE, SUPPLY_ENDED].contains(&self.result)
    }

    /// The answer of a call that may have been refused.
    fn of(outcome: Result<Answer, u8>) -> Answer {
        outcome.unwrap_or_else(Answer::refused)
    }
}

/// A cabinet. The state may be unsound and the area of any length: then the calls refuse.
#[derive(Clone, Debug, PartialEq, Eq)]
pub struct Cabinet {
    /// The rules it follows.
    pub rules: Rules,
    /// The state.
    pub state: State,
    /// The disk area.
    pub area: Vec<u8>,
}

/// Fresh: 4, 5, 2. "It gives all disks in reach, running, C naming all n, T and dirty 0, all blocks zero, no counted
/// stores." Refused, it yields a state "that is all zero and stopped" and leaves the area.
pub fn fresh(rules: Rules, n: u16, b: u16, area: &mut [u8]) -> (Answer, State) {
    match fresh_state(rules, n, b, area.len()) {
        Err(number) => (Answer::refused(number), State::ZERO),
        Ok(state) => {
            area.fill(0);
            (Answer::DONE, state)
        }
    }
}

/// The state that fresh gives, or its refusal.
fn fresh_state(rules: Rules, n: u16, b: u16, area_length: usize) -> Result<State, u8> {
    refusal::first(&[
        (DISK_COUNT, !(1..=8).contains(&n)),
        (BLOCK_COUNT, !(1..=64).contains(&b)),
    ])?;
    let all = DiskSet::below(n as u8);
    let mut state = State {
        disks: n as u8,
        blocks: b as u8,
        reach: all,
        power: Power::Running(all),
        ..State::ZERO
    };
    refusal::first(&[(WRONG_LENGTH, area_length != state.area_length())])?;
    let tentative = if rules.makes(Mistake::FormatWithTentative) {
        all
    } else {
        DiskSet::EMPTY
    };
    state.labels[..n as usize].fill(Label {
        committed: all,
        tentative,
        dirty: 0,
    });
    Ok(state)
}

impl Cabinet {
    /// The cabinet of a done fresh call, on an area of the right length.
    pub fn fresh(rules: Rules, n: u16, b: u16) -> Result<Cabinet, u8> {
        let in_range = (1..=8).contains(&n) && (1..=64).contains(&b);
        let length = if in_range { n as usize * b as usize * BLOCK } else { 0 };
        let mut area = vec![0; length];
        match fresh(rules, n, b, &mut area) {
            (Answer::DONE, state) => Ok(Cabinet { rules, state, area }),
            (answer, _) => Err(answer.result),
        }
    }

    /// Makes a call of the list.
    pub fn take(&mut self, call: &Call, output: &mut [u8]) -> Answer {
        match call {
            Call::Read { block, supply } => self.read(*block, output, *supply),
            Call::Write { block, data, supply } => self.write(*block, data, *supply),
            Call::Join { disk, supply } => self.join(*disk, *supply),
            Call::Quiet { supply } => self.quiet(*supply),
            Call::Restart { supply } => self.restart(*supply),
            Call::Lose { disk } => self.lose(*disk),
            Call::Return { disk, shown } => self.give_back(*disk, shown),
            Call::Cut => self.cut(),
            Call::Diagnose { stage, disk } => self.diagnose(*stage, *disk),
            Call::Swap { disk, supply } => self.swap(*disk, *supply),
        }
    }

    /// Read: 1, 2, 3, 6, 9, 12, 15. "A read that is cut leaves the output buffer unchanged" (request 2.3).
    pub fn read(&mut self, block: u16, output: &mut [u8], supply: u16) -> Answer {
        Answer::of(self.lowest_live(block, output.len()).map(|lowest| {
            let range = self.read_range(lowest, block as u8);
            let list = lists::read(self.rules, &self.state);
            let answer = self.carry_out(&list, supply, self.set_after_read());
            if answer.result == DONE || self.rules.makes(Mistake::ReadFillsThenCut) {
                output.copy_from_slice(&self.area[range]);
            }
            self.miscount(answer, Mistake::ReadCountsNoStores, 0)
        }))
    }

    /// "Read copies block k from the lowest member of L": the place of that block.
    fn read_range(&self, lowest: u8, block: u8) -> Range<usize> {
        let disk = match self.state.current().lowest() {
            Some(lowest_current) if self.rules.makes(Mistake::ReadFromLostDisk) => lowest_current,
            _ => lowest,
        };
        let block = if self.rules.makes(Mistake::ReadOfAnotherBlock) {
            0
        } else {
            block
        };
        self.state.block_range(disk, block)
    }

    /// The G that a read leaves: L, whether it had to move there or not.
    fn set_after_read(&self) -> DiskSet {
        let stays = [Mistake::ReadKeepsSet, Mistake::ReadStays];
        if stays.iter().any(|mistake| self.rules.makes(*mistake)) {
            self.state.current()
        } else {
            self.state.live()
        }
    }

    /// Write: 1, 2, 3, 6, 9, 12, 15.
    pub fn write(&mut self, block: u16, data: &[u8], supply: u16) -> Answer {
        Answer::of(self.lowest_live(block, data.len()).map(|_lowest| {
            let list = lists::write(self.rules, &self.state, block as u8, data);
            let before = self.state;
            let answer = self.carry_out(&list, supply, before.live());
            let moved = lists::read(self.rules, &before).len();
            self.miscount(answer, Mistake::WriteCountsMoveTwice, answer.stores + moved)
        }))
    }

    /// Read and write, with a buffer of this length: 1, 2, 3, 6, 9, 12. Otherwise the lowest member of L.
    fn lowest_live(&self, block: u16, buffer: usize) -> Result<u8, u8> {
        refusal::first(&[
            (UNSOUND, self.is_unsound()),
            (WRONG_LENGTH, self.area_misfits()),
            (NOT_A_BLOCK, buffer != BLOCK),
            (STOPPED, self.state.is_stopped()),
            (NO_SUCH_BLOCK, block >= self.state.blocks.into()),
        ])?;
        self.state.live().lowest().ok_or(NONE_LIVE)
    }

    /// Join: 1, 2, 6, 8, 11, 10, 12, 15: "membership is tested before reach in a join" (request 2.1).
    pub fn join(&mut self, disk: u16, supply: u16) -> Answer {
        let beyond = disk >= self.state.disks.into();
        let is_in = |set: DiskSet| !beyond && set.has(disk as u8);
        let mut refusals = [
            (UNSOUND, self.is_unsound()),
            (WRONG_LENGTH, self.area_misfits()),
            (STOPPED, self.state.is_stopped()),
            (NO_SUCH_DISK, beyond),
            (ALREADY_MEMBER, is_in(self.state.current())),
            (OUT_OF_REACH, !is_in(self.state.reach)),
            (NONE_LIVE, self.state.live().is_empty()),
        ];
        misorder_join(self.rules, &mut refusals);
        Answer::of(refusal::first(&refusals).map(|()| {
            let list = lists::join(self.rules, &self.state, disk as u8);
            self.carry_out(&list, supply, self.state.live().with(disk as u8))
        }))
    }

    /// Quiet: 1, 6, 12, 15. It takes no disk area and does not move: G stays.
    pub fn quiet(&mut self, supply: u16) -> Answer {
        let ready = refusal::first(&[
            (UNSOUND, self.is_unsound()),
            (STOPPED, self.state.is_stopped()),
            (NONE_LIVE, self.state.live().is_empty()),
        ]);
        Answer::of(ready.map(|()| {
            let list = lists::quiet(self.rules, &self.state);
            let answer = self.carry_out(&list, supply, self.state.current());
            self.miscount(answer, Mistake::CleanCountsDisks, self.state.live().size())
        }))
    }

    /// Restart: 1, 2, 7, 13, 14, 15. "Then run with G = S."
    pub fn restart(&mut self, supply: u16) -> Answer {
        Answer::of(self.restart_set().map(|set| {
            let list = lists::restart(self.rules, &self.state, set);
            let answer = self.carry_out(&list, supply, set);
            let other_stores = answer.stores.saturating_sub(set.size());
            self.miscount(answer, Mistake::RestartCountsNoCommits, other_stores)
        }))
    }

    /// The set that a restart names, or its refusal.
    fn restart_set(&self) -> Result<DiskSet, u8> {
        refusal::first(&[
            (UNSOUND, self.is_unsound()),
            (WRONG_LENGTH, self.area_misfits()),
            (RUNNING, !self.state.is_stopped()),
        ])?;
        match naming::named(self.rules, &self.state.labels, self.state.reach) {
            Found::None => Err(NO_CANDIDATE),
            Found::Several => Err(SEVERAL_CANDIDATES),
            Found::One(set) => Ok(set),
        }
    }

    /// Lose: 1, 8. "Losing a lost disk" is "done, with no effect".
    pub fn lose(&mut self, disk: u16) -> Answer {
        let rules = self.rules;
        self.change_reach(self.existing_disk(disk), |reach, disk| without_lost(rules, reach, disk))
    }

    /// Return: 1, 8, then the refusals of what the disk shows. "A returned disk that is in G is current again."
    pub fn give_back(&mut self, disk: u16, shown: &[u8]) -> Answer {
        self.change_reach(self.returning_disk(disk, shown), DiskSet::with)
    }

    /// Lose and return change only R.
    fn change_reach(&mut self, found: Result<u8, u8>, change: impl Fn(DiskSet, u8) -> DiskSet) -> Answer {
        Answer::of(found.map(|disk| {
            self.state.reach = change(self.state.reach, disk);
            Answer::DONE
        }))
    }

    /// Lose and return: 1, 8. Otherwise the disk.
    fn existing_disk(&self, disk: u16) -> Result<u8, u8> {
        refusal::first(&[
            (UNSOUND, self.is_unsound()),
            (NO_SUCH_DISK, disk >= self.state.disks.into()),
        ])?;
        Ok(disk as u8)
    }

    /// "Returning a disk that is already in reach still has no effect and does not look at the bytes" (request 2.6).
    fn returning_disk(&self, disk: u16, shown: &[u8]) -> Result<u8, u8> {
        let disk = self.existing_disk(disk)?;
        let is_away = !self.state.reach.has(disk) || self.rules.makes(Mistake::ReturnLooksInReach);
        let is_seen = self.state.is_stopped() || !self.rules.makes(Mistake::ReturnCheckedWhenStopped);
        if is_away && is_seen && !self.rules.makes(Mistake::ReturnUnseen) {
            self.shows_stored_label(disk, shown)?;
        }
        Ok(disk)
    }

    /// "The disk comes into reach only if they read as its stored label, the one the state holds, running or stopped.
    /// After 8 come label reading's refusals in their order, then 18 where its number or n is not this bay's, 22, then
    /// 25" (request 2.6).
    fn shows_stored_label(&self, disk: u8, shown: &[u8]) -> Result<(), u8> {
        let stored = self.state.labels[disk as usize];
        let mut label = match bay::label(self.rules, &self.state, disk, shown) {
            // No stored label has such a bit, so each label that has one differs.
            Err(NO_SUCH_REGION) if self.rules.makes(Mistake::ReturnDiffersBeforeRegion) => return Err(LABEL_DIFFERS),
            read => read?,
        };
        if self.rules.makes(Mistake::ReturnIgnoresDirty) {
            label.dirty = stored.dirty;
        }
        let compares_bytes = self.rules.makes(Mistake::ReturnComparesBytes);
        let bytes_differ = compares_bytes && shown != self.state.stored_label(disk.into());
        refusal::first(&[(LABEL_DIFFERS, label != stored || bytes_differ)])
    }

    /// Cut: 1, and none of its own.
    pub fn cut(&mut self) -> Answer {
        let refuses_stopped = self.rules.makes(Mistake::CutOfStoppedRefused);
        let ready = refusal::first(&[
            (UNSOUND, self.is_unsound()),
            (STOPPED, self.state.is_stopped() && refuses_stopped),
        ]);
        Answer::of(ready.map(|()| {
            self.state.power = Power::Stopped;
            Answer::DONE
        }))
    }

    /// The number of a diagnosis, as an answer of the list: it makes no stores. What else it tells is for the asker.
    fn diagnose(&self, stage: u32, disk: u32) -> Answer {
        let told = diagnosis::diagnose(self.rules, &self.state, stage, disk);
        Answer {
            result: told.result,
            stores: 0,
        }
    }

    /// Swap: 1, 2, 6, 8, 24, "then 12 where d is in G, then 15" (request 2.5).
    pub fn swap(&mut self, disk: u16, supply: u16) -> Answer {
        let beyond = disk >= self.state.disks.into();
        let is_in = |set: DiskSet| !beyond && set.has(disk as u8);
        let needs_power = !self.rules.makes(Mistake::SwapOfStoppedCabinet);
        let needs_live = is_in(self.state.current()) || self.rules.makes(Mistake::SwapNeedsLiveDisk);
        let ready = refusal::first(&[
            (UNSOUND, self.is_unsound()),
            (WRONG_LENGTH, self.area_misfits()),
            (STOPPED, self.state.is_stopped() && needs_power),
            (NO_SUCH_DISK, beyond),
            (IN_REACH, is_in(self.state.reach)),
            (NONE_LIVE, self.state.live().is_empty() && needs_live),
        ]);
        Answer::of(ready.map(|()| {
            let answer = self.move_for_swap(disk as u8, supply);
            self.change_disk(disk as u8, answer)
        }))
    }

    /// "If d is in G the cabinet first moves to L, within the supply." For another d it runs on with its G. A stopped
    /// cabinet, which only a mistake lets come here, stays so.
    fn move_for_swap(&mut self, disk: u8, supply: u16) -> Answer {
        if self.state.is_stopped() {
            return Answer::DONE;
        }
        let list = lists::swap(self.rules, &self.state, disk);
        let then = if lists::swap_moves(self.rules, &self.state, disk) {
            self.state.live()
        } else {
            self.state.current()
        };
        self.carry_out(&list, supply, then)
    }

    /// "When that is done, d has an empty label, zero blocks (no counted stores), and is still out of reach until
    /// returned. A cut during the move leaves the old disk in."
    fn change_disk(&mut self, disk: u8, moved: Answer) -> Answer {
        let (rules, is_done) = (self.rules, moved.result == DONE);
        if is_done && !rules.makes(Mistake::SwapKeepsLabel) {
            self.state.labels[disk as usize] = Label::ZERO;
        }
        if is_done && !rules.makes(Mistake::SwapKeepsBlocks) || rules.makes(Mistake::SwapZeroesThoughCut) {
            self.area[self.state.disk_range(disk)].fill(0);
        }
        if is_done && rules.makes(Mistake::SwapComesIntoReach) {
            self.state.reach = self.state.reach.with(disk);
        }
        let with_blocks = moved.stores + usize::from(self.state.blocks);
        self.miscount(moved, Mistake::SwapCountsBlocks, with_blocks)
    }

    /// "If the list is longer than the supply, exactly the first supply stores are made, the cabinet is stopped, and
    /// the result is 15 with that count. Otherwise all are made", and the cabinet runs with `then`.
    fn carry_out(&mut self, list: &[Store], supply: u16, then: DiskSet) -> Answer {
        let is_cut = list.len() > supply as usize;
        let stores = list.len().min(supply as usize);
        let made = if self.rules.makes(Mistake::CutMakesWholeList) {
            list
        } else {
            &list[..stores]
        };
        for &one in made {
            store::apply(self.rules, one, &mut self.state, &mut self.area);
        }
        self.state.power = match is_cut {
            true if self.rules.makes(Mistake::CutRunsOn) => Power::Running(self.state.reach),
            true => Power::Stopped,
            false => Power::Running(then),
        };
        let result = if is_cut { SUPPLY_ENDED } else { DONE };
        Answer { result, stores }
    }

    /// The answer; a done one with another count of stores, if this mistake is made.
    fn miscount(&self, answer: Answer, mistake: Mistake, stores: usize) -> Answer {
        match answer.result {
            DONE if self.rules.makes(mistake) => Answer { stores, ..answer },
            _ => answer,
        }
    }

    /// The condition of refusal 1.
    fn is_unsound(&self) -> bool {
        !self.state.is_sound(self.rules)
    }

    /// The condition of refusal 2.
    fn area_misfits(&self) -> bool {
        self.area.len() != self.state.area_length()
    }
}

/// R without a disk that is lost, which may be lost already.
fn without_lost(rules: Rules, reach: DiskSet, disk: u8) -> DiskSet {
    let is_new = reach.has(disk);
    if !is_new && rules.makes(Mistake::LoseLostLosesAll) {
        return DiskSet::EMPTY;
    }
    if is_new && rules.makes(Mistake::LoseTakesNext) {
        let both = DiskSet::below(disk + 2).minus(DiskSet::below(disk));
        return reach.minus(both);
    }
    reach.without(disk)
}

/// Two mistakes test the last three conditions of a join in another order. The paper's rules leave it as it stands.
fn misorder_join(rules: Rules, refusals: &mut [(u8, bool); 7]) {
    let [.., member, reach, live] = *refusals;
    if rules.makes(Mistake::JoinNoneLiveBeforeMember) {
        refusals[4..].copy_from_slice(&[live, member, reach]);
    }
    if rules.makes(Mistake::JoinReachBeforeMember) {
        refusals[4..].copy_from_slice(&[reach, member, live]);
    }
}
