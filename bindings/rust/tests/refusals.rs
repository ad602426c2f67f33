//! Each call's refusals, each alone: the answer is its number, and everything stays as it was.

use cabinet::{Answer, DiskSet, Label, Refusal, State};
use Refusal::*;

/// The length of the area of the cabinets below: 2 disks of 9 blocks.
const AREA: usize = 2 * 9 * 64;

/// The sets of the disks 0 and 1, and one with a disk that is not there.
const FIRST: DiskSet = DiskSet::from_bits(1);
const SECOND: DiskSet = DiskSet::from_bits(2);
const BOTH: DiskSet = DiskSet::from_bits(3);
const THIRD: DiskSet = DiskSet::from_bits(4);

/// A call of which only the buffers are left open: the disk area, and the output, data or slots.
type Call = fn(State, &mut [u8], &mut [u8]) -> Answer;

/// A running cabinet of disks 0 and 1, both current and in reach, with 9 blocks.
fn running() -> State {
    let mut state = stopped();
    state.current = BOTH;
    state
}

/// The same, stopped.
fn stopped() -> State {
    let label = Label {
        committed: BOTH,
        ..Label::default()
    };
    let mut state = State {
        disks: 2,
        blocks: 9,
        online: BOTH,
        ..State::default()
    };
    state.labels[..2].fill(label);
    state
}

/// Only disk 1 is current; disk 0 has never been a member.
fn one_current() -> State {
    let mut state = running();
    state.current = SECOND;
    state.labels[0].committed = DiskSet::EMPTY;
    state.labels[1].committed = SECOND;
    state
}

/// The state with other disks in reach.
fn reaching(online: DiskSet, state: State) -> State {
    State { online, ..state }
}

/// A state that is not sound, for its dirty map names a region that it has not.
fn unsound() -> State {
    let mut state = running();
    state.labels[1].dirty = 4;
    state
}

/// Two disks, each committed to itself alone: H10.
fn apart() -> State {
    let mut state = stopped();
    state.labels[0].committed = FIRST;
    state.labels[1].committed = SECOND;
    state
}

/// Makes the call and checks that it is refused so, with the state after it as given, and both buffers as they were.
fn is_refused(refusal: Refusal, call: Call, before: State, after: State, lengths: (usize, usize)) {
    let bytes = |length| (0..length).map(|i| i as u8 | 1).collect::<Vec<u8>>();
    let (mut area, mut other) = (bytes(lengths.0), bytes(lengths.1));
    let answer = call(before, &mut area, &mut other);
    assert_eq!(
        (answer.outcome(), answer.stores, answer.state),
        (Err(refusal), 0, after)
    );
    assert_eq!((area, other), (bytes(lengths.0), bytes(lengths.1)));
}

/// The same for a call that takes a state: "no change in the state".
fn keeps_all(refusal: Refusal, call: Call, state: State, lengths: (usize, usize)) {
    is_refused(refusal, call, state, state, lengths);
}

/// The same for a call that is given no state: "refused, they yield one that is all zero and stopped".
fn yields_zero(refusal: Refusal, call: Call, lengths: (usize, usize)) {
    is_refused(refusal, call, running(), State::default(), lengths);
}

#[test]
fn format_refuses() {
    yields_zero(DiskCount, |_, area, _| State::format(0, 0, area), (AREA, 0));
    yields_zero(DiskCount, |_, area, _| State::format(usize::MAX, 9, area), (AREA, 0));
    yields_zero(BlockCount, |_, area, _| State::format(2, 65, area), (0, 0));
    yields_zero(BufferLength, |_, area, _| State::format(2, 9, area), (AREA + 1, 0));
}

#[test]
fn read_refuses() {
    let read: Call = |state, area, output| state.read(area, 8, output, 0);
    let beyond: Call = |state, area, output| state.read(area, usize::MAX, output, 0);
    keeps_all(Unsound, read, unsound(), (0, 0));
    keeps_all(BufferLength, read, stopped(), (AREA - 1, 0));
    keeps_all(BlockLength, read, stopped(), (AREA, 63));
    keeps_all(Stopped, beyond, stopped(), (AREA, 64));
    keeps_all(NoSuchBlock, beyond, reaching(DiskSet::EMPTY, running()), (AREA, 64));
    keeps_all(NoneLive, read, reaching(DiskSet::EMPTY, running()), (AREA, 64));
    let lost = |state| reaching(SECOND, state);
    is_refused(PowerLost, read, lost(running()), lost(stopped()), (AREA, 64));
}

#[test]
fn write_refuses() {
    let write: Call = |state, area, data| state.write(area, 8, data, 0);
    let beyond: Call = |state, area, data| state.write(area, 9, data, 0);
    keeps_all(Unsound, write, unsound(), (0, 0));
    keeps_all(BufferLength, write, stopped(), (AREA - 1, 0));
    keeps_all(BlockLength, write, stopped(), (AREA, 65));
    keeps_all(Stopped, beyond, stopped(), (AREA, 64));
    keeps_all(NoSuchBlock, beyond, reaching(DiskSet::EMPTY, running()), (AREA, 64));
    keeps_all(NoneLive, write, reaching(DiskSet::EMPTY, running()), (AREA, 64));
    is_refused(PowerLost, write, running(), stopped(), (AREA, 64));
}

#[test]
fn join_refuses() {
    let join: Call = |state, area, _| state.join(area, 0, 0);
    let beyond: Call = |state, area, _| state.join(area, 256, 0);
    keeps_all(Unsound, beyond, unsound(), (0, 0));
    keeps_all(BufferLength, beyond, stopped(), (AREA - 64, 0));
    keeps_all(Stopped, beyond, stopped(), (AREA, 0));
    keeps_all(NoSuchDisk, beyond, running(), (AREA, 0));
    keeps_all(DiskCurrent, join, running(), (AREA, 0));
    keeps_all(DiskCurrent, join, reaching(DiskSet::EMPTY, running()), (AREA, 0));
    keeps_all(DiskOffline, join, reaching(DiskSet::EMPTY, one_current()), (AREA, 0));
    keeps_all(NoneLive, join, reaching(FIRST, one_current()), (AREA, 0));
    let cut = State {
        current: DiskSet::EMPTY,
        ..one_current()
    };
    is_refused(PowerLost, join, one_current(), cut, (AREA, 0));
}

#[test]
fn swap_refuses() {
    let swap: Call = |state, area, _| state.swap(area, 0, 0);
    let beyond: Call = |state, area, _| state.swap(area, 256, 0);
    keeps_all(Unsound, beyond, unsound(), (0, 0));
    keeps_all(BufferLength, beyond, stopped(), (AREA - 64, 0));
    keeps_all(Stopped, beyond, stopped(), (AREA, 0));
    keeps_all(NoSuchDisk, beyond, running(), (AREA, 0));
    keeps_all(DiskOnline, swap, running(), (AREA, 0));
    keeps_all(NoneLive, swap, reaching(DiskSet::EMPTY, running()), (AREA, 0));
    let lost = |state| reaching(SECOND, state);
    is_refused(PowerLost, swap, lost(running()), lost(stopped()), (AREA, 0));
}

#[test]
fn clean_refuses() {
    let clean: Call = |state, _, _| state.clean(0);
    let dirty = |mut state: State| {
        state.labels[1].dirty = 2;
        state
    };
    keeps_all(Unsound, clean, unsound(), (0, 0));
    keeps_all(Stopped, clean, reaching(DiskSet::EMPTY, stopped()), (0, 0));
    keeps_all(NoneLive, clean, reaching(DiskSet::EMPTY, dirty(running())), (0, 0));
    is_refused(PowerLost, clean, dirty(running()), dirty(stopped()), (0, 0));
}

#[test]
fn restart_refuses() {
    let restart: Call = |state, area, _| state.restart(area, 0);
    keeps_all(Unsound, restart, unsound(), (0, 0));
    keeps_all(BufferLength, restart, running(), (0, 0));
    keeps_all(Running, restart, running(), (AREA, 0));
    keeps_all(NoSet, restart, reaching(FIRST, stopped()), (AREA, 0));
    keeps_all(SeveralSets, restart, apart(), (AREA, 0));
    keeps_all(PowerLost, restart, stopped(), (AREA, 0));
}

#[test]
fn detach_attach_and_power_off_refuse() {
    keeps_all(Unsound, |state, _, _| state.detach(2), unsound(), (0, 0));
    keeps_all(NoSuchDisk, |state, _, _| state.detach(2), running(), (0, 0));
    keeps_all(Unsound, |state, _, _| state.attach(2, &[]), unsound(), (0, 0));
    keeps_all(
        NoSuchDisk,
        |state, _, _| state.attach(usize::MAX, &[]),
        running(),
        (0, 0),
    );
    keeps_all(Unsound, |state, _, _| state.power_off(), unsound(), (0, 0));
}

/// Disk 1 of 2 is out of reach and shows these bytes: running or stopped, any but its own label is refused. Its disks
/// have 9 blocks, which are 2 regions.
#[test]
fn attach_refuses_what_is_not_the_stored_label() {
    let shown: [(Refusal, &[u8]); 13] = [
        (LabelCutShort, &[]),
        (LabelCutShort, &[1]),
        (LabelMap, &[9, 0x21, 3]),
        (LabelPlace, &[1, 0x91, 3]),
        (LabelPlace, &[1, 0x22]),
        (LabelCutShort, &[1, 0x21]),
        (LabelEmptyField, &[1, 0x21, 0]),
        (LabelSet, &[1, 0x21, 1]),
        (LabelPlace, &[1, 0x20, 3]),
        (LabelPlace, &[1, 0x31, 3]),
        (NoSuchRegion, &[5, 0x21, 2, 4]),
        (OtherLabel, &[5, 0x21, 3, 2]),
        (OtherLabel, &[0, 0x21]),
    ];
    for state in [running(), stopped()] {
        let away = reaching(FIRST, state);
        for (refusal, bytes) in shown {
            let answer = away.attach(1, bytes);
            assert_eq!((answer.outcome(), answer.state), (Err(refusal), away), "{bytes:?}");
            assert_eq!(state.attach(1, bytes).state, state, "in reach, it is not looked at");
        }
        for bytes in [&[1, 0x21, 3][..], &[1, 0x21, 3, 0xff, 0xff]] {
            assert_eq!(away.attach(1, bytes).state, state, "what follows the label is free");
        }
    }
}

/// Each number alone: 65,536 and 256 are no stages and no disks, whatever their low bytes are.
#[test]
fn diagnose_refuses() {
    let refused = |state: State, stage, disk| {
        let diagnosis = state.diagnose(stage, disk);
        assert_eq!(
            (diagnosis.reason, diagnosis.own, diagnosis.set),
            (None, DiskSet::EMPTY, DiskSet::EMPTY)
        );
        diagnosis.outcome()
    };
    assert_eq!(refused(unsound(), 0, 2), Err(Unsound));
    assert_eq!(refused(running(), 0, 2), Err(Running));
    assert_eq!(refused(stopped(), 0, 2), Err(NoSuchDisk));
    assert_eq!(refused(stopped(), 1, 256), Err(NoSuchDisk));
    for stage in [0, 4, 255, 256, 257, 65_536, 65_537, usize::MAX] {
        assert_eq!(refused(stopped(), stage, 1), Err(NoSuchStage));
    }
}

#[test]
fn save_refuses() {
    let save: Call = |state, _, slots| state.save(slots);
    keeps_all(Unsound, save, unsound(), (0, 0));
    keeps_all(BufferLength, save, running(), (0, 11));
}

#[test]
fn assemble_refuses_numbers() {
    yields_zero(DiskCount, |_, _, slots| State::assemble(9, 0, THIRD, slots), (0, 0));
    yields_zero(BlockCount, |_, _, slots| State::assemble(2, 0, THIRD, slots), (0, 0));
    yields_zero(BufferLength, |_, _, slots| State::assemble(2, 9, THIRD, slots), (0, 9));
    yields_zero(NoSuchDisk, |_, _, slots| State::assemble(2, 9, THIRD, slots), (0, 10));
}

#[test]
fn assemble_refuses_slots() {
    let refused = |slots: [u8; 10]| State::assemble(2, 9, BOTH, &slots).outcome();
    assert_eq!(refused([0, 0x20, 0, 0, 0, 8, 0x21, 0, 0, 0]), Err(LabelMap));
    assert_eq!(refused([0, 0x20, 0, 0, 0, 0, 0x91, 0, 0, 0]), Err(LabelPlace));
    assert_eq!(refused([0, 0x20, 0, 0, 0, 0, 0x20, 0, 0, 0]), Err(LabelPlace));
    assert_eq!(refused([1, 0x20, 0, 0, 0, 8, 0x21, 0, 0, 0]), Err(LabelEmptyField));
    assert_eq!(refused([1, 0x20, 4, 0, 0, 8, 0x21, 0, 0, 0]), Err(LabelSet));
    assert_eq!(refused([4, 0x20, 4, 0, 0, 8, 0x21, 0, 0, 0]), Err(NoSuchRegion));
}
