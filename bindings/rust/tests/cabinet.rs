//! A cabinet's calls give what the calls by value give, along one history each of many.

use cabinet::{area_length, Answer, Cabinet, DiskSet, Error, Label, Refusal, State};
use cabinet::{BLOCK_SIZE, MOST_BLOCKS, MOST_DISKS, SLOT_SIZE};

/// The histories and the calls of each.
const HISTORIES: usize = 200;
const CALLS: usize = 200;
/// The calls by their shares: a stopped cabinet is soon restarted, and a pulled disk returned.
const KINDS: [usize; 16] = [0, 0, 1, 1, 1, 2, 2, 3, 4, 5, 5, 5, 6, 7, 7, 8];

/// Numbers that look random, the same in each run (Knuth's MMIX constants).
struct Numbers(u64);

impl Numbers {
    fn below(&mut self, bound: usize) -> usize {
        self.0 = self
            .0
            .wrapping_mul(6_364_136_223_846_793_005)
            .wrapping_add(1_442_695_040_888_963_407);
        (self.0 >> 33) as usize % bound
    }
}

/// The same cabinet twice: one that keeps its state, and a state beside an area.
struct Pair {
    cabinet: Cabinet<Vec<u8>>,
    state: State,
    area: Vec<u8>,
}

impl Pair {
    fn new(disks: usize, blocks: usize) -> Pair {
        let length = area_length(disks, blocks).expect("there are such cabinets");
        let mut area = vec![1; length];
        let state = State::format(disks, blocks, &mut area).state;
        let cabinet = Cabinet::format(disks, blocks, vec![1; length]).expect("the area fits");
        Pair { cabinet, state, area }
    }

    /// One call on both. The number is of a block or a disk, and may be one too large.
    fn call(&mut self, kind: usize, number: usize, budget: u16) -> (Result<u16, Error>, Answer) {
        let (cabinet, state, area) = (&mut self.cabinet, self.state, &mut self.area);
        let data = [budget as u8; BLOCK_SIZE];
        let (mut kept, mut given) = ([0xee; BLOCK_SIZE], [0xee; BLOCK_SIZE]);
        let shown = shown(&state, number);
        let stores = |()| 0;
        let pair = match kind {
            0 => (
                cabinet.read(number, &mut kept, budget),
                state.read(area, number, &mut given, budget),
            ),
            1 => (
                cabinet.write(number, &data, budget),
                state.write(area, number, &data, budget),
            ),
            2 => (cabinet.join(number, budget), state.join(area, number, budget)),
            3 => (cabinet.swap(number, budget), state.swap(area, number, budget)),
            4 => (cabinet.clean(budget), state.clean(budget)),
            5 => (cabinet.restart(budget), state.restart(area, budget)),
            6 => (cabinet.detach(number).map(stores), state.detach(number)),
            7 => (cabinet.attach(number, &shown).map(stores), state.attach(number, &shown)),
            _ => (cabinet.power_off().map(stores), state.power_off()),
        };
        assert_eq!(kept, given);
        pair
    }
}

/// The stored label of a disk, or nothing if there is no such disk.
fn shown(state: &State, disk: usize) -> Vec<u8> {
    let mut shown = vec![0; SLOT_SIZE];
    let label = state.labels.get(disk).copied().unwrap_or_default();
    let written = label.write(&mut shown, disk, state.disks.into());
    shown.truncate(written.length);
    shown
}

#[test]
fn a_cabinet_gives_what_the_calls_by_value_give() {
    let mut numbers = Numbers(1);
    let (mut done, mut cut) = (0, 0);
    for history in 0..HISTORIES {
        let mut pair = Pair::new(1 + history % 8, 1 + numbers.below(9));
        for _ in 0..CALLS {
            let kind = KINDS[numbers.below(KINDS.len())];
            let number = numbers.below(1 + usize::from(pair.state.disks));
            let budget = if numbers.below(3) == 0 { numbers.below(9) } else { 999 };
            let (result, answer) = pair.call(kind, number, budget as u16);
            assert_eq!(result, answer.result());
            pair.state = answer.state;
            assert_eq!(
                (pair.cabinet.state(), pair.cabinet.area()),
                (&pair.state, &pair.area[..])
            );
            done += usize::from(result.is_ok());
            cut += usize::from(result.is_err_and(|error| error.refusal == Refusal::PowerLost));
        }
    }
    assert!(done > 10_000 && cut > 500, "{done} done, {cut} cut");
}

#[test]
fn a_cut_call_says_how_many_stores_were_made() {
    let mut cabinet = Cabinet::format(3, 8, [0; 3 * 8 * BLOCK_SIZE]).expect("the area fits");
    let cut = cabinet
        .write(0, &[7; BLOCK_SIZE], 4)
        .expect_err("a write on three disks has 6 stores");
    assert_eq!(cut.stores, 4);
    assert_eq!(
        cut.to_string(),
        "cut with 15: the power went before the last store; stores made: 4"
    );
    let refused = cabinet
        .write(0, &[7; BLOCK_SIZE], 4)
        .expect_err("the cabinet is stopped");
    assert_eq!(refused, Refusal::Stopped.into());
    assert_eq!(refused.to_string(), "refused with 6: the cabinet is stopped");
}

#[test]
fn a_cabinet_is_made_only_with_an_area_that_fits() {
    let format = |length| Cabinet::format(2, 1, vec![0; length]).map(drop);
    assert_eq!(format(2 * BLOCK_SIZE), Ok(()));
    assert_eq!(format(2 * BLOCK_SIZE + 1), Err(Refusal::BufferLength.into()));
    let mut slots = [0; 2 * SLOT_SIZE];
    for (disk, slot) in slots.chunks_mut(SLOT_SIZE).enumerate() {
        assert_eq!(Label::default().write(slot, disk, 2).outcome(), Ok(()));
    }
    let assemble = |slots: &[u8], length| {
        let area = vec![0; length];
        Cabinet::assemble(2, 1, DiskSet::below(2), slots, area).map(drop)
    };
    assert_eq!(assemble(&slots, 2 * BLOCK_SIZE), Ok(()));
    assert_eq!(assemble(&slots, 0), Err(Refusal::BufferLength.into()));
    slots[0] = 8;
    assert_eq!(
        assemble(&slots, 0),
        Err(Refusal::LabelMap.into()),
        "the slots come first"
    );
}

/// The header and the crate's page say how many stores a call can have to make: the longest list is this one.
#[test]
fn the_longest_restart_has_520_stores() {
    let (disks, blocks) = (MOST_DISKS, MOST_BLOCKS);
    let area = vec![0; area_length(disks, blocks).expect("the largest cabinet exists")];
    let mut cabinet = Cabinet::format(disks, blocks, area).expect("the area fits");
    for block in 0..blocks {
        cabinet
            .write(block, &[7; BLOCK_SIZE], 99)
            .expect("all disks are in reach");
    }
    cabinet.power_off().expect("a sound state");
    let (copies, clears, commits) = ((disks - 1) * blocks, disks * 8, disks);
    assert_eq!(copies + clears + commits, 520);
    assert_eq!(cabinet.restart(u16::MAX), Ok(520));
}

#[test]
fn a_cabinet_may_borrow_its_area() {
    let mut area = [0; 2 * BLOCK_SIZE];
    let mut cabinet = Cabinet::format(2, 1, &mut area[..]).expect("the area fits");
    cabinet.write(0, &[7; BLOCK_SIZE], 99).expect("all disks are in reach");
    assert_eq!(area, [7; 2 * BLOCK_SIZE]);
}

#[test]
fn a_diagnosis_is_a_result() {
    let mut cabinet = Cabinet::format(2, 1, [0; 2 * BLOCK_SIZE]).expect("the area fits");
    assert_eq!(cabinet.diagnose(1, 0), Err(Refusal::Running.into()));
    cabinet.power_off().expect("a sound state");
    cabinet.detach(1).expect("there is a disk 1");
    let told = cabinet.diagnose(3, 0).expect("it is stopped");
    assert_eq!(told.to_string(), "disk 1 of {0, 1} is out of reach");
}
