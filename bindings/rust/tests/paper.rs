//! The cases of document 01 that it gives to be run: its session, H13 and H14. And a read of document 02's 2.3.

use cabinet::{area_length, Error, State, BLOCK_SIZE, SLOT_SIZE};

/// A cabinet whose area is a vector.
type Cabinet = cabinet::Cabinet<Vec<u8>>;

/// A new cabinet, on an area that held something else before.
fn fresh(disks: usize, blocks: usize) -> Cabinet {
    let length = area_length(disks, blocks).expect("the paper's cabinets exist");
    let cabinet = Cabinet::format(disks, blocks, vec![0xa5; length]).expect("the area fits");
    assert_eq!(cabinet.area(), vec![0; length]);
    cabinet
}

/// What the cabinet program prints of a call, but for the byte read.
fn line(cabinet: &Cabinet, result: Result<u16, Error>) -> [u16; 4] {
    let (number, stores) = result.map_or_else(
        |error| (error.refusal.number().into(), error.stores),
        |stores| (0, stores),
    );
    [
        number,
        stores,
        cabinet.current().bits().into(),
        cabinet.online().bits().into(),
    ]
}

fn write(cabinet: &mut Cabinet, block: usize, byte: u8, budget: u16) -> [u16; 4] {
    let result = cabinet.write(block, &[byte; BLOCK_SIZE], budget);
    line(cabinet, result)
}

fn restart(cabinet: &mut Cabinet, budget: u16) -> [u16; 4] {
    let result = cabinet.restart(budget);
    line(cabinet, result)
}

/// The block, which a read gives that has no store to make.
fn block(cabinet: &mut Cabinet, block: usize) -> [u8; BLOCK_SIZE] {
    let mut output = [0xee; BLOCK_SIZE];
    assert_eq!(cabinet.read(block, &mut output, 0), Ok(0));
    output
}

/// What disk d shows: its slot.
fn shown(cabinet: &Cabinet, disk: usize) -> Vec<u8> {
    let mut slots = vec![0; SLOT_SIZE * usize::from(cabinet.state().disks)];
    cabinet.save(&mut slots).expect("the slots fit");
    slots.split_off(SLOT_SIZE * disk)
}

#[test]
fn the_session_of_the_cabinet_program() {
    let mut cabinet = fresh(3, 8);
    assert_eq!(line(&cabinet, Ok(0)), [0, 0, 7, 7]);
    assert_eq!(cabinet.detach(2), Ok(()));
    assert_eq!(line(&cabinet, Ok(0)), [0, 0, 7, 3]);
    assert_eq!(write(&mut cabinet, 0, 7, 99), [0, 8, 3, 3]);
    assert_eq!(cabinet.power_off(), Ok(()));
    assert_eq!(line(&cabinet, Ok(0)), [0, 0, 0, 3]);
    assert_eq!(restart(&mut cabinet, 99), [0, 12, 3, 3]);
    let label = shown(&cabinet, 2);
    assert_eq!(cabinet.attach(2, &label), Ok(()));
    assert_eq!(line(&cabinet, Ok(0)), [0, 0, 3, 7]);
    let joined = cabinet.join(2, 99);
    assert_eq!(line(&cabinet, joined), [0, 14, 7, 7]);
    assert_eq!(block(&mut cabinet, 0), [7; BLOCK_SIZE]);
}

#[test]
fn h13_one_store_keeps_the_old_block_and_two_are_enough() {
    let mut cabinet = fresh(1, 1);
    assert_eq!(write(&mut cabinet, 0, 7, 1), [15, 1, 0, 1]);
    assert_eq!(restart(&mut cabinet, 99), [0, 2, 1, 1]);
    assert_eq!(block(&mut cabinet, 0), [0; BLOCK_SIZE]);
    let mut cabinet = fresh(1, 1);
    assert_eq!(write(&mut cabinet, 0, 7, 2), [0, 2, 1, 1]);
    assert_eq!(block(&mut cabinet, 0), [7; BLOCK_SIZE]);
}

#[test]
fn h14_a_block_on_one_disk_of_two_is_kept() {
    let mut cabinet = fresh(2, 1);
    assert_eq!(write(&mut cabinet, 0, 7, 3), [15, 3, 0, 3]);
    assert_eq!(restart(&mut cabinet, 99), [0, 5, 3, 3]);
    assert_eq!(block(&mut cabinet, 0), [7; BLOCK_SIZE]);
}

/// "A read that is cut leaves the output buffer unchanged."
#[test]
fn a_read_after_a_loss_moves_and_then_fills_the_output() {
    for budget in 0..=5 {
        let mut cabinet = fresh(3, 8);
        assert_eq!(write(&mut cabinet, 0, 7, 99), [0, 6, 7, 7]);
        assert_eq!(cabinet.detach(2), Ok(()));
        let mut output = [0xee; BLOCK_SIZE];
        let read = cabinet.read(0, &mut output, budget);
        let (told, byte) = match budget {
            0..=3 => ([15, budget, 0, 3], 0xee),
            _ => ([0, 4, 3, 3], 7),
        };
        assert_eq!((line(&cabinet, read), output), (told, [byte; BLOCK_SIZE]));
    }
}

#[test]
fn a_saved_cabinet_assembles_to_the_one_after_a_cut() {
    let mut cabinet = fresh(3, 9);
    assert_eq!(write(&mut cabinet, 8, 7, 4), [15, 4, 0, 7]);
    assert_eq!(restart(&mut cabinet, 99), [0, 8, 7, 7]);
    assert_eq!(write(&mut cabinet, 0, 7, 99), [0, 6, 7, 7]);
    let slots = shown(&cabinet, 0);
    assert_eq!(slots, [5, 0x30, 7, 1, 0, 5, 0x31, 7, 1, 0, 5, 0x32, 7, 1, 0]);
    let (state, area) = cabinet.into_parts();
    let assembled = Cabinet::assemble(3, 9, state.online, &slots, area).expect("they were saved");
    assert_eq!(*assembled.state(), State::power_off(state).state);
}
