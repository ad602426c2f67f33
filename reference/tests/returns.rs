//! Request 2.6, 'A pulled disk has been in another cabinet': what a returned disk may show, each refusal by hand and
//! all of them in every small state; old and new disks; and why blocks must come back unaltered.

use reference::cabinet::{Answer, Cabinet};
use reference::call::Call;
use reference::claims::{Claim, Event};
use reference::definitions;
use reference::driver;
use reference::explorer::explore;
use reference::label::{self, Label};
use reference::mistakes::{Mistake, Rules};
use reference::program::{parse, Command};
use reference::return_claims::ReturnClaim;
use reference::sets::DiskSet;
use reference::shown::Shown;
use reference::slots::{self, SLOT};
use reference::small_states;
use reference::sound_states;
use reference::state::{Power, State};
use reference::trial::Trial;
use std::collections::BTreeSet;

/// A supply that suffices for every call of these tests.
const AMPLE: u16 = 999;

/// The stored label of disk 1 of 3: C 7, and region 1 is dirty.
const STORED: [u8; 4] = [0x05, 0x31, 0x07, 0x02];

/// What that disk of 9 blocks, which are two regions, may show when it is out of reach, and the result. What is behind
/// each number's condition may hold too: then the earlier one is given.
const EXAMPLES: [(&[u8], u8, &str); 36] = [
    (&[], 16, "no byte"),
    (&[0x05], 16, "one byte"),
    (&[0x08], 16, "one byte, and a bit from 3 up"),
    (&[0x0d, 0x31, 0x07, 0x02], 17, "bit 3 of the map"),
    (&[0x85, 0x31, 0x07, 0x02], 17, "bit 7 of the map"),
    (&[0x08, 0x00], 17, "bit 3, and n is 0"),
    (&[0x05, 0x01, 0x07, 0x02], 18, "n is 0"),
    (&[0x05, 0x91, 0x07, 0x02], 18, "n is 9"),
    (&[0x05, 0x33, 0x07, 0x02], 18, "the number is not below n"),
    (&[0x05, 0x33], 18, "the number is not below n, and no field"),
    (&[0x05, 0x31], 16, "no field"),
    (&[0x05, 0x31, 0x07], 16, "one field of two"),
    (&[0x05, 0x31, 0x00], 16, "one field of two, which is 0"),
    (&[0x05, 0x31, 0x00, 0x02], 19, "a C of 0"),
    (&[0x07, 0x31, 0x07, 0x00, 0x02], 19, "a T of 0"),
    (&[0x05, 0x31, 0x07, 0x00], 19, "a dirty map of 0"),
    (
        &[0x05, 0x31, 0x05, 0x00],
        19,
        "a dirty map of 0, and C omits its own disk",
    ),
    (&[0x05, 0x31, 0x05, 0x02], 20, "C omits its own disk"),
    (&[0x05, 0x31, 0x0f, 0x02], 20, "C names disk 3"),
    (&[0x07, 0x31, 0x07, 0x04, 0x02], 20, "T omits its own disk"),
    (&[0x05, 0x41, 0x05, 0x02], 20, "C omits its own disk, and n is 4"),
    (&[0x05, 0x32, 0x07, 0x02], 18, "the number is 2"),
    (&[0x05, 0x41, 0x07, 0x02], 18, "n is 4"),
    (&[0x01, 0x10, 0x01], 18, "a cabinet of its own"),
    (
        &[0x05, 0x32, 0x07, 0x04],
        18,
        "the number is 2, and a dirty bit names no region",
    ),
    (
        &[0x05, 0x41, 0x03, 0x84],
        18,
        "n is 4, C is 3, and dirty bits name no region",
    ),
    (&[0x05, 0x31, 0x07, 0x04], 22, "the dirty bit of region 2"),
    (&[0x05, 0x31, 0x07, 0x82], 22, "the dirty bit of region 7 too"),
    (&[0x05, 0x31, 0x03, 0x04], 22, "the dirty bit of region 2, and C is 3"),
    (&[0x05, 0x31, 0x03, 0x02], 25, "C is 3"),
    (&[0x07, 0x31, 0x07, 0x07, 0x02], 25, "T is 7"),
    (&[0x05, 0x31, 0x07, 0x03], 25, "region 0 is dirty too"),
    (&[0x01, 0x31, 0x07], 25, "no region is dirty"),
    (&[0x00, 0x31], 25, "a blank disk"),
    (&STORED, 0, "the stored label"),
    (&[0x05, 0x31, 0x07, 0x02, 0x00], 0, "the stored label and one byte more"),
];

/// A cabinet of three disks of 9 blocks with this power condition, in which disk 1 has that label.
fn cabinet(power: Power, reach: DiskSet) -> Cabinet {
    let mut cabinet = Cabinet::fresh(Rules::PAPER, 3, 9).expect("n and b are in range");
    cabinet.state.labels[1].dirty = 2;
    (cabinet.state.power, cabinet.state.reach) = (power, reach);
    cabinet
}

/// Running and stopped.
const POWERS: [Power; 2] = [Power::Running(DiskSet(7)), Power::Stopped];

/// Whether a return gives this result, a done one leaves this R, and nothing else changes.
fn gives(before: &Cabinet, disk: u16, shown: &[u8], result: u8, reach: DiskSet) -> bool {
    let (mut after, mut expected) = (before.clone(), before.clone());
    if result == 0 {
        expected.state.reach = reach;
    }
    after.give_back(disk, shown) == Answer { result, stores: 0 } && after == expected
}

#[test]
fn refusals_fall_in_their_order() {
    for power in POWERS {
        let away = cabinet(power, DiskSet(1));
        for (shown, result, what) in EXAMPLES {
            assert!(
                gives(&away, 1, shown, result, DiskSet(3)),
                "{what}: {result}, {power:?}"
            );
        }
    }
}

#[test]
fn what_a_disk_in_reach_shows_is_not_looked_at() {
    for power in POWERS {
        let in_reach = cabinet(power, DiskSet(2));
        for (shown, _, what) in EXAMPLES {
            assert!(gives(&in_reach, 1, shown, 0, DiskSet(2)), "{what}, {power:?}");
        }
    }
}

/// 1 and 8 come first, whatever is shown, and whatever is in reach.
#[test]
fn no_such_disk_gives_8_and_an_unsound_state_1() {
    for (power, reach) in POWERS.into_iter().flat_map(|power| [(power, 0), (power, 7)]) {
        let sound = cabinet(power, DiskSet(reach));
        let mut unsound = sound.clone();
        unsound.state.blocks = 0;
        for (shown, _, what) in EXAMPLES {
            for disk in [3, 7, 8, 255, 256, 257, 65_535] {
                assert!(gives(&sound, disk, shown, 8, sound.state.reach), "{what}, disk {disk}");
                assert!(
                    gives(&unsound, disk, shown, 1, sound.state.reach),
                    "{what}, disk {disk}"
                );
            }
            assert!(gives(&unsound, 1, shown, 1, sound.state.reach), "{what}");
        }
    }
}

/// "What follows is not read", of any length: each label that is read gives the same with more behind it.
#[test]
fn bytes_after_the_label_are_free() {
    let away = cabinet(Power::Running(DiskSet(7)), DiskSet(1));
    for (shown, result, what) in EXAMPLES.into_iter().filter(|(_, result, _)| *result != 16) {
        for more in [vec![0], vec![255; 3], STORED.to_vec(), vec![7; 100_000]] {
            let shown = [shown, &more].concat();
            assert!(gives(&away, 1, &shown, result, DiskSet(3)), "{what}, and more");
        }
    }
}

/// What assembling three such disks gives when disk 1 has these bytes in its slot.
fn assembled(rules: Rules, bytes: &[u8]) -> u8 {
    let state = cabinet(Power::Stopped, DiskSet(1)).state;
    let mut all = [0; 3 * SLOT];
    slots::save(rules, &state, &mut all);
    let slot = &mut all[SLOT..2 * SLOT];
    slot.fill(0);
    slot[..bytes.len()].copy_from_slice(bytes);
    slots::assemble(rules, 3, 9, state.reach, &all).0.result
}

/// A slot is held against its bay as a returned disk is, but it is long enough, and no label is stored yet.
#[test]
fn assembling_refuses_the_same_labels() {
    for (bytes, result, what) in EXAMPLES.into_iter().filter(|(_, result, _)| *result != 16) {
        let expected = if result == 25 { 0 } else { result };
        assert_eq!(assembled(Rules::PAPER, bytes), expected, "{what}");
    }
    let of_four = [0x05, 0x41, 0x07, 0x02];
    let wrong = Rules::with(Mistake::BayIgnoresDiskCount);
    assert_eq!((assembled(Rules::PAPER, &of_four), assembled(wrong, &of_four)), (18, 0));
}

/// "After 8 come label reading's refusals in their order, then 18 where its number or n is not this bay's, 22, then
/// 25."
fn expected(state: &State, disk: u16, shown: &[u8]) -> u8 {
    let is_in_reach = disk < 8 && state.reach.0 >> disk & 1 == 1;
    match label::read(shown) {
        _ if !definitions::is_sound(state) => 1,
        _ if disk >= state.disks.into() => 8,
        _ if is_in_reach => 0,
        Err(number) => number,
        Ok(read) if u16::from(read.disk) != disk || read.disks != state.disks => 18,
        Ok(read) if u32::from(read.label.dirty) >= 1 << state.blocks.div_ceil(8) => 22,
        Ok(read) if read.label != state.labels[usize::from(disk)] => 25,
        Ok(_) => 0,
    }
}

/// Small states have one region, and sound ones of two disks too.
#[test]
fn each_kind_of_bytes_gives_its_number_in_every_small_state() {
    let sound = (1..=2).flat_map(sound_states::all);
    let mut seen = BTreeSet::new();
    for state in small_states::all().chain(sound) {
        let (rules, area) = (Rules::PAPER, vec![85; 64]);
        let cabinet = Cabinet { rules, state, area };
        let disks = || (0..=u16::from(state.disks)).chain([8, 256, 65_535]);
        for (disk, kind) in disks().flat_map(|disk| Shown::ALL.map(|kind| (disk, kind))) {
            let shown = kind.bytes(&state, disk);
            let result = expected(&state, disk, &shown);
            let reach = DiskSet(state.reach.0 | 1 << (disk % 8));
            assert!(
                gives(&cabinet, disk, &shown, result, reach),
                "disk {disk}, {kind:?}, {state:?}"
            );
            seen.insert(result);
        }
    }
    assert_eq!(seen, [0, 1, 8, 16, 17, 18, 19, 20, 22, 25].into());
}

/// The trial after these calls, of which every claim holds, and the result of the last one.
fn after(trial: &Trial, calls: &[Call]) -> (Trial, u8) {
    let (trial, answer) = trial.after_all(calls, &[170; 64]).expect("all claims hold");
    (trial, answer.result)
}

fn fresh(n: u16, b: u16) -> Trial {
    Trial::fresh(Rules::PAPER, Rules::PAPER, n, b).expect("n and b are in range")
}

fn write(byte: u8) -> Call {
    Call::Write {
        block: 0,
        data: vec![byte; 64],
        supply: AMPLE,
    }
}

fn showing(disk: u16, shown: &[u8]) -> Call {
    let shown = shown.to_vec();
    Call::Return { disk, shown }
}

const RESTART: Call = Call::Restart { supply: AMPLE };

/// "Still out of reach until returned": the new disk shows an empty label of its own bay. The old one, if it is put
/// back, shows the label that it had.
#[test]
fn a_blank_disk_comes_back_and_the_old_one_does_not() {
    let swap = Call::Swap { disk: 2, supply: AMPLE };
    let (dead, _) = after(&fresh(3, 1), &[write(7), Call::Lose { disk: 2 }]);
    let old = dead.cabinet.state.stored_label(2);
    assert_eq!(old, [0x05, 0x32, 0x07, 0x01]);
    assert_eq!(after(&dead, &[showing(2, &[0x00, 0x32])]).1, 25);
    let (swapped, _) = after(&dead, &[swap]);
    for trial in [swapped.clone(), after(&swapped, &[Call::Cut]).0] {
        assert_eq!(after(&trial, &[showing(2, &old)]).1, 25);
        assert_eq!(after(&trial, &[showing(2, &[0x00, 0x31])]).1, 18);
        assert_eq!(after(&trial, &[showing(2, &[0x00, 0x32])]).1, 0);
    }
}

/// A move stores no label of a disk out of reach: one that was pulled before it comes back with the label that it had.
#[test]
fn a_pulled_disk_keeps_its_label_through_a_move() {
    let start = fresh(3, 1);
    let pulled = start.cabinet.state.stored_label(2);
    let (moved, _) = after(&start, &[Call::Lose { disk: 2 }, write(7)]);
    assert_eq!(moved.cabinet.state.current(), DiskSet(3));
    assert_eq!(after(&moved, &[showing(2, &pulled)]).1, 0);
}

/// A disk that was in reach at the move has another label since: with the one from before it is not this disk.
#[test]
fn a_label_from_before_a_move_is_refused() {
    let start = fresh(3, 1);
    let before = start.cabinet.state.stored_label(1);
    let losses = [Call::Lose { disk: 2 }, write(7), Call::Lose { disk: 1 }];
    let (moved, _) = after(&start, &losses);
    let now = moved.cabinet.state.stored_label(1);
    assert_eq!(
        (&before[..], &now[..]),
        (&[0x01, 0x31, 0x07][..], &[0x05, 0x31, 0x03, 0x01][..])
    );
    for trial in [moved.clone(), after(&moved, &[Call::Cut]).0] {
        assert_eq!(after(&trial, &[showing(1, &before)]).1, 25);
        assert_eq!(after(&trial, &[showing(1, &now)]).1, 0);
    }
}

/// "The technician tests pulled disks at the workshop, where a cabinet writes its own sets on them." There disk 1 was
/// in the same bay of as many, and at last current alone.
#[test]
fn a_disk_with_the_workshops_sets_stays_out() {
    let (away, _) = after(
        &fresh(2, 1),
        &[write(7), Call::Quiet { supply: AMPLE }, Call::Lose { disk: 1 }],
    );
    let workshop = [0x01, 0x21, 0x02];
    for trial in [away.clone(), after(&away, &[Call::Cut]).0] {
        let (refused, result) = after(&trial, &[showing(1, &workshop)]);
        assert_eq!((result, refused == trial), (25, true));
    }
}

/// A cabinet of two disks of one block that is written, and after these calls one disk is pulled. Its block is altered
/// behind its label, it is returned, and the power is cut. The restart names both disks: the first byte of each, and
/// whether demand 3 holds.
fn restarted_with_an_altered_block(calls: &[Call], disk: u16) -> ([u8; 2], bool) {
    let (mut pulled, _) = after(&fresh(2, 1), &[&[write(7)], calls, &[Call::Lose { disk }]].concat());
    let Cabinet { state, area, .. } = &mut pulled.cabinet;
    area[state.disk_range(disk as u8)].fill(8);
    let back = Call::unaltered_return(state, disk);
    let (stopped, result) = after(&pulled, &[back, Call::Cut]);
    assert_eq!(result, 0);
    let (restarted, outcome) = stopped.after(&RESTART, &[], &[Claim::RestartedBlocks]);
    let Cabinet { state, area, .. } = &restarted.cabinet;
    assert_eq!((outcome.answer.result, state.current()), (0, DiskSet(3)));
    (
        [0, 1].map(|disk| area[state.disk_range(disk).start]),
        outcome.failed.is_none(),
    )
}

/// The premise that is left: labels need not come back unaltered, "blocks still must". Where no region is dirty a
/// restart copies nothing, and names the disk with what it has. Where one is, it copies what the lowest member has.
#[test]
fn an_altered_block_behind_an_unaltered_label_is_not_noticed() {
    let quiet = [Call::Quiet { supply: AMPLE }];
    assert_eq!(restarted_with_an_altered_block(&quiet, 1), ([7, 8], false));
    assert_eq!(restarted_with_an_altered_block(&quiet, 0), ([8, 7], false));
    assert_eq!(restarted_with_an_altered_block(&[], 0), ([8, 8], false));
    assert_eq!(restarted_with_an_altered_block(&[], 1), ([7, 7], true));
}

/// "The program's `r d` line shows the stored label": that of a current disk, of one that was left behind, and of one
/// in reach.
#[test]
fn the_programs_line_shows_the_stored_label() {
    let input = b"r 0\nf 2 9\nx 1\nr 1\nr 1\nx 1\nw 8 7 99\nr 2\nr 256\nr 1\nx 0\nc\nr 0\n";
    let answers = driver::answers(Rules::PAPER, input);
    let expected = "1 0 0 0 0\n0 0 3 3 0\n0 0 3 1 0\n0 0 3 3 0\n0 0 3 3 0\n0 0 3 1 0\n0 4 1 1 0\n\
                    8 0 1 1 0\n8 0 1 1 0\n0 0 1 3 0\n0 0 1 2 0\n0 0 0 2 0\n0 0 0 3 0\n";
    assert_eq!(String::from_utf8_lossy(&answers), expected);
    assert_eq!(parse(b"r 2"), Some(Command::Return { disk: 2 }));
}

/// A line says what the disk shows, if that is not its stored label.
#[test]
fn a_line_says_what_else_a_disk_shows() {
    let state = cabinet(Power::Stopped, DiskSet(1)).state;
    let line = |disk, shown| showing(disk, shown).line(&state);
    assert_eq!(line(1, &STORED), "r 1");
    assert_eq!(line(1, &[1, 0x21, 3]), "return 1 showing [01, 21, 03]");
    assert_eq!(line(1, &[]), "return 1 showing []");
    assert_eq!(line(3, &[]), "r 3");
}

/// The state's own labels decide what a restart names, and not those that a disk shows. So in histories each of these
/// mistakes needs a claim about returns. (Assembling, which is in none, gives a state that is not sound where n is not
/// compared.)
#[test]
fn in_histories_the_mistakes_break_neither_demand_3_nor_soundness() {
    let mistakes = [
        Mistake::BayIgnoresDiskCount,
        Mistake::ReturnCheckedWhenStopped,
        Mistake::ReturnComparesBytes,
        Mistake::ReturnDiffersBeforeRegion,
        Mistake::ReturnIgnoresDirty,
        Mistake::ReturnLooksInReach,
        Mistake::ReturnUnseen,
    ];
    let claims = [
        Claim::RestartedBlocks,
        Claim::NotSeveral,
        Claim::RestartFinds,
        Claim::Sound,
    ];
    for (mistake, claim) in mistakes
        .into_iter()
        .flat_map(|mistake| claims.map(|claim| (mistake, claim)))
    {
        let rules = Rules::with(mistake);
        for size in [(1, 1), (1, 2), (2, 1), (2, 2)] {
            let failure = explore(rules, rules, size, |one| one == claim).failure;
            assert!(failure.is_none(), "{mistake:?}, {claim:?}");
        }
    }
}

/// The claim that stands against no mistake, of a done return and of a refused one.
#[test]
fn the_claim_about_what_a_return_changes_can_fail() {
    let before = cabinet(Power::Stopped, DiskSet(1));
    let trial = fresh(3, 9);
    let call = showing(1, &STORED);
    let holds = |result, after: &Cabinet| {
        let event = Event {
            before: &before,
            call: &call,
            given: &[],
            answer: Answer { result, stores: 0 },
            told: None,
            output: &[],
            after,
            book: &trial.book,
            counted: false,
        };
        Claim::Return(ReturnClaim::ChangesReachAlone).holds_of(&event)
    };
    let (mut back, mut other) = (before.clone(), before.clone());
    back.state.reach = DiskSet(3);
    assert!(holds(0, &back) && holds(25, &before));
    assert!(!holds(0, &before) && !holds(25, &back) && !holds(15, &back));
    other.state = back.state;
    other.state.labels[1] = Label::ZERO;
    assert!(!holds(0, &other));
    back.area[0] = 1;
    assert!(!holds(0, &back));
}
