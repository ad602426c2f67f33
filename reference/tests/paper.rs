//! The paper's own examples: H1 to H14 and the session.

use reference::cabinet::{Answer, Cabinet};
use reference::diagnosis::{diagnose, questions, Diagnosis, Reason};
use reference::driver;
use reference::label::{self, Label};
use reference::mistakes::Rules;
use reference::naming::{found_in_lists, named, sets_to_test, Found, STAGES};
use reference::sets::DiskSet;
use reference::state::{Power, State};

/// C and T of each disk, R, and what a restart finds.
type Example = (&'static str, &'static [u8], &'static [u8], u8, Found);

const RESTARTS: [Example; 10] = [
    ("H1", &[1, 3, 7], &[0, 0, 0], 7, Found::One(DiskSet(1))),
    ("H2", &[1, 3, 7], &[0, 0, 0], 6, Found::None),
    ("H3", &[3, 3, 6], &[0, 0, 0], 7, Found::One(DiskSet(3))),
    ("H4", &[7, 7, 7], &[3, 3, 0], 3, Found::One(DiskSet(3))),
    ("H5", &[3, 7, 7], &[0, 3, 0], 7, Found::One(DiskSet(3))),
    ("H6", &[7, 7, 7], &[3, 0, 0], 3, Found::None),
    ("H7", &[7, 7, 7], &[3, 0, 0], 7, Found::One(DiskSet(7))),
    ("H8", &[3, 3, 7], &[7, 7, 7], 3, Found::One(DiskSet(3))),
    ("H9", &[3, 3, 7], &[7, 7, 7], 7, Found::One(DiskSet(7))),
    ("H10", &[1, 2], &[0, 0], 3, Found::Several),
];

fn stopped(committed: &[u8], tentative: &[u8], reach: u8) -> State {
    let mut state = State {
        disks: committed.len() as u8,
        blocks: 1,
        reach: DiskSet(reach),
        ..State::ZERO
    };
    for (d, label) in state.labels[..committed.len()].iter_mut().enumerate() {
        label.committed = DiskSet(committed[d]);
        label.tentative = DiskSet(tentative[d]);
    }
    state
}

/// The state of the restart of this name.
fn example(name: &str) -> State {
    let example = RESTARTS.iter().find(|example| example.0 == name);
    let (_, committed, tentative, reach, _) = *example.expect("it is one of the restarts");
    stopped(committed, tentative, reach)
}

#[test]
fn restarts_name_what_the_paper_says() {
    for (name, committed, tentative, reach, found) in RESTARTS {
        let state = stopped(committed, tentative, reach);
        let by_sets = named(Rules::PAPER, &state.labels, state.reach);
        let in_lists = found_in_lists(Rules::PAPER, state.disks, &state.labels, state.reach);
        assert_eq!(by_sets, found, "{name}");
        assert_eq!(in_lists, found, "{name}");
    }
}

#[test]
fn restarts_answer_what_the_paper_says() {
    for (name, committed, tentative, reach, found) in RESTARTS {
        let state = stopped(committed, tentative, reach);
        let area = vec![0; state.area_length()];
        let rules = Rules::PAPER;
        let mut cabinet = Cabinet { rules, state, area };
        let answer = cabinet.restart(99);
        let (result, stores, power) = match found {
            Found::None => (13, 0, Power::Stopped),
            Found::Several => (14, 0, Power::Stopped),
            Found::One(set) => (0, set.size(), Power::Running(set)),
        };
        assert_eq!(answer, Answer { result, stores }, "{name}");
        assert_eq!(cabinet.state.power, power, "{name}");
    }
}

/// Request 2.4 on four of them, by hand: the sets to test of each stage, stage 1 first. H3: no disk has a T, and disks
/// 0 and 1 have one C. H4: disks 0 and 1 have the T 3 and disk 2 has none; all have the C 7, which is listed though it
/// is not inside R. H8: all have the T 7; disks 0 and 1 have the C 3, and disk 2 the C 7. H10: each disk has its own C.
const LISTED: [(&str, [&[u8]; 3]); 4] = [
    ("H3", [&[], &[], &[3, 6]]),
    ("H4", [&[3], &[3], &[7]]),
    ("H8", [&[7], &[7], &[3, 7]]),
    ("H10", [&[], &[], &[1, 2]]),
];

#[test]
fn lists_have_the_sets_that_were_found_by_hand() {
    for (name, expected) in LISTED {
        let state = example(name);
        let lists = STAGES.map(|stage| sets_to_test(Rules::PAPER, stage, state.disks, &state.labels));
        let bytes = lists.map(|sets| sets.iter().map(|set| set.0).collect::<Vec<u8>>());
        assert_eq!(bytes, expected, "{name}");
    }
}

/// An example's reasons, those of disk 0 first and of each disk stage 1 first; and the set of each disk.
type Told = (&'static str, [[Reason; 3]; 3], [u8; 3]);

/// Request 2.2 on three of them, by hand. H2: disk 0, which is pulled, is in every own set. H6: disk 0 has the T 3,
/// which disk 1 has neither as T nor as C, and which disk 0 itself does not have as C; the other own sets are 7, and
/// disk 2 is pulled. H8: all own sets are the T 7, in stage 3 too, and the restart's set 3 lacks only disk 2.
const TOLD: [Told; 3] = [
    ("H2", [[Reason::OutOfReach(0); 3]; 3], [0, 0, 0]),
    (
        "H6",
        [
            [Reason::Disagrees(1), Reason::Disagrees(1), Reason::Disagrees(0)],
            [Reason::OutOfReach(2); 3],
            [Reason::OutOfReach(2); 3],
        ],
        [0, 0, 0],
    ),
    ("H8", [[Reason::OutOfReach(2); 3]; 3], [0, 0, 3]),
];

#[test]
fn diagnoses_tell_what_was_found_by_hand() {
    for (name, reasons, sets) in TOLD {
        let state = example(name);
        for (stage, disk) in questions(3) {
            let expected = Diagnosis {
                result: 0,
                reason: reasons[disk as usize][stage as usize - 1],
                set: DiskSet(sets[disk as usize]),
            };
            let told = diagnose(Rules::PAPER, &state, stage, disk);
            assert_eq!(told, expected, "{name}, stage {stage}, disk {disk}");
        }
    }
}

#[test]
fn labels_have_the_papers_bytes() {
    let h11 = Label {
        committed: DiskSet(3),
        dirty: 1,
        ..Label::ZERO
    };
    let examples: [(u16, u16, Label, &[u8]); 2] = [
        (1, 3, h11, &[0x05, 0x31, 0x03, 0x01]),
        (0, 1, Label::ZERO, &[0x00, 0x10]),
    ];
    for (disk, disks, label, bytes) in examples {
        let mut output = [170; 8];
        let length = bytes.len();
        assert_eq!(label::write(disk, disks, &label, &mut output), Ok(length));
        assert_eq!(&output[..length], bytes);
        assert!(output[length..].iter().all(|&x| x == 170));
        let reading = label::read(&output).expect("a written label can be read");
        assert_eq!(reading.label, label);
        assert_eq!((reading.disk as u16, reading.disks as u16), (disk, disks));
        assert_eq!(reading.length, length);
    }
}

fn session(input: &str, output: &str) {
    let answers = driver::answers(Rules::PAPER, input.as_bytes());
    assert_eq!(String::from_utf8_lossy(&answers), output);
}

#[test]
fn the_session_prints_what_the_paper_prints() {
    session(
        "f 3 8\nx 2\nw 0 7 99\nc\ns 99\nr 2\nj 2 99\ng 0 99\n",
        "0 0 7 7 0\n0 0 7 3 0\n0 8 3 3 0\n0 0 0 3 0\n0 12 3 3 0\n0 0 3 7 0\n0 14 7 7 0\n0 0 7 7 7\n",
    );
}

#[test]
fn h13_a_write_of_one_store_keeps_the_old_block() {
    session(
        "f 1 1\nw 0 5 1\ns 99\ng 0 99\n",
        "0 0 1 1 0\n15 1 0 1 0\n0 2 1 1 0\n0 0 1 1 0\n",
    );
    session("f 1 1\nw 0 5 2\ng 0 99\n", "0 0 1 1 0\n0 2 1 1 0\n0 0 1 1 5\n");
}

#[test]
fn h14_a_write_of_three_stores_has_the_new_block() {
    session(
        "f 2 1\nw 0 5 3\ns 99\ng 0 99\nx 0\ng 0 99\n",
        "0 0 3 3 0\n15 3 0 3 0\n0 5 3 3 0\n0 0 3 3 5\n0 0 3 2 0\n0 2 2 2 5\n",
    );
}
