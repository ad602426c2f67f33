//! A case's line reads back to the same case.

use differential::arbitrary::Arbitrary;
use differential::case::{Call, Case};
use differential::comparison::Source;
use differential::histories::Histories;
use differential::implementations::{Implementation, Plain};
use differential::word;
use plain::State;
use reference::random::Random;

/// Checks the lines of the source's cases.
fn lines_read_back(mut source: impl Source) {
    for _ in 0..20_000 {
        let case = source.next_case();
        assert_eq!(Case::from_line(&case.line()).as_ref(), Some(&case));
        source.follow(&Plain.make(case));
    }
}

#[test]
fn lines_of_histories_read_back() {
    lines_read_back(Histories::new(Random::new(3)));
}

#[test]
fn lines_of_arbitrary_cases_read_back() {
    lines_read_back(Arbitrary(Random::new(3)));
}

#[test]
fn a_line_holds_what_the_call_takes() {
    let case = Case {
        state: State {
            disks: 1,
            blocks: 2,
            ..State::default()
        },
        number: usize::MAX,
        supply: 9,
        area: [[0; 64], [7; 64]].concat(),
        buffer: vec![1, 2, 3, 4, 5, 6, 9],
        ..Case::new(Call::Write)
    };
    let line =
        "write state=0102,00+00*26 number=18446744073709551615 supply=9 area=00+00*64,07+00*64 buffer=01+01*6,09";
    assert_eq!(case.line(), line);
    assert_eq!(Case::new(Call::Cut).line(), "cut");
}

#[test]
fn any_bytes_read_back() {
    let mut random = Random::new(3);
    for length in 0..2_000 {
        let bytes: Vec<u8> = (0..length).map(|_| random.byte() & 3).collect();
        assert_eq!(word::bytes_of(&word::word_of(&bytes)), Some(bytes));
    }
}

#[test]
fn other_lines_are_no_cases() {
    let lines = [
        "",
        "format",
        "read 3",
        "read block=3",
        "read number=-1",
        "read number=18446744073709551616",
        "write supply=65536",
        "read state=00",
        "read area=0",
        "read area=0g",
        "read area=+1",
        "read area=00*5",
        "read area=0000+00*5",
        "read area=00+00*x",
    ];
    for line in lines {
        assert_eq!(Case::from_line(line), None, "{line}");
    }
}
