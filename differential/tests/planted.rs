//! A planted difference is found, and printed as a case that can be run again.

use differential::arbitrary::Arbitrary;
use differential::case::{Call, Case};
use differential::command::{command, Status};
use differential::comparison::{run, Comparison, Source};
use differential::histories::Histories;
use differential::implementations::{Implementation, Outcome, Plain, Proved, Reference};
use reference::mistakes::{Mistake, Rules, OF_CLAIMS};
use reference::random::Random;
use reference::refutation::IN_NO_HISTORY;

/// The mistakes in the rules that no call shows: two are the book's, and three are the finder's, by which no call of the
/// reference goes.
const HIDDEN: [Mistake; 5] = [
    Mistake::BookCountsAtLastDisk,
    Mistake::BookCountsEveryWrite,
    Mistake::FinderMissesCommitted,
    Mistake::ListMissesLastDisk,
    Mistake::ListRepeatsSets,
];

/// The mistake whose answers are right in every history: a member of G that was lost still has the right blocks. It is
/// seen only where disks out of reach may hold anything.
const RIGHT_IN_HISTORIES: Mistake = Mistake::ReadFromLostDisk;

/// The first difference between the product and another implementation in cases of the source.
fn found(other: &dyn Implementation, mut source: impl Source) -> Option<Box<Comparison>> {
    run(&[&Proved, other], &mut source, 60_000).err()
}

#[test]
fn arbitrary_cases_find_each_mistake_of_the_reference() {
    for (mistake, name) in Mistake::ALL {
        let difference = found(&Reference(Rules::with(mistake)), Arbitrary(Random::new(5)));
        let unseen = [&HIDDEN[..], &OF_CLAIMS].concat();
        assert_eq!(difference.is_some(), !unseen.contains(&mistake), "{name}");
    }
}

#[test]
fn histories_find_each_mistake_that_a_history_reaches() {
    for (mistake, name) in Mistake::ALL {
        let difference = found(&Reference(Rules::with(mistake)), Histories::new(Random::new(5)));
        let unseen = [&HIDDEN[..], &OF_CLAIMS, &IN_NO_HISTORY, &[RIGHT_IN_HISTORIES]].concat();
        assert_eq!(difference.is_some(), !unseen.contains(&mistake), "{name}");
    }
}

/// Plain Rust, with a change of what it gives for one call.
struct Meddling(Call, fn(&mut Outcome));

impl Implementation for Meddling {
    fn name(&self) -> &'static str {
        "meddling"
    }

    fn make(&self, case: Case) -> Outcome {
        let Meddling(call, meddle) = self;
        let is_meant = case.call == *call;
        let mut outcome = Plain.make(case);
        if is_meant {
            meddle(&mut outcome);
        }
        outcome
    }
}

/// Changes a bit of the last byte, if there is one.
fn flip_last(bytes: &mut [u8]) {
    if let Some(last) = bytes.last_mut() {
        *last ^= 1;
    }
}

#[test]
fn a_change_of_anything_that_a_call_gives_is_found() {
    let meddlers = [
        Meddling(Call::Read, |outcome| flip_last(&mut outcome.area)),
        Meddling(Call::Write, |outcome| flip_last(&mut outcome.buffer)),
        Meddling(Call::Save, |outcome| outcome.buffer.push(0)),
        Meddling(Call::Quiet, |outcome| outcome.stores += 1),
        Meddling(Call::Cut, |outcome| outcome.result = 16),
        Meddling(Call::Lose, |outcome| outcome.state.labels[7].dirty ^= 128),
        Meddling(Call::ReadLabel, |outcome| outcome.reading.label.dirty ^= 128),
        Meddling(Call::WriteLabel, |outcome| outcome.reading.length ^= 1),
        Meddling(Call::Diagnose, |outcome| outcome.told.set ^= 128),
    ];
    for meddler in meddlers {
        let difference = found(&meddler, Arbitrary(Random::new(5)));
        let calls = difference.map(|difference| difference.case.call);
        assert_eq!(calls, Some(meddler.0));
    }
}

/// Plain Rust, given other arguments.
struct Mistaking(fn(&mut Case));

impl Implementation for Mistaking {
    fn name(&self) -> &'static str {
        "mistaking"
    }

    fn make(&self, mut case: Case) -> Outcome {
        self.0(&mut case);
        Plain.make(case)
    }
}

#[test]
fn a_number_that_is_cut_to_fewer_bits_or_off_by_one_is_found() {
    let mistakes: [fn(&mut Case); 15] = [
        |case| case.number = usize::from(case.number as u8),
        |case| case.number = usize::from(case.number as u16),
        |case| case.number = case.number as u32 as usize,
        |case| case.number &= usize::MAX >> 1,
        |case| case.stage = usize::from(case.stage as u8),
        |case| case.stage = usize::from(case.stage as u16),
        |case| case.stage = case.stage as u32 as usize,
        |case| case.disks = case.disks as u32 as usize,
        |case| case.blocks = case.blocks as u32 as usize,
        |case| case.reach &= 0x7f,
        |case| case.label.tentative &= 0x7f,
        |case| case.label.dirty &= 0x7f,
        |case| case.supply = case.supply.min(255),
        |case| case.supply = case.supply.saturating_add(1),
        |case| case.supply = case.supply.saturating_sub(1),
    ];
    for (place, mistake) in mistakes.into_iter().enumerate() {
        let difference = found(&Mistaking(mistake), Arbitrary(Random::new(5)));
        assert!(difference.is_some(), "mistake {place}");
    }
}

/// What the command of these words prints and exits with.
fn printed(implementations: &[&dyn Implementation], words: &[&str]) -> (String, Status) {
    let mut output = Vec::new();
    let status = command(implementations, words, &mut output).expect("a vector takes all");
    (String::from_utf8(output).expect("the text is ASCII"), status)
}

#[test]
fn a_difference_is_printed_as_a_case_to_run_again() {
    let wrong = Reference(Rules::with(Mistake::ClearsBeforeCopies));
    let (text, status) = printed(&[&Proved, &wrong], &["7"]);
    assert_eq!(status, Status::Differed);
    let line = text.split('\'').nth(1).expect("the case is in quotes");
    assert!(line.starts_with("restart "), "{line}");
    let (again, status) = printed(&[&Proved, &wrong], &["case", line]);
    assert_eq!(status, Status::Differed);
    assert!(text.ends_with(&again));
    assert_eq!(again.lines().count(), 3);
    let (_, status) = printed(&[&Proved, &Reference(Rules::PAPER), &Plain], &["case", line]);
    assert_eq!(status, Status::Agreed);
}

#[test]
fn a_panic_is_a_difference() {
    let panicking = Meddling(Call::Cut, |outcome| outcome.area.copy_from_slice(&[0]));
    let (text, status) = printed(&[&Proved, &panicking], &["case", "cut"]);
    assert_eq!(status, Status::Differed);
    assert!(text.ends_with("meddling  panicked\n"), "{text}");
}

#[test]
fn other_words_are_no_command() {
    for words in [&["case"][..], &["case", "nothing"], &["-1"], &["1", "2"]] {
        assert_eq!(printed(&[&Proved], words).1, Status::Misused, "{words:?}");
    }
}
