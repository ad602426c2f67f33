//! The corpus: it is what the reference makes, it keeps within its limits, and it has every result often enough.

use reference::call::Call;
use reference::driver;
use reference::files::{self, Made};
use reference::mistakes::{Mistake, Rules, OF_CLAIMS};
use reference::program::{parse, Command};
use std::collections::HashMap;

/// The corpus's input and output.
fn made() -> [Vec<u8>; 2] {
    files::all().map(|file| file.bytes)
}

/// How often each result occurs in answers to these lines.
fn results(asked: impl Fn(&[u8]) -> bool) -> HashMap<u16, usize> {
    let [stdin, stdout] = made();
    let text = std::str::from_utf8(&stdout).expect("answers are ASCII");
    let lines = stdin.split(|&byte| byte == b'\n').zip(text.lines());
    let mut counts = HashMap::new();
    for (_, answer) in lines.filter(|(line, _)| asked(line)) {
        let result = answer.split(' ').next().and_then(|word| word.parse().ok());
        *counts
            .entry(result.expect("an answer begins with a number"))
            .or_insert(0) += 1;
    }
    counts
}

/// Exactly these results occur, and each often enough.
fn each_is_there(counts: HashMap<u16, usize>, possible: &[u16]) {
    for result in possible {
        assert!(counts[result] >= 20, "{result} is too rare");
    }
    assert_eq!(counts.len(), possible.len());
}

fn is_read(line: &[u8]) -> bool {
    matches!(parse(line), Some(Command::Call(Call::Read { .. })))
}

#[test]
fn the_committed_files_are_those_that_are_made() {
    for Made { path, bytes } in files::all() {
        let committed = std::fs::read(&path).expect("the file is there");
        let place = path.display();
        assert!(committed == bytes, "{place} differs: run the binary corpus");
    }
}

#[test]
fn the_files_keep_within_their_limits() {
    let [stdin, stdout] = made();
    assert!(stdin.len() + stdout.len() <= 900_000);
}

#[test]
fn the_corpus_has_every_result_of_the_program() {
    let possible = [0, 1, 4, 5, 6, 7, 8, 9, 10, 11, 12, 13, 15, 99];
    each_is_there(results(|_| true), &possible);
}

#[test]
fn the_corpus_has_every_result_of_a_read() {
    each_is_there(results(is_read), &[0, 1, 6, 9, 12, 15]);
}

#[test]
fn the_last_line_of_the_corpus_lacks_its_line_feed() {
    let [stdin, stdout] = made();
    assert_ne!(stdin.last(), Some(&b'\n'));
    assert_eq!(stdout.last(), Some(&b'\n'));
    let feeds = |bytes: &[u8]| bytes.iter().filter(|&&byte| byte == b'\n').count();
    assert_eq!(feeds(&stdin) + 1, feeds(&stdout));
}

/// The mistakes in the rules that change no answer of the cabinet program on any input: they are about other things.
const UNSEEN_BY_THE_PROGRAM: [Mistake; 31] = [
    Mistake::AssembleOneSlot,
    Mistake::BayIgnoresDiskCount,
    Mistake::BookCountsAtLastDisk,
    Mistake::BookCountsEveryWrite,
    Mistake::DiagnosisWithoutProposal,
    Mistake::DisagreementBeforeReach,
    Mistake::FinderMissesCommitted,
    Mistake::ListMissesLastDisk,
    Mistake::ListRepeatsSets,
    Mistake::LowestMemberTold,
    Mistake::OtherSetOfSeveral,
    Mistake::OtherSetWithDisk,
    Mistake::OwnSetByStage,
    Mistake::ReadFillsThenCut,
    Mistake::ReadFromLostDisk,
    Mistake::ReturnCheckedWhenStopped,
    Mistake::ReturnComparesBytes,
    Mistake::ReturnDiffersBeforeRegion,
    Mistake::ReturnIgnoresDirty,
    Mistake::ReturnLooksInReach,
    Mistake::ReturnUnseen,
    Mistake::SoundIgnoresTentative,
    Mistake::SwapComesIntoReach,
    Mistake::SwapCountsBlocks,
    Mistake::SwapKeepsBlocks,
    Mistake::SwapKeepsLabel,
    Mistake::SwapMovesAlways,
    Mistake::SwapNeedsLiveDisk,
    Mistake::SwapOfStoppedCabinet,
    Mistake::SwapStays,
    Mistake::SwapZeroesThoughCut,
];

#[test]
fn the_corpus_tells_each_mistake_from_the_paper() {
    let [stdin, stdout] = made();
    for (mistake, name) in Mistake::ALL {
        let differs = driver::answers(Rules::with(mistake), &stdin) != stdout;
        let unseen = [&OF_CLAIMS[..], &UNSEEN_BY_THE_PROGRAM].concat();
        assert_eq!(differs, !unseen.contains(&mistake), "{name}");
    }
}
