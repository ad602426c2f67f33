//! The page for the mechanic: each line of its examples is what the library says.

use cabinet::{area_length, DiskSet, Label, Refusal, State};
use returning::returned;
use std::path::Path;

mod returning;

/// C and T of each disk.
type Labels = [(u8, u8); 3];

/// The examples with the labels of their disks and the set in reach, as document 01 has them.
const EXAMPLES: [(&str, Labels, u8); 3] = [
    ("H2", [(1, 0), (3, 0), (7, 0)], 6),
    ("H6", [(7, 3), (7, 0), (7, 0)], 3),
    ("H8", [(3, 7), (3, 7), (7, 7)], 3),
];

fn stopped(labels: Labels, online: u8) -> State {
    let mut state = State {
        disks: 3,
        blocks: 1,
        online: DiskSet::from_bits(online),
        ..State::default()
    };
    for (label, (committed, tentative)) in state.labels.iter_mut().zip(labels) {
        *label = Label {
            committed: DiskSet::from_bits(committed),
            tentative: DiskSet::from_bits(tentative),
            ..Label::default()
        };
    }
    state
}

/// What a restart gives: a refusal's number, or the disks that it runs with.
fn restarted(state: State) -> String {
    let mut area = vec![0; area_length(3, 1).expect("a cabinet may have 3 disks of 1 block")];
    let answer = state.restart(&mut area, 99);
    let number = |refusal: Refusal| refusal.number().to_string();
    answer
        .outcome()
        .map_or_else(number, |()| answer.state.current.to_string())
}

/// What the library says to the question of a line, such as `stage 1, disk 2`.
fn said(state: State, question: &str) -> String {
    let numbers: Vec<usize> = question
        .split(|c: char| !c.is_ascii_digit())
        .flat_map(str::parse)
        .collect();
    match (question.split(' ').next(), numbers.as_slice()) {
        (Some("restart"), []) => restarted(state),
        (Some("restart"), [disk]) => restarted(returned(state, *disk).state),
        (Some("stage"), [stage, disk]) => state.diagnose(*stage, *disk).to_string(),
        _ => panic!("no question: {question}"),
    }
}

#[test]
fn each_line_of_the_page_is_what_the_library_says() {
    let path = Path::new(env!("CARGO_MANIFEST_DIR")).join("../../docs/MECHANIC.md");
    let page = std::fs::read_to_string(path).expect("the page is there");
    for (name, labels, online) in EXAMPLES {
        let (_, example) = page
            .split_once(&format!("\n{name}: "))
            .expect("the page has the example");
        let from_block = example.lines().skip(1).skip_while(|line| line.is_empty());
        let block: Vec<&str> = from_block.map_while(|line| line.strip_prefix("    ")).collect();
        assert!(block.len() >= 4, "{name}");
        for line in block {
            let (question, answer) = line.split_once(": ").expect("a question has an answer");
            assert_eq!(said(stopped(labels, online), question), answer, "{name}, {question}");
        }
    }
}

#[test]
fn each_reason_and_a_refusal_have_their_sentence() {
    let texts = |state: State, stage| [0, 1, 2].map(|disk| state.diagnose(stage, disk).to_string());
    let first = texts(stopped([(0, 0), (2, 6), (6, 6)], 7), 1);
    let blank = "the disk has never been a member; a restart would find {1, 2}";
    assert_eq!(first, [blank, "{1, 2} is a candidate", "{1, 2} is a candidate"]);
    let second = texts(stopped([(3, 0), (3, 0), (0, 0)], 7), 2);
    assert_eq!(second[0], "no disk of {0, 1} proposes it");
    let refused = stopped([(3, 0), (3, 0), (0, 0)], 7).diagnose(4, 0);
    assert_eq!(
        (refused.outcome(), refused.own),
        (Err(Refusal::NoSuchStage), DiskSet::EMPTY)
    );
    assert_eq!(refused.to_string(), "refused with 23: the stage is not 1, 2 or 3");
}
