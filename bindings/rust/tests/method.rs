//! The page on the method: each row of its move, store by store, is what the library leaves and names.

use cabinet::{area_length, DiskSet, Label, Reason, State, BLOCK_SIZE};
use std::path::Path;

/// The columns of the table, and the disks that are in reach in the last three.
const COLUMNS: usize = 7;
const REACHES: [u8; 3] = [0b111, 0b011, 0b100];

/// The cells of the rows that begin with a number of stores.
fn rows() -> Vec<Vec<String>> {
    let path = Path::new(env!("CARGO_MANIFEST_DIR")).join("../../docs/METHOD.md");
    let page = std::fs::read_to_string(path).expect("the page is there");
    let cells = |line: &str| -> Option<Vec<String>> {
        let row = line.strip_prefix("| ")?.strip_suffix(" |")?;
        Some(row.split(" | ").map(str::to_string).collect())
    };
    let is_told = |row: &Vec<String>| row.len() == COLUMNS && row[0].parse::<u16>().is_ok();
    page.lines().filter_map(cells).filter(is_told).collect()
}

/// The state of three disks of one block once so many stores of the move off disk 2 are made, and the power is gone.
fn cut(stores: u16) -> State {
    let mut area = vec![0; area_length(3, 1).expect("there are such cabinets")];
    let state = State::format(3, 1, &mut area).state.detach(2).state;
    let moved = state.read(&area, 0, &mut [0; BLOCK_SIZE], stores);
    assert_eq!(moved.stores, stores);
    moved.state.power_off().state
}

/// A label as the page writes it.
fn label(label: &Label) -> String {
    match label.tentative {
        DiskSet::EMPTY => format!("C {}", label.committed),
        tentative => format!("C {}, T {tentative}", label.committed),
    }
}

/// What a restart gives with these disks in reach: 13, or the set with the stage that decides.
fn restarted(state: State, online: u8) -> String {
    let state = State {
        online: DiskSet::from_bits(online),
        ..state
    };
    let mut area = vec![0; area_length(3, 1).expect("there are such cabinets")];
    let restarted = state.restart(&mut area, 99);
    let is_candidate = |stage: usize, disk| state.diagnose(stage, disk).reason == Some(Reason::Candidate);
    let stage = (1..=3).find(|&stage| (0..3).any(|disk| is_candidate(stage, disk)));
    match (restarted.outcome(), stage) {
        (Ok(()), Some(stage)) => format!("{} ({stage})", restarted.state.current),
        (Err(refusal), None) => refusal.number().to_string(),
        both => panic!("{both:?}"),
    }
}

#[test]
fn each_row_of_the_move_is_what_the_library_leaves_and_names() {
    let rows = rows();
    assert_eq!(rows.len(), 5, "a move to two disks has four stores");
    for (stores, row) in (0..).zip(rows) {
        let state = cut(stores);
        let labels = state.labels[..3].iter().map(label);
        let named = REACHES.map(|online| restarted(state, online));
        let told: Vec<String> = [stores.to_string()].into_iter().chain(labels).chain(named).collect();
        assert_eq!(row, told);
    }
}
