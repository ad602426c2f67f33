//! The page for the technician: each line of it is what the library says, and his path holds wherever the power goes.

use cabinet::{area_length, Answer, DiskSet, Label, Refusal, State, BLOCK_SIZE, SLOT_SIZE};
use returning::returned;
use std::path::Path;

mod returning;

/// The cabinet of the page.
const DISKS: usize = 3;
const BLOCKS: usize = 8;
const DEAD: usize = 2;
const SUPPLY: u16 = 99;
/// The calls of the path, by the page's names.
const PATH: [&str; 4] = ["detach", "swap", "attach", "join"];

#[derive(Clone)]
struct Cabinet {
    state: State,
    area: Vec<u8>,
}

impl Cabinet {
    /// A fresh one, block k of which is then filled with k + 1.
    fn written() -> Cabinet {
        let mut area = vec![0; area_length(DISKS, BLOCKS).expect("there may be such a cabinet")];
        let mut state = State::format(DISKS, BLOCKS, &mut area).state;
        for block in 0..BLOCKS {
            state = state.write(&mut area, block, &book(block), SUPPLY).state;
        }
        Cabinet { state, area }
    }

    /// Makes a call about the dead disk's bay, and goes on with the state that it gives.
    fn make(&mut self, call: &str, supply: u16) -> Answer {
        let (state, area) = (self.state, &mut self.area);
        let answer = match call {
            "detach" => state.detach(DEAD),
            "swap" => state.swap(area, DEAD, supply),
            "attach" => returned(state, DEAD),
            "join" => state.join(area, DEAD, supply),
            "power off" => state.power_off(),
            "restart" => state.restart(area, supply),
            _ => panic!("no call: {call}"),
        };
        self.state = answer.state;
        answer
    }

    /// Makes calls that must be done.
    fn make_all(&mut self, calls: &[&str]) {
        for call in calls {
            assert_eq!(self.make(call, SUPPLY).outcome(), Ok(()), "{call}");
        }
    }

    /// Each block of each current disk is the book's.
    fn holds_book(&self) -> bool {
        let disks = self.area.chunks(BLOCKS * BLOCK_SIZE).enumerate();
        let current = disks.filter(|(disk, _)| self.state.current.contains(*disk));
        current
            .map(|(_, blocks)| blocks.chunks(BLOCK_SIZE))
            .all(|mut blocks| (0..BLOCKS).all(|block| blocks.next() == Some(&book(block)[..])))
    }

    /// Restarts, with the power going after every single store of it first. What it gives, as the page writes it.
    fn restarted(&mut self) -> String {
        let stopped = self.clone();
        let whole = self.make("restart", SUPPLY);
        for supply in 0..whole.stores {
            let mut cut = stopped.clone();
            assert_eq!(cut.make("restart", supply).outcome(), Err(Refusal::PowerLost));
            cut.make_all(&["restart"]);
            assert!(cut.holds_book() && cut.state.current == self.state.current);
        }
        assert!(self.holds_book());
        let number = |refusal: Refusal| refusal.number().to_string();
        whole.outcome().map_or_else(number, |()| self.state.current.to_string())
    }

    /// The path to its end, wherever a finished restart has left it: all disks are current and right.
    fn finish(mut self) {
        if !self.state.current.contains(DEAD) {
            self.make_all(&PATH);
        }
        assert!(self.state.current == DiskSet::below(DISKS) && self.holds_book());
    }
}

fn book(block: usize) -> [u8; BLOCK_SIZE] {
    [block as u8 + 1; BLOCK_SIZE]
}

/// What a restart gives with disk 2 in, and without it; the path is then gone on with.
fn restarts(cut: &Cabinet) -> [String; 2] {
    ["attach", "detach"].map(|reach| {
        let mut cabinet = cut.clone();
        cabinet.make_all(&[reach]);
        let found = cabinet.restarted();
        if found != "13" {
            cabinet.finish();
        }
        found
    })
}

/// The cells of the page's tables, row by row.
fn rows() -> Vec<Vec<String>> {
    let path = Path::new(env!("CARGO_MANIFEST_DIR")).join("../../docs/TECHNICIAN.md");
    let page = std::fs::read_to_string(path).expect("the page is there");
    let rows = page
        .lines()
        .filter_map(|line| line.strip_prefix("| ")?.strip_suffix(" |"));
    rows.map(|row| row.split(" | ").map(str::to_string).collect()).collect()
}

#[test]
fn each_call_of_the_page_gives_what_it_says() {
    let mut cabinet = Cabinet::written();
    let calls: Vec<Vec<String>> = rows().into_iter().filter(|row| row[1].starts_with('`')).collect();
    assert_eq!(calls.len(), PATH.len());
    for (row, name) in calls.iter().zip(PATH) {
        assert_eq!(row[1], format!("`{name} {DEAD}`"));
        let answer = cabinet.make(name, SUPPLY);
        let result = answer.outcome().map_or_else(Refusal::number, |()| 0).to_string();
        let (current, online) = (answer.state.current.to_string(), answer.state.online.to_string());
        assert_eq!(row[2..], [result, answer.stores.to_string(), current, online], "{name}");
    }
    assert!(cabinet.holds_book());
}

#[test]
fn after_a_cut_at_every_store_a_restart_gives_what_the_page_says_and_the_book_holds() {
    let mut told = 0;
    for row in rows().into_iter().filter(|row| row[0].starts_with("after ")) {
        let words: Vec<&str> = row[0].split(' ').collect();
        let numbers: Vec<u16> = words.iter().flat_map(|word| word.parse()).collect();
        let call = words[words.len() - 1];
        for supply in numbers[0]..=numbers[numbers.len() - 1] {
            let mut cabinet = Cabinet::written();
            cabinet.make_all(PATH.split(|name| *name == call).next().expect("what comes before it"));
            let cut = cabinet.make(call, supply);
            assert_eq!((cut.outcome(), cut.stores), (Err(Refusal::PowerLost), supply));
            assert_eq!(row[1..], restarts(&cabinet), "{} at {supply}", row[0]);
            told += 1;
        }
    }
    let mut cabinet = Cabinet::written();
    let stores: u16 = PATH.map(|call| cabinet.make(call, SUPPLY).stores).iter().sum();
    assert_eq!(told, stores, "the page tells of every store of the path");
}

/// The bytes that a disk with this label shows which says that it is this one, of so many.
fn written(label: Label, disk: usize, disks: usize) -> Vec<u8> {
    let mut bytes = vec![0; SLOT_SIZE];
    assert_eq!(label.write(&mut bytes, disk, disks).outcome(), Ok(()));
    bytes
}

/// What a disk in the dead one's bay shows, by the page's words. The old one was pulled from this cabinet.
fn shown(words: &str, old: &State) -> Vec<u8> {
    let (label, neighbour) = (old.labels[DEAD], old.labels[1]);
    let workshop = Label {
        committed: DiskSet::from_bits(1 << DEAD),
        ..Label::default()
    };
    match words {
        "the old disk" => written(label, DEAD, DISKS),
        "the new disk, with its empty label" => written(Label::default(), DEAD, DISKS),
        "a new disk, all zeros" => vec![0; SLOT_SIZE],
        "a disk from another bay" => written(neighbour, 1, DISKS),
        "the old disk, after a workshop's cabinet of 3 disks" => written(workshop, DEAD, DISKS),
        "the old disk, after a workshop's cabinet of 8 disks" => written(workshop, DEAD, 8),
        "no label at all: fewer than 2 bytes" => vec![0],
        _ => panic!("no disk: {words}"),
    }
}

/// The disk is pulled, and then swapped, or the swap is cut before its first store: what an attach gives by what the
/// disk in the bay shows, and that a refused one changes nothing.
#[test]
fn each_disk_that_is_pushed_in_gets_what_the_page_says() {
    let is_number = |cell: &String| cell.parse::<u8>().is_ok();
    let told: Vec<Vec<String>> = rows()
        .into_iter()
        .filter(|row| row.len() == 3 && is_number(&row[1]))
        .collect();
    assert_eq!(told.len(), 7);
    for row in told {
        for (supply, expected) in [(SUPPLY, &row[1]), (0, &row[2])] {
            let mut cabinet = Cabinet::written();
            let old = cabinet.state;
            cabinet.make_all(&PATH[..1]);
            let _ = cabinet.make("swap", supply);
            let answer = cabinet.state.attach(DEAD, &shown(&row[0], &old));
            let result = answer.outcome().map_or_else(Refusal::number, |()| 0);
            assert_eq!(result.to_string(), *expected, "{} with {supply}", row[0]);
            assert_eq!(answer.state == cabinet.state, result != 0, "{}", row[0]);
        }
    }
}

#[test]
fn after_a_cut_between_the_calls_the_book_holds() {
    for made in 0..=PATH.len() {
        let mut cabinet = Cabinet::written();
        cabinet.make_all(&PATH[..made]);
        cabinet.make_all(&["power off"]);
        let found = restarts(&cabinet);
        assert_ne!(found[0], "13", "with every disk in reach a restart finds a set");
    }
}

#[test]
fn a_read_after_the_loss_leaves_the_swap_no_store_to_make() {
    let mut cabinet = Cabinet::written();
    cabinet.make_all(&PATH[..1]);
    cabinet.state = cabinet.state.read(&cabinet.area, 0, &mut book(0), SUPPLY).state;
    let swapped = cabinet.make("swap", 0);
    assert_eq!((swapped.outcome(), swapped.stores), (Ok(()), 0));
}
