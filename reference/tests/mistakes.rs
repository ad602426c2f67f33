//! The mistakes: their list is the product's, and each is refused by its claim.

use reference::claims::Claim;
use reference::label::Label;
use reference::mistakes::{Mistake, Rules};
use reference::naming::{named, Found};
use reference::quiet_claims::QuietClaim;
use reference::refutation::{claim_against, failing_claims, refute, refuting_history, IN_NO_HISTORY, REFUSED_BY_ONE};
use reference::sets::DiskSet;
use reference::swap_claims::SwapClaim;
use std::path::Path;

/// The names of the product's edits that must fail.
fn names_of_edits() -> Vec<String> {
    let folder = Path::new(env!("CARGO_MANIFEST_DIR")).join("../crates/protocol/must-fail");
    let entries = std::fs::read_dir(folder).expect("the folder of edits is there");
    let paths = entries.map(|entry| entry.expect("an entry can be read").path());
    let edits = paths.filter(|path| path.extension().is_some_and(|end| end == "edit"));
    let stem = |path: std::path::PathBuf| path.file_stem().map(|s| s.to_string_lossy().into());
    let mut names: Vec<String> = edits.filter_map(stem).collect();
    names.sort();
    names
}

#[test]
fn the_mistakes_are_the_products_edits() {
    let names: Vec<&str> = Mistake::ALL.iter().map(|(_, name)| *name).collect();
    assert_eq!(names, names_of_edits());
}

#[test]
fn each_mistake_has_its_own_name() {
    for (place, (mistake, name)) in Mistake::ALL.iter().enumerate() {
        let letters: String = name.split('_').map(capitalised).collect();
        assert_eq!(letters, format!("{mistake:?}"));
        assert!(!Mistake::ALL[..place].iter().any(|(m, _)| m == mistake));
    }
}

fn capitalised(word: &str) -> String {
    let (first, rest) = word.split_at(1);
    first.to_uppercase() + rest
}

#[test]
fn each_mistake_is_refused_by_its_claim() {
    for (mistake, name) in Mistake::ALL {
        let refutation = refute(mistake).unwrap_or_else(|| panic!("{name} is not refused"));
        assert_eq!(refutation.claim, claim_against(mistake), "{name}");
    }
}

/// A cabinet alone that makes the mistake is refused too, when the book beside it is the paper's. Not so for the
/// mistakes that are the book's own, and for those that no history shows.
#[test]
fn each_mistake_of_a_cabinet_is_refused_by_the_papers_book() {
    let of_book = [Mistake::BookCountsAtLastDisk, Mistake::BookCountsEveryWrite];
    for (mistake, name) in Mistake::ALL {
        if of_book.contains(&mistake) || IN_NO_HISTORY.contains(&mistake) {
            continue;
        }
        let claim = claim_against(mistake);
        let found = refuting_history(Rules::with(mistake), Rules::PAPER, claim);
        assert!(found.is_some(), "{name} is not refused");
    }
}

/// Of all claims exactly the one against it fails, on any history of one or two disks: no other would see the mistake.
#[test]
fn some_wrong_rules_fail_one_claim_alone() {
    for mistake in REFUSED_BY_ONE {
        assert_eq!(
            failing_claims(Rules::with(mistake)),
            [claim_against(mistake)],
            "{mistake:?}"
        );
    }
}

/// A shorter list has fewer stores, and is not the paper's.
#[test]
fn a_quiet_that_leaves_a_region_fails_what_is_said_of_its_list() {
    let failing = [QuietClaim::Clears, QuietClaim::Counts].map(Claim::Quiet);
    let rules = Rules::with(Mistake::CleanLeavesShortRegion);
    assert_eq!(failing_claims(rules), [&failing[..], &[Claim::StoresInOrder]].concat());
}

/// A swap of a member leaves the labels of a move to L, and so their dirty maps. With three disks a write can move, set
/// no bit since all stand, and be cut between its blocks: then demand 3 fails too, and what rests on it.
#[test]
fn a_commit_that_empties_the_map_fails_several_claims() {
    let (rules, of_swap) = (
        Rules::with(Mistake::JoinClearsMap),
        Claim::Swap(SwapClaim::MovesForMember),
    );
    assert_eq!(failing_claims(rules), [of_swap, claim_against(Mistake::JoinClearsMap)]);
    assert!(refuting_history(rules, rules, Claim::RestartedBlocks).is_some());
}

/// What a restart finds with these labels of three disks, all in reach.
fn found(mistake: Mistake, committed: [u8; 3], tentative: [u8; 3]) -> Found {
    let mut labels = [Label::ZERO; 8];
    for d in 0..3 {
        labels[d].committed = DiskSet(committed[d]);
        labels[d].tentative = DiskSet(tentative[d]);
    }
    named(Rules::with(mistake), &labels, DiskSet(7))
}

/// H1's set is 1.
#[test]
fn h1_refuses_the_larger_set_a_majority_and_fixed_answers() {
    let h1 = |mistake| found(mistake, [1, 3, 7], [0, 0, 0]);
    assert_eq!(h1(Mistake::LargerSet), Found::One(DiskSet(7)));
    assert_eq!(h1(Mistake::Majority), Found::None);
    assert_eq!(h1(Mistake::RestartNamesAll), Found::One(DiskSet(7)));
    assert_eq!(h1(Mistake::RestartRefusesAlways), Found::None);
}

/// "H5 has none to fall back to": its set is 3.
#[test]
fn h5_refuses_the_fallback_to_committed_sets() {
    let h5 = found(Mistake::FallbackToCommitted, [3, 7, 7], [0, 3, 0]);
    assert_eq!(h5, Found::None);
}
