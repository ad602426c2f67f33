//! The implementations agree, and the generators reach every result of every call.

use differential::arbitrary::Arbitrary;
use differential::case::Call;
use differential::comparison::{run, Source};
use differential::counts::Counts;
use differential::histories::Histories;
use differential::implementations::{Implementation, Plain, Proved, Reference};
use reference::mistakes::Rules;
use reference::random::Random;
use std::collections::{BTreeMap, BTreeSet};

/// The calls of a part.
const CALLS: usize = 300_000;

/// How often each result is to be given at least.
const OFTEN: usize = 150;

/// The results that each call can give. Assembling passes on the label's own refusals, but for 16: a slot has 5 bytes,
/// and no label is longer.
const RESULTS: [(Call, &[u8]); 15] = [
    (Call::Fresh, &[0, 2, 4, 5]),
    (Call::Read, &[0, 1, 2, 3, 6, 9, 12, 15]),
    (Call::Write, &[0, 1, 2, 3, 6, 9, 12, 15]),
    (Call::Join, &[0, 1, 2, 6, 8, 10, 11, 12, 15]),
    (Call::Swap, &[0, 1, 2, 6, 8, 12, 15, 24]),
    (Call::Quiet, &[0, 1, 6, 12, 15]),
    (Call::Restart, &[0, 1, 2, 7, 13, 14, 15]),
    (Call::Lose, &[0, 1, 8]),
    (Call::Return, &[0, 1, 8, 16, 17, 18, 19, 20, 22, 25]),
    (Call::Cut, &[0, 1]),
    (Call::Diagnose, &[0, 1, 7, 8, 23]),
    (Call::Save, &[0, 1, 2]),
    (Call::Assemble, &[0, 2, 4, 5, 8, 17, 18, 19, 20, 22]),
    (Call::ReadLabel, &[0, 16, 17, 18, 19, 20]),
    (Call::WriteLabel, &[0, 4, 8, 20, 21]),
];

/// What all three give for the cases of this source.
fn counts(mut source: impl Source) -> Counts {
    let all = run(&[&Proved, &Reference(Rules::PAPER), &Plain], &mut source, CALLS);
    all.unwrap_or_else(|difference| panic!("{difference}"))
}

#[test]
fn histories_agree() {
    let counts = counts(Histories::new(Random::new(1)));
    assert_eq!(counts.total(), CALLS);
    for (call, _) in Call::ALL {
        assert_eq!(
            counts.of(call, 1),
            0,
            "every state of a history is sound: {}",
            call.name()
        );
    }
    assert_eq!(counts.of(Call::Restart, 14), 0, "\"no restart in the list gives 14\"");
}

#[test]
fn arbitrary_cases_agree_and_each_call_gives_all_its_results() {
    let counts = counts(Arbitrary(Random::new(1)));
    assert_eq!(counts.total(), CALLS);
    for (call, results) in RESULTS {
        assert_eq!(counts.results(call), results, "{}", call.name());
        let seldom = |result: &&u8| counts.of(call, **result) < OFTEN;
        assert_eq!(results.iter().find(seldom), None, "{} seldom gives this", call.name());
    }
}

/// Each stage with each reason, but only stage 2 asks for a proposal.
fn reasons() -> BTreeSet<(usize, u8)> {
    let each = (1..=3).flat_map(|stage| (1..=5).map(move |reason| (stage, reason)));
    each.filter(|&(stage, reason)| stage == 2 || reason != 4).collect()
}

#[test]
fn arbitrary_diagnoses_tell_each_reason_in_each_stage_and_a_set() {
    let mut source = Arbitrary(Random::new(1));
    let (mut told, mut sets) = (BTreeMap::new(), 0);
    for _ in 0..CALLS {
        let case = source.next_case();
        let outcome = (case.call == Call::Diagnose).then(|| Plain.make(case.clone()));
        for outcome in outcome.into_iter().filter(|outcome| outcome.result == 0) {
            *told.entry((case.stage, outcome.told.reason)).or_insert(0) += 1;
            sets += usize::from(outcome.told.set != 0);
        }
    }
    assert_eq!(told.keys().copied().collect::<BTreeSet<_>>(), reasons());
    assert_eq!(told.iter().find(|(_, count)| **count < OFTEN), None);
    assert!(sets >= OFTEN);
}
