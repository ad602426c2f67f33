//! That the claims of document 01 about single calls can fail: each refuses what a call might leave or answer else.

use reference::cabinet::{Answer, Cabinet};
use reference::call::Call;
use reference::claims::{Claim, Event};
use reference::join_claims::JoinClaim;
use reference::loss_claims::LossClaim;
use reference::mistakes::{Mistake, Rules};
use reference::quiet_claims::QuietClaim;
use reference::refutation::refuting_history;
use reference::restart_claims::RestartClaim;
use reference::return_claims::ReturnClaim;
use reference::sets::DiskSet;
use reference::state::{Power, BLOCK};
use reference::trial::Trial;
use reference::write_claims::WriteClaim;

/// A supply that suffices for each list here.
const AMPLE: u16 = 999;

/// What is altered of the cabinet after a call, and of its answer.
type Alteration = fn(&mut Cabinet, &mut Answer);

/// The cabinet of n disks of 9 blocks after these calls.
fn after(n: u16, calls: &[Call]) -> Trial {
    let fresh = Trial::fresh(Rules::PAPER, Rules::PAPER, n, 9).expect("n is in range");
    let made = fresh.after_all(calls, &[]);
    made.expect("all claims hold").0
}

fn write(supply: u16) -> Call {
    let data = vec![7; BLOCK];
    Call::Write { block: 0, data, supply }
}

/// The return of a disk whose label is that of a member of all three, with region 0 dirty.
fn returned(disk: u16) -> Call {
    let shown = vec![5, 0x30 | disk as u8, 7, 1];
    Call::Return { disk, shown }
}

/// The claim holds of the call as it is, and not when what comes of it is altered.
fn refuses(claim: Claim, trial: &Trial, call: &Call, alterations: &[Alteration]) {
    let unaltered: Alteration = |_, _| {};
    assert!(holds(claim, trial, call, unaltered), "{claim:?}");
    for (place, alter) in alterations.iter().enumerate() {
        assert!(!holds(claim, trial, call, *alter), "{claim:?}, alteration {place}");
    }
}

/// Whether the claim holds of the call when what comes of it is altered so.
fn holds(claim: Claim, trial: &Trial, call: &Call, alter: Alteration) -> bool {
    let (mut made, outcome) = trial.after(call, &[], &[]);
    let mut answer = outcome.answer;
    alter(&mut made.cabinet, &mut answer);
    claim.holds_of(&Event {
        before: &trial.cabinet,
        call,
        given: &[],
        answer,
        told: None,
        output: &[],
        after: &made.cabinet,
        book: &made.book,
        counted: false,
    })
}

/// Disks 0 and 1 are L, and disk 2 of G is lost; region 0 is dirty on all.
#[test]
fn quiets() {
    let (trial, quiet) = (
        after(3, &[write(AMPLE), Call::Lose { disk: 2 }]),
        QuietClaim::KeepsOthers,
    );
    let done = |claim, alterations: &[Alteration]| {
        refuses(Claim::Quiet(claim), &trial, &Call::Quiet { supply: 2 }, alterations);
    };
    done(QuietClaim::Clears, &[|c, _| c.state.labels[1].dirty = 2]);
    done(
        QuietClaim::Counts,
        &[|_, answer| answer.stores = 1, |_, answer| answer.stores = 3],
    );
    let sets: [Alteration; 3] = [
        |c, _| c.state.power = Power::Running(DiskSet(3)),
        |c, _| c.state.labels[0].committed = DiskSet(3),
        |c, _| c.state.labels[1].tentative = DiskSet(3),
    ];
    done(QuietClaim::KeepsSets, &sets);
    let others: [Alteration; 3] = [
        |c, _| c.state.labels[2].dirty = 0,
        |c, _| c.state.reach = DiskSet(7),
        |c, _| c.area[0] = 1,
    ];
    done(quiet, &others);
    refuses(Claim::Quiet(quiet), &trial, &Call::Quiet { supply: 1 }, &others);
}

/// The bound of two disks is 8 stores, of a write that is cut too; a stopped cabinet has no disk in L.
#[test]
fn writes() {
    let bound = Claim::Write(WriteClaim::Bound);
    let more: [Alteration; 1] = [|_, answer| answer.stores = 9];
    for supply in [AMPLE, 3] {
        refuses(bound, &after(2, &[]), &write(supply), &more);
    }
    refuses(
        bound,
        &after(2, &[Call::Cut]),
        &write(AMPLE),
        &[|_, answer| answer.stores = 1],
    );
}

/// Region 0 of two disks: 8 copies, 2 clears, and 2 commits.
#[test]
fn restarts() {
    let (trial, whole) = (after(2, &[write(3)]), Call::Restart { supply: 12 });
    let other_counts: [Alteration; 2] = [|_, answer| answer.stores = 11, |_, answer| answer.stores = 13];
    refuses(Claim::Restart(RestartClaim::Counts), &trial, &whole, &other_counts);
    let cut_with = |supply, alterations: &[Alteration]| {
        refuses(
            Claim::Restart(RestartClaim::CutCounts),
            &trial,
            &Call::Restart { supply },
            alterations,
        );
    };
    cut_with(11, &[|_, answer| answer.stores = 10, |_, answer| answer.stores = 12]);
    cut_with(12, &[|_, answer| answer.result = 15]);
}

/// Disks 0 and 1 are G, and hold what was written while disk 2 was lost.
#[test]
fn joins() {
    let calls = [write(AMPLE), Call::Lose { disk: 2 }, write(AMPLE), returned(2)];
    let trial = after(3, &calls);
    let with = |supply, claim, alterations: &[Alteration]| {
        refuses(Claim::Join(claim), &trial, &Call::Join { disk: 2, supply }, alterations);
    };
    for supply in [0, 14, AMPLE] {
        with(supply, JoinClaim::KeepsMap, &[|c, _| c.state.labels[2].dirty = 0]);
        let others: [Alteration; 2] = [|c, _| c.area[0] = 1, |c, _| c.area[18 * BLOCK - 1] = 1];
        with(supply, JoinClaim::KeepsOtherBlocks, &others);
    }
    let copied: [Alteration; 2] = [|c, _| c.area[18 * BLOCK] = 1, |c, _| c.area[27 * BLOCK - 1] = 1];
    with(AMPLE, JoinClaim::CopiesLowest, &copied);
    let powers: [Alteration; 2] = [
        |c, _| c.state.power = Power::Stopped,
        |c, _| c.state.power = Power::Running(DiskSet(3)),
    ];
    with(AMPLE, JoinClaim::Moves, &powers);
    with(AMPLE, JoinClaim::HoldsBook, &[|c, _| c.area[9 * BLOCK] = 1, copied[1]]);
}

/// Disk 2 of G is lost, and lost again or returned; the power is cut, and cut again.
#[test]
fn losses_and_returns() {
    let lost = [write(AMPLE), Call::Lose { disk: 2 }];
    let effects: [Alteration; 4] = [
        |_, answer| answer.result = 6,
        |_, answer| answer.stores = 1,
        |c, _| c.state.reach = DiskSet(1),
        |c, _| c.area[0] = 1,
    ];
    refuses(Claim::Loss(LossClaim::OfLostDisk), &after(3, &lost), &lost[1], &effects);
    refuses(
        Claim::Loss(LossClaim::OfLostPower),
        &after(3, &[Call::Cut]),
        &Call::Cut,
        &effects,
    );
    let left_out: [Alteration; 2] = [
        |c, _| c.state.reach = DiskSet(3),
        |c, _| c.state.power = Power::Running(DiskSet(3)),
    ];
    refuses(
        Claim::Return(ReturnClaim::CurrentAgain),
        &after(3, &lost),
        &returned(2),
        &left_out,
    );
}

/// Each of these mistakes makes a list otherwise.
#[test]
fn the_order_of_stores() {
    let of_lists = [
        Mistake::BlocksBeforeBits,
        Mistake::ClearsBeforeCopies,
        Mistake::CopiesFromOtherMember,
        Mistake::JoinBeforeCopies,
        Mistake::ReadStays,
        Mistake::RestartCopiesNothing,
        Mistake::SwapMovesAlways,
        Mistake::SwapStays,
        Mistake::WriteStoresNothing,
    ];
    for mistake in of_lists {
        let rules = Rules::with(mistake);
        assert!(
            refuting_history(rules, rules, Claim::StoresInOrder).is_some(),
            "{mistake:?}"
        );
    }
}
