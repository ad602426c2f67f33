//! Wrong rules, each of which some claim of the paper excludes, wrong claims, which say what the paper's rules do not
//! keep, and the rule set that says which one is in force.
//!
//! The names are those of the product's list of edits that must fail, so that the two lists can be compared.

/// One wrong rule or wrong claim.
#[derive(Clone, Copy, Debug, PartialEq, Eq)]
pub enum Mistake {
    /// Assembling takes every label from the first slot.
    AssembleOneSlot,
    /// A label is held against its bay by its number alone, and n is not compared: in assembling and in a return.
    BayIgnoresDiskCount,
    /// A write stores its blocks before it moves and sets the dirty bits.
    BlocksBeforeBits,
    /// The book counts a write when its whole list is made.
    BookCountsAtLastDisk,
    /// The book counts a write wherever it is cut.
    BookCountsEveryWrite,
    /// A done quiet reports as many stores as L has disks.
    CleanCountsDisks,
    /// A quiet leaves the dirty bits of a last region that is short, though it counts their clears.
    CleanLeavesShortRegion,
    /// A restart clears a region's dirty bits before its copies.
    ClearsBeforeCopies,
    /// A restart copies from the second member.
    CopiesFromOtherMember,
    /// A cut is said to change nothing, of a running cabinet too.
    CutChangesNothing,
    /// A call that is cut makes its whole list and reports the supply.
    CutMakesWholeList,
    /// A cut of a stopped cabinet gives 6.
    CutOfStoppedRefused,
    /// A call that is cut leaves the cabinet running with the disks in reach.
    CutRunsOn,
    /// A cut write is said to count one store before that on the lowest member of L.
    CutWriteCountsEarly,
    /// A diagnosis of stage 2 says 'a candidate' though no member has the set as its T.
    DiagnosisWithoutProposal,
    /// A diagnosis tells the lowest member that disagrees before one that is out of reach.
    DisagreementBeforeReach,
    /// A move's first store on a disk commits it too, before the next one has the tentative set.
    EarlyCommit,
    /// No stage 2: committed sets decide whenever some tentative set is missing.
    FallbackToCommitted,
    /// The finder tries tentative sets in stage 3 too.
    FinderMissesCommitted,
    /// Fresh gives labels that have a tentative set.
    FormatWithTentative,
    /// A join moves first and copies afterwards.
    JoinBeforeCopies,
    /// A commit empties the disk's dirty map.
    JoinClearsMap,
    /// A joined disk is said to have the blocks of the lowest disk of G, in reach or not.
    JoinCopiesFromLost,
    /// A join tests first whether L is empty, then membership, then reach.
    JoinNoneLiveBeforeMember,
    /// A join tests reach before membership: the order before request 2.1.
    JoinReachBeforeMember,
    /// Every disk in reach is said to hold the book after a join.
    JoinRightInReach,
    /// One member suffices for a stage, and the largest of several sets is taken.
    LargerSet,
    /// The lists of sets to test lack the last disk's set.
    ListMissesLastDisk,
    /// The lists of sets to test have a set once for each disk that has it.
    ListRepeatsSets,
    /// A loss of a disk in reach is said to change nothing.
    LoseChangesNothing,
    /// Losing a lost disk loses every disk.
    LoseLostLosesAll,
    /// A loss of disk d takes disk d + 1 with it.
    LoseTakesNext,
    /// A loss is said to be undone by a return, whatever the disk shows.
    LossUndoneUnseen,
    /// A diagnosis tells the lowest member as out of reach, though it may be in reach.
    LowestMemberTold,
    /// Only a set that has most of the disks in reach is taken.
    Majority,
    /// A diagnosis gives a set, disk 0 alone, where a restart gives 14.
    OtherSetOfSeveral,
    /// A diagnosis gives the set of a restart though the asked disk is in it.
    OtherSetWithDisk,
    /// In stage 3 a disk's own set is its C though it has a T.
    OwnSetByStage,
    /// A done read that moved reports 0 stores.
    ReadCountsNoStores,
    /// A read that is cut has filled the output all the same.
    ReadFillsThenCut,
    /// A read moves, and answers from the lowest member of the G before, though that may be out of reach.
    ReadFromLostDisk,
    /// A read moves, and leaves G as it was.
    ReadKeepsSet,
    /// A read yields block 0.
    ReadOfAnotherBlock,
    /// A read never moves: the rule before request 2.3.
    ReadStays,
    /// A dirty region of a restart is said to take one clear less than S has members.
    RestartClearsStanding,
    /// A restart clears a region's dirty bits and copies nothing.
    RestartCopiesNothing,
    /// A done restart does not count its commits.
    RestartCountsNoCommits,
    /// A restart names all disks in reach.
    RestartNamesAll,
    /// A restart never finds a set.
    RestartRefusesAlways,
    /// Only a stopped cabinet looks at a returned disk's label; a running one takes the disk back unseen.
    ReturnCheckedWhenStopped,
    /// A return compares the bytes themselves with those of the stored label, so that one more makes them differ.
    ReturnComparesBytes,
    /// A return tests whether the label differs before whether a dirty bit names no region.
    ReturnDiffersBeforeRegion,
    /// A return compares only C and T with the stored label.
    ReturnIgnoresDirty,
    /// A return looks at the bytes though the disk is in reach.
    ReturnLooksInReach,
    /// A return never looks at the bytes: the rule before request 2.6.
    ReturnUnseen,
    /// A returned disk outside G is said to be in L.
    ReturnedIsCurrent,
    /// A returned disk of G is said to leave it.
    ReturnedLeavesSet,
    /// The test of soundness does not look at a member's tentative set.
    SoundIgnoresTentative,
    /// Stage 2 does not ask that some member has T = X.
    StageTwoWithoutProposal,
    /// A commit leaves the tentative set on the disk.
    StaleTentative,
    /// The disks of each phase of a list are said to descend.
    StoresDescend,
    /// A done swap leaves the new disk in reach.
    SwapComesIntoReach,
    /// A done swap counts a store for each block that it zeroed.
    SwapCountsBlocks,
    /// A done swap leaves the disk's blocks as they were.
    SwapKeepsBlocks,
    /// A done swap leaves the disk's label as it was.
    SwapKeepsLabel,
    /// A swap moves to L, if that is not empty and differs from G, for a disk outside G too.
    SwapMovesAlways,
    /// A swap is refused with 12 where L is empty, for a disk outside G too.
    SwapNeedsLiveDisk,
    /// A swap of a stopped cabinet is done: the cabinet stays stopped, with a blank disk in the bay.
    SwapOfStoppedCabinet,
    /// A swap never moves: G stays as it was, the blank disk in it.
    SwapStays,
    /// A swap that is cut has zeroed the disk's blocks all the same.
    SwapZeroesThoughCut,
    /// The claimed bound of a write is 3 stores a disk.
    WriteBoundThree,
    /// A done write counts the stores of its move to L twice.
    WriteCountsMoveTwice,
    /// A write stores its block on no disk.
    WriteStoresNothing,
    /// A write is said to store its block on every disk of G.
    WriteStoresOnAllCurrent,
}

impl Mistake {
    /// Every mistake with its name.
    pub const ALL: [(Mistake, &'static str); 74] = [
        (Mistake::AssembleOneSlot, "assemble_one_slot"),
        (Mistake::BayIgnoresDiskCount, "bay_ignores_disk_count"),
        (Mistake::BlocksBeforeBits, "blocks_before_bits"),
        (Mistake::BookCountsAtLastDisk, "book_counts_at_last_disk"),
        (Mistake::BookCountsEveryWrite, "book_counts_every_write"),
        (Mistake::CleanCountsDisks, "clean_counts_disks"),
        (Mistake::CleanLeavesShortRegion, "clean_leaves_short_region"),
        (Mistake::ClearsBeforeCopies, "clears_before_copies"),
        (Mistake::CopiesFromOtherMember, "copies_from_other_member"),
        (Mistake::CutChangesNothing, "cut_changes_nothing"),
        (Mistake::CutMakesWholeList, "cut_makes_whole_list"),
        (Mistake::CutOfStoppedRefused, "cut_of_stopped_refused"),
        (Mistake::CutRunsOn, "cut_runs_on"),
        (Mistake::CutWriteCountsEarly, "cut_write_counts_early"),
        (Mistake::DiagnosisWithoutProposal, "diagnosis_without_proposal"),
        (Mistake::DisagreementBeforeReach, "disagreement_before_reach"),
        (Mistake::EarlyCommit, "early_commit"),
        (Mistake::FallbackToCommitted, "fallback_to_committed"),
        (Mistake::FinderMissesCommitted, "finder_misses_committed"),
        (Mistake::FormatWithTentative, "format_with_tentative"),
        (Mistake::JoinBeforeCopies, "join_before_copies"),
        (Mistake::JoinClearsMap, "join_clears_map"),
        (Mistake::JoinCopiesFromLost, "join_copies_from_lost"),
        (Mistake::JoinNoneLiveBeforeMember, "join_none_live_before_member"),
        (Mistake::JoinReachBeforeMember, "join_reach_before_member"),
        (Mistake::JoinRightInReach, "join_right_in_reach"),
        (Mistake::LargerSet, "larger_set"),
        (Mistake::ListMissesLastDisk, "list_misses_last_disk"),
        (Mistake::ListRepeatsSets, "list_repeats_sets"),
        (Mistake::LoseChangesNothing, "lose_changes_nothing"),
        (Mistake::LoseLostLosesAll, "lose_lost_loses_all"),
        (Mistake::LoseTakesNext, "lose_takes_next"),
        (Mistake::LossUndoneUnseen, "loss_undone_unseen"),
        (Mistake::LowestMemberTold, "lowest_member_told"),
        (Mistake::Majority, "majority"),
        (Mistake::OtherSetOfSeveral, "other_set_of_several"),
        (Mistake::OtherSetWithDisk, "other_set_with_disk"),
        (Mistake::OwnSetByStage, "own_set_by_stage"),
        (Mistake::ReadCountsNoStores, "read_counts_no_stores"),
        (Mistake::ReadFillsThenCut, "read_fills_then_cut"),
        (Mistake::ReadFromLostDisk, "read_from_lost_disk"),
        (Mistake::ReadKeepsSet, "read_keeps_set"),
        (Mistake::ReadOfAnotherBlock, "read_of_another_block"),
        (Mistake::ReadStays, "read_stays"),
        (Mistake::RestartClearsStanding, "restart_clears_standing"),
        (Mistake::RestartCopiesNothing, "restart_copies_nothing"),
        (Mistake::RestartCountsNoCommits, "restart_counts_no_commits"),
        (Mistake::RestartNamesAll, "restart_names_all"),
        (Mistake::RestartRefusesAlways, "restart_refuses_always"),
        (Mistake::ReturnCheckedWhenStopped, "return_checked_when_stopped"),
        (Mistake::ReturnComparesBytes, "return_compares_bytes"),
        (Mistake::ReturnDiffersBeforeRegion, "return_differs_before_region"),
        (Mistake::ReturnIgnoresDirty, "return_ignores_dirty"),
        (Mistake::ReturnLooksInReach, "return_looks_in_reach"),
        (Mistake::ReturnUnseen, "return_unseen"),
        (Mistake::ReturnedIsCurrent, "returned_is_current"),
        (Mistake::ReturnedLeavesSet, "returned_leaves_set"),
        (Mistake::SoundIgnoresTentative, "sound_ignores_tentative"),
        (Mistake::StageTwoWithoutProposal, "stage_two_without_proposal"),
        (Mistake::StaleTentative, "stale_tentative"),
        (Mistake::StoresDescend, "stores_descend"),
        (Mistake::SwapComesIntoReach, "swap_comes_into_reach"),
        (Mistake::SwapCountsBlocks, "swap_counts_blocks"),
        (Mistake::SwapKeepsBlocks, "swap_keeps_blocks"),
        (Mistake::SwapKeepsLabel, "swap_keeps_label"),
        (Mistake::SwapMovesAlways, "swap_moves_always"),
        (Mistake::SwapNeedsLiveDisk, "swap_needs_live_disk"),
        (Mistake::SwapOfStoppedCabinet, "swap_of_stopped_cabinet"),
        (Mistake::SwapStays, "swap_stays"),
        (Mistake::SwapZeroesThoughCut, "swap_zeroes_though_cut"),
        (Mistake::WriteBoundThree, "write_bound_three"),
        (Mistake::WriteCountsMoveTwice, "write_counts_move_twice"),
        (Mistake::WriteStoresNothing, "write_stores_nothing"),
        (Mistake::WriteStoresOnAllCurrent, "write_stores_on_all_current"),
    ];
}

/// The mistakes that are in what is claimed: no call shows them.
pub const OF_CLAIMS: [Mistake; 12] = [
    Mistake::CutChangesNothing,
    Mistake::CutWriteCountsEarly,
    Mistake::JoinCopiesFromLost,
    Mistake::JoinRightInReach,
    Mistake::LoseChangesNothing,
    Mistake::LossUndoneUnseen,
    Mistake::RestartClearsStanding,
    Mistake::ReturnedIsCurrent,
    Mistake::ReturnedLeavesSet,
    Mistake::StoresDescend,
    Mistake::WriteBoundThree,
    Mistake::WriteStoresOnAllCurrent,
];

/// The paper's rules, or the paper's with one mistake.
#[derive(Clone, Copy, Debug, PartialEq, Eq)]
pub struct Rules(Option<Mistake>);

impl Rules {
    /// The paper's rules.
    pub const PAPER: Rules = Rules(None);

    /// The paper's rules with this mistake.
    pub fn with(mistake: Mistake) -> Rules {
        Rules(Some(mistake))
    }

    /// Whether this mistake is in force.
    pub fn makes(self, mistake: Mistake) -> bool {
        self.0 == Some(mistake)
    }
}
