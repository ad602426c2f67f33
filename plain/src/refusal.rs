//! The numbers of 'What each call refuses', and those that the requests add.

/// A call that is done.
pub const DONE: u8 = 0;
/// The state is not sound.
pub const UNSOUND: u8 = 1;
/// The disk area, or the slot buffer, has a wrong length.
pub(crate) const WRONG_LENGTH: u8 = 2;
/// The data or the output is not 64 bytes.
pub(crate) const NOT_A_BLOCK: u8 = 3;
/// n is outside 1 to 8.
pub(crate) const DISK_COUNT: u8 = 4;
/// b is outside 1 to 64.
pub(crate) const BLOCK_COUNT: u8 = 5;
/// The cabinet is stopped.
pub(crate) const STOPPED: u8 = 6;
/// The cabinet is running.
pub(crate) const RUNNING: u8 = 7;
/// The disk, or a disk of R, is not below n.
pub(crate) const NO_SUCH_DISK: u8 = 8;
/// The block is not below b.
pub(crate) const NO_SUCH_BLOCK: u8 = 9;
/// The disk to join is out of reach.
pub(crate) const OUT_OF_REACH: u8 = 10;
/// The disk to join is in G.
pub(crate) const ALREADY_MEMBER: u8 = 11;
/// L is empty.
pub(crate) const NONE_LIVE: u8 = 12;
/// No candidate in any stage.
pub(crate) const NO_CANDIDATE: u8 = 13;
/// More than one candidate in the stage that decides.
pub(crate) const SEVERAL_CANDIDATES: u8 = 14;
/// The list of stores is longer than the supply.
pub(crate) const SUPPLY_ENDED: u8 = 15;
/// Fewer bytes than a label has.
pub(crate) const LABEL_SHORT: u8 = 16;
/// A bit from 3 up stands in the label's map.
pub(crate) const LABEL_MAP: u8 = 17;
/// The label's n or disk number is wrong, or not its bay's.
pub(crate) const LABEL_NUMBERS: u8 = 18;
/// A field that is present is 0.
pub(crate) const FIELD_ZERO: u8 = 19;
/// A C or T that is not 0 names a disk from n up or omits its own disk.
pub(crate) const LABEL_SET: u8 = 20;
/// The output is shorter than the label.
pub(crate) const OUTPUT_SHORT: u8 = 21;
/// A dirty bit names no region.
pub(crate) const NO_SUCH_REGION: u8 = 22;
/// The stage is not 1, 2 or 3.
pub(crate) const NO_SUCH_STAGE: u8 = 23;
/// The disk to swap is in reach.
pub(crate) const IN_REACH: u8 = 24;
/// The label that a returned disk shows is not the stored one.
pub(crate) const LABEL_DIFFERS: u8 = 25;
