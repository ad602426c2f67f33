//! The numbers of 'What each call refuses', and those that the requests add.

/// A call that is done.
pub const DONE: u8 = 0;
/// The state is not sound.
pub const UNSOUND: u8 = 1;
/// The disk area, or the slot buffer, has a wrong length.
pub const WRONG_LENGTH: u8 = 2;
/// The data or the output is not 64 bytes.
pub const NOT_A_BLOCK: u8 = 3;
/// n is outside 1 to 8.
pub const DISK_COUNT: u8 = 4;
/// b is outside 1 to 64.
pub const BLOCK_COUNT: u8 = 5;
/// The cabinet is stopped.
pub const STOPPED: u8 = 6;
/// The cabinet is running.
pub const RUNNING: u8 = 7;
/// The disk, or a disk of R, is not below n.
pub const NO_SUCH_DISK: u8 = 8;
/// The block is not below b.
pub const NO_SUCH_BLOCK: u8 = 9;
/// The disk to join is out of reach.
pub const OUT_OF_REACH: u8 = 10;
/// The disk to join is in G.
pub const ALREADY_MEMBER: u8 = 11;
/// L is empty.
pub const NONE_LIVE: u8 = 12;
/// No candidate in any stage.
pub const NO_CANDIDATE: u8 = 13;
/// More than one candidate in the stage that decides.
pub const SEVERAL_CANDIDATES: u8 = 14;
/// The list of stores is longer than the supply.
pub const SUPPLY_ENDED: u8 = 15;
/// Fewer bytes than a label has.
pub const LABEL_SHORT: u8 = 16;
/// A bit from 3 up stands in the label's map.
pub const LABEL_MAP: u8 = 17;
/// The label's n or disk number is wrong, or not its bay's.
pub const LABEL_NUMBERS: u8 = 18;
/// A field that is present is 0.
pub const FIELD_ZERO: u8 = 19;
/// A C or T that is not 0 names a disk from n up or omits its own disk.
pub const LABEL_SET: u8 = 20;
/// The output is shorter than the label.
pub const OUTPUT_SHORT: u8 = 21;
/// A dirty bit names no region.
pub const NO_SUCH_REGION: u8 = 22;
/// The stage is not 1, 2 or 3.
pub const NO_SUCH_STAGE: u8 = 23;
/// The disk to swap is in reach.
pub const IN_REACH: u8 = 24;
/// "A well-formed label differs from the stored one."
pub const LABEL_DIFFERS: u8 = 25;

/// "Each refusal falls in the order of its paragraph, on its condition only": the first one whose condition holds.
pub fn first(refusals: &[(u8, bool)]) -> Result<(), u8> {
    match refusals.iter().find(|(_, holds)| *holds) {
        Some((number, _)) => Err(*number),
        None => Ok(()),
    }
}
