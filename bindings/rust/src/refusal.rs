//! Why a call was refused: the numbers of 'What each call refuses'.

use core::fmt;

/// Makes the enum, its numbers and its texts from one table, so that each refusal is said once.
macro_rules! refusals {
    ($($number:literal $name:ident $text:literal)*) => {
        /// Why a call was refused: a number of document 01 or 02, and what it stands for. More will come.
        #[non_exhaustive]
        #[derive(Clone, Copy, Debug, PartialEq, Eq, Hash)]
        pub enum Refusal {
            $(#[doc = concat!($number, ": ", $text, ".")] $name,)*
            /// A number that none of these calls has. The proved library never gives one.
            Unknown(u8),
        }

        impl Refusal {
            /// The paper's number.
            pub fn number(self) -> u8 {
                match self {
                    $(Refusal::$name => $number,)*
                    Refusal::Unknown(number) => number,
                }
            }

            /// The refusal of a number.
            fn of(number: u8) -> Refusal {
                match number {
                    $($number => Refusal::$name,)*
                    _ => Refusal::Unknown(number),
                }
            }

            /// What it stands for.
            pub fn text(self) -> &'static str {
                match self {
                    $(Refusal::$name => $text,)*
                    Refusal::Unknown(_) => "not a refusal of this library",
                }
            }
        }
    };
}

refusals! {
    1 Unsound "the state is not sound"
    2 BufferLength "the disk area or the slot buffer has a wrong length"
    3 BlockLength "the data or the output is not 64 bytes"
    4 DiskCount "the number of disks is outside 1 to 8"
    5 BlockCount "the number of blocks is outside 1 to 64"
    6 Stopped "the cabinet is stopped"
    7 Running "the cabinet is running"
    8 NoSuchDisk "there is no disk of this number"
    9 NoSuchBlock "there is no block of this number"
    10 DiskOffline "the disk is out of reach"
    11 DiskCurrent "the disk is in the current set"
    12 NoneLive "no member of the current set is in reach"
    13 NoSet "the labels in reach name no set"
    14 SeveralSets "the labels in reach name more than one set"
    15 PowerLost "the power went before the last store"
    16 LabelCutShort "there are fewer bytes than the label has"
    17 LabelMap "a bit that names no field stands in the label's map"
    18 LabelPlace "the label's disk number or number of disks cannot be, or is not its bay's"
    19 LabelEmptyField "a field that the label's map names is 0"
    20 LabelSet "a set of the label names a disk that is not there, or omits its own"
    21 NoRoom "the output is shorter than the label"
    22 NoSuchRegion "a dirty bit of the label names no region"
    23 NoSuchStage "the stage is not 1, 2 or 3"
    24 DiskOnline "the disk is in reach"
    25 OtherLabel "the label that the disk shows is not the stored one"
}

/// The outcome of a result's number, of which 0 is "a done call".
pub(crate) fn outcome(number: u8) -> Result<(), Refusal> {
    match number {
        0 => Ok(()),
        _ => Err(Refusal::of(number)),
    }
}

impl fmt::Display for Refusal {
    fn fmt(&self, f: &mut fmt::Formatter<'_>) -> fmt::Result {
        write!(f, "refused with {}: {}", self.number(), self.text())
    }
}

impl core::error::Error for Refusal {}

#[cfg(test)]
mod tests {
    extern crate std;

    use super::*;
    use std::format;
    use std::string::{String, ToString};
    use std::vec::Vec;

    /// The header of the C library, which has the same table and the same version.
    const HEADER: &str = include_str!("../../../include/cabinet.h");

    #[test]
    fn every_number_keeps_its_value() {
        assert_eq!(outcome(0), Ok(()));
        for number in 1..=255 {
            assert_eq!(outcome(number).map_err(Refusal::number), Err(number));
        }
    }

    #[test]
    fn the_cases_are_the_papers() {
        let is_known = |&number: &u8| !matches!(Refusal::of(number), Refusal::Unknown(_));
        let known: Vec<u8> = (0..=255).filter(is_known).collect();
        let papers: Vec<u8> = (1..=25).collect();
        assert_eq!(known, papers);
    }

    /// A name as the header writes it, such as `NO_SUCH_DISK`.
    fn name_in_c(refusal: Refusal) -> String {
        let mut name = String::new();
        for letter in format!("{refusal:?}").chars() {
            if letter.is_uppercase() && !name.is_empty() {
                name.push('_');
            }
            name.push(letter.to_ascii_uppercase());
        }
        name
    }

    #[test]
    fn the_header_has_the_same_numbers_names_and_texts() {
        let in_c = HEADER.lines().filter_map(|line| line.trim().strip_prefix("LINE("));
        let in_c: Vec<&str> = in_c.map(|line| line.trim_end_matches([' ', '\\', ')'])).collect();
        let line = |refusal: Refusal| {
            let (number, name, text) = (refusal.number(), name_in_c(refusal), refusal.text());
            format!("{number}, {name}, \"{text}\"")
        };
        let ours: Vec<String> = (1..=25).map(|number| line(Refusal::of(number))).collect();
        assert_eq!(in_c, ours);
    }

    #[test]
    fn the_header_has_the_same_version() {
        let part = |name: &str| {
            let define = format!("#define CABINET_VERSION_{name} ");
            HEADER
                .lines()
                .find_map(|line| line.strip_prefix(&define))
                .expect("the header has a version")
        };
        let version = [part("MAJOR"), part("MINOR"), part("PATCH")].join(".");
        assert_eq!(version, env!("CARGO_PKG_VERSION"));
    }

    #[test]
    fn a_refusal_says_its_number_and_condition() {
        assert_eq!(Refusal::Stopped.to_string(), "refused with 6: the cabinet is stopped");
    }
}
