//! The committed files that the reference makes, and which tests compare.

use crate::mistakes::Rules;
use crate::{corpus, driver};
use std::path::{Path, PathBuf};

/// One file: its place from the root of the repository, and its bytes.
pub struct Made {
    /// The place.
    pub path: PathBuf,
    /// The bytes.
    pub bytes: Vec<u8>,
}

/// The two files: input and output of the cabinet program's corpus.
pub fn all() -> [Made; 2] {
    let input = corpus::input();
    let answers = driver::answers(Rules::PAPER, &input);
    [
        made("crates/console/stdin", input),
        made("crates/console/stdout", answers),
    ]
}

/// The file at this place in the repository that this package stands in.
fn made(place: &str, bytes: Vec<u8>) -> Made {
    let package = Path::new(env!("CARGO_MANIFEST_DIR"));
    let path = package.join("..").join(place);
    Made { path, bytes }
}
