//! Rewrites the two files of the corpus in place.

#![forbid(unsafe_code)]

use std::{fs, io};

fn main() -> io::Result<()> {
    for file in reference::files::all() {
        if let Some(folder) = file.path.parent() {
            fs::create_dir_all(folder)?;
        }
        fs::write(&file.path, &file.bytes)?;
        println!("{} bytes  {}", file.bytes.len(), file.path.display());
    }
    Ok(())
}
