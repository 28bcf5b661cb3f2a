//! The files of a folder, read as the programs `show`, `putback` and `sweep` read them.

use std::fs::File;
use std::io::{self, Read};
use std::path::Path;

pub const LONGEST_NODE_FILE: u64 = 9_856;
pub const LONGEST_PROGRAM: u64 = 6_624;

/// One byte more than the longest legal file is enough to see that a file is too long.
pub fn read(folder: &Path, name: &str, longest: u64) -> io::Result<Vec<u8>> {
    let mut bytes = Vec::new();
    File::open(folder.join(name))?.take(longest + 1).read_to_end(&mut bytes)?;
    Ok(bytes)
}
