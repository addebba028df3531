//! Writes the stored moves of the program `test_moves`: `oracle-moves DIR` makes a file for each group in the folder.
//!
//! From the root of the repository: `cargo run --release --manifest-path hosts/oracle/Cargo.toml --bin oracle-moves
//! crates/test_moves/data`. The same files come out each time.

use std::path::Path;
use std::{env, fs, io};

use oracle::stored::groups;

fn main() -> io::Result<()> {
    let Some(folder) = env::args().nth(1) else {
        return Err(io::Error::new(io::ErrorKind::InvalidInput, "a folder is needed"));
    };
    fs::create_dir_all(&folder)?;
    groups().iter().try_for_each(|group| fs::write(Path::new(&folder).join(group.name), group.file()))
}
