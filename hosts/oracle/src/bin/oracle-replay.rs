//! `replay` on standard input and output.

use std::io;

fn main() -> io::Result<()> {
    oracle::program::on_standard_streams(oracle::replay)
}
