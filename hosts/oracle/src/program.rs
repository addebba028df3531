//! What the programs `loops` and `replay` have in common: a line and a script in, a listing or a refusal out.

use std::io::{self, Read, Write};

use crate::cause;
use crate::{list, load, read, State};

/// A program, as what it prints for an input.
pub type Program = fn(&[u8]) -> Vec<u8>;

/// Bytes of the longest first line.
pub const MOST_LINE: usize = 4096;
/// Bytes of the longest listing.
pub const MOST_LISTING: usize = 65_536;

/// The first line without its end, and the script after it; nothing if no line ends or the first is too long.
pub fn parts(input: &[u8]) -> Option<(&[u8], &[u8])> {
    let end = input.iter().position(|byte| *byte == b'\n')?;
    (end <= MOST_LINE).then_some((&input[..end], &input[end + 1..]))
}

/// The state that a script starts in.
pub fn started(text: &[u8]) -> Result<State, u8> {
    load(&read(text)?)
}

/// The listing of the state in the end, if it is not too long to be printed.
pub fn listed(state: &State) -> Result<Vec<u8>, u8> {
    let listing = list(state);
    (listing.len() <= MOST_LISTING).then_some(listing).ok_or(cause::ROOM)
}

/// What is printed: the text, or the cause why there is none.
pub fn shown(text: Result<Vec<u8>, u8>) -> Vec<u8> {
    text.unwrap_or_else(|cause| format!("(refused {cause})\n").into_bytes())
}

/// Runs a program on standard input and output.
pub fn on_standard_streams(program: Program) -> io::Result<()> {
    let mut input = Vec::new();
    io::stdin().lock().read_to_end(&mut input)?;
    io::stdout().lock().write_all(&program(&input))
}
