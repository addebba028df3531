//! The engine's six calls on memory that the caller lends: slices of words and bytes, of any length and with anything in them.
//!
//! `Table` and `State` are easier to use. These are for callers who keep words in their own memory, a file or a message. No call asks
//! anything of what it is lent. A refused call leaves every slice as it was, and no call writes past the words or the text that it
//! is for.
//!
//! ```
//! use atlite::{Refusal, lent};
//!
//! let mut table = [0; atlite::TABLE_WORDS];
//! let mut state = vec![0; atlite::STATE_WORDS];
//! lent::read(b"(plus 2 3)\n", &mut table)?;
//! lent::load(&table, &mut state)?;
//! lent::run(&mut state, &[0])?;
//!
//! let mut text = [0; 100];
//! let n = lent::list(&state, &mut text)?;
//! assert_eq!(&text[..n], b"(actor 0 1 0 0 5)\n");
//!
//! assert_eq!(lent::list(&state, &mut [0; 5]), Err(Refusal::Short));
//! state[0] = 9;
//! assert_eq!(lent::list(&state, &mut text), Err(Refusal::Neither));
//! # Ok::<(), Refusal>(())
//! ```

// the one module that calls what is not Rust; `calls` declares it
#![allow(unsafe_code)]

use crate::{Counts, Move, Refusal, calls};

/// What a call's number says. The contracts leave no number but these.
fn answer(number: u32) -> Result<(), Refusal> {
    if number == 0 {
        return Ok(());
    }
    let cause = u8::try_from(number).ok().and_then(Refusal::from_number);
    Err(cause.expect("a call returns 0 or the number of a cause"))
}

/// Reads a script's text into the first [`TABLE_WORDS`](crate::TABLE_WORDS) words of `table`.
pub fn read(text: &[u8], table: &mut [u32]) -> Result<(), Refusal> {
    // SAFETY: the pointers and lengths are those of two slices that Rust lends, so they are valid and do not overlap.
    answer(unsafe {
        calls::atlite_read(text.as_ptr(), text.len(), table.as_mut_ptr(), table.len())
    })
}

/// Writes the text of a table in front of `text` and answers its length.
pub fn print(table: &[u32], text: &mut [u8]) -> Result<usize, Refusal> {
    let mut length = 0;
    // SAFETY: as in `read`; the place for the length is a local of its own.
    answer(unsafe {
        calls::atlite_print(
            table.as_ptr(),
            table.len(),
            text.as_mut_ptr(),
            text.len(),
            &mut length,
        )
    })?;
    Ok(length)
}

/// Writes the state in which the script of a table begins to the first [`STATE_WORDS`](crate::STATE_WORDS) words of `state`. What they
/// held does not matter.
pub fn load(table: &[u32], state: &mut [u32]) -> Result<(), Refusal> {
    // SAFETY: as in `read`.
    answer(unsafe {
        calls::atlite_load(table.as_ptr(), table.len(), state.as_mut_ptr(), state.len())
    })
}

/// Lets an actor of a state move once.
pub fn move_actor(state: &mut [u32], actor: u8) -> Result<Move, Refusal> {
    let (mut kind, mut other) = (0, 0);
    // SAFETY: as in `read`; the two places are locals of their own.
    answer(unsafe {
        calls::atlite_move(
            state.as_mut_ptr(),
            state.len(),
            actor,
            &mut kind,
            &mut other,
        )
    })?;
    let other = u8::try_from(other).expect("an actor's number is a byte");
    Ok(match kind {
        1 => Move::Inner,
        2 => Move::Taken,
        3 => Move::Sent(other),
        4 => Move::Created(other),
        _ => unreachable!("a move has one of four kinds"),
    })
}

/// Lets the actors that `entries` names move one after another, and passes over moves that are refused.
pub fn run(state: &mut [u32], entries: &[u8]) -> Result<Counts, Refusal> {
    let (mut moves, mut refusals) = (0, 0);
    // SAFETY: as in `read`; the two places are locals of their own.
    answer(unsafe {
        calls::atlite_run(
            state.as_mut_ptr(),
            state.len(),
            entries.as_ptr(),
            entries.len(),
            &mut moves,
            &mut refusals,
        )
    })?;
    Ok(Counts { moves, refusals })
}

/// Writes the listing of a state in front of `text` and answers its length.
pub fn list(state: &[u32], text: &mut [u8]) -> Result<usize, Refusal> {
    let mut length = 0;
    // SAFETY: as in `print`.
    answer(unsafe {
        calls::atlite_list(
            state.as_ptr(),
            state.len(),
            text.as_mut_ptr(),
            text.len(),
            &mut length,
        )
    })?;
    Ok(length)
}
