//! The compiled engine's calls, over buffers with guards.

use crate::lent::Lent;

#[path = "../../rust/src/calls.rs"]
#[rustfmt::skip]
mod calls;

pub fn read(text: &Lent<u8>, table: &mut Lent<u32>) -> u32 {
    // SAFETY: the pointers and lengths are those of two buffers that live on and do not overlap; so in all calls below.
    unsafe { calls::atlite_read(text.pointer(), text.len(), table.pointer_mut(), table.len()) }
}

pub fn print(table: &Lent<u32>, text: &mut Lent<u8>, length: &mut Lent<usize>) -> u32 {
    // SAFETY: as in `read`.
    unsafe { calls::atlite_print(table.pointer(), table.len(), text.pointer_mut(), text.len(), length.pointer_mut()) }
}

pub fn load(table: &Lent<u32>, state: &mut Lent<u32>) -> u32 {
    // SAFETY: as in `read`.
    unsafe { calls::atlite_load(table.pointer(), table.len(), state.pointer_mut(), state.len()) }
}

pub fn move_actor(state: &mut Lent<u32>, actor: u8, kind: &mut Lent<u32>, other: &mut Lent<u32>) -> u32 {
    // SAFETY: as in `read`.
    unsafe { calls::atlite_move(state.pointer_mut(), state.len(), actor, kind.pointer_mut(), other.pointer_mut()) }
}

pub fn run(state: &mut Lent<u32>, entries: &Lent<u8>, moves: &mut Lent<usize>, refusals: &mut Lent<usize>) -> u32 {
    // SAFETY: as in `read`.
    unsafe {
        calls::atlite_run(
            state.pointer_mut(),
            state.len(),
            entries.pointer(),
            entries.len(),
            moves.pointer_mut(),
            refusals.pointer_mut(),
        )
    }
}

pub fn list(state: &Lent<u32>, text: &mut Lent<u8>, length: &mut Lent<usize>) -> u32 {
    // SAFETY: as in `read`.
    unsafe { calls::atlite_list(state.pointer(), state.len(), text.pointer_mut(), text.len(), length.pointer_mut()) }
}
