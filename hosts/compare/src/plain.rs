//! The plain engine's moves, and the switch that spoils them.

use oracle::state::{most, Value};
use oracle::term::Term;
use oracle::{Answer, State};

/// One move. With the planted fault, a message for a full inbox is dropped and its send counts as made.
pub fn step(state: &mut State, actor: u8) -> Result<Answer, u8> {
    let answer = oracle::step(state, actor);
    match answer {
        Err(oracle::cause::LIMIT) if cfg!(feature = "planted") => {
            drop_message(state, actor).ok_or(oracle::cause::LIMIT)
        }
        _ => answer,
    }
}

/// Tries an entry for each byte and gives the numbers of moves and of refusals.
pub fn run(state: &mut State, entries: &[u8]) -> (usize, usize) {
    let moves = entries.iter().filter(|actor| step(state, **actor).is_ok()).count();
    (moves, entries.len() - moves)
}

/// The fault: the send is over, and nobody has the message.
fn drop_message(state: &mut State, actor: u8) -> Option<Answer> {
    let Term::Send(send) = state.actors[usize::from(actor)].expression.redex() else { return None };
    let Some(Value::Ref(receiver)) = send.receiver.value() else { return None };
    if state.actor(receiver.owner)?.inbox.len() < most::INBOX {
        return None;
    }
    let mover = &mut state.actors[usize::from(actor)];
    *mover.expression.redex_mut() = Term::default();
    mover.moves += 1;
    state.recount();
    Some(Answer::Sent(receiver.owner))
}
