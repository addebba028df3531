//! Answers and parts of states, for cases that are built by hand.

use std::sync::Arc;

use crate::script::Word;
use crate::state::*;
use crate::term::{Method, Name, Term};
use crate::Answer;

pub type Move = Result<Answer, u8>;

pub const INNER: Move = Ok(Answer::Inner);
pub const TAKEN: Move = Ok(Answer::Taken);

pub const fn sent(actor: u8) -> Move {
    Ok(Answer::Sent(ActorNo(actor)))
}

pub const fn created(actor: u8) -> Move {
    Ok(Answer::Created(ActorNo(actor)))
}

/// A reference to what an actor made.
pub fn made(owner: u8, number: u8) -> Value {
    Value::Ref(Ref { owner: ActorNo(owner), entity: EntityNo::Made(MadeNo(number)) })
}

/// A call of .resolve.
pub fn resolving(receiver: Value, value: Value) -> Term {
    Term::call(Term::Value(receiver), Name::Resolve, vec![Term::Value(value)])
}

/// A send of .register.
pub fn registering(receiver: Value, listener: Value) -> Term {
    Term::send(Term::Value(receiver), Name::Register, vec![Term::Value(listener)])
}

/// So many gets of the first word around a term.
pub fn around(term: Term, gets: usize) -> Term {
    (0..gets).fold(term, |inner, _| Term::Get(Word(0), Box::new(inner)))
}

/// An entity without fields, whose methods' bodies have so many nodes.
pub fn bodies(nodes: usize) -> Parts {
    let body = around(Term::number(1), nodes.saturating_sub(1));
    let methods: Vec<Method> = (nodes > 0).then(|| Method::new(Word(0), Vec::new(), body)).into_iter().collect();
    Parts { fields: Vec::new(), methods: Arc::from(methods) }
}

/// Objects without parts up to a number of entities that an actor made.
pub fn fill_made(state: &mut State, actor: usize, count: usize) {
    state.actors[actor].made.resize_with(count, || Entity::Object(bodies(0)));
}

/// Isolates without parts up to a number of copies that came to an actor.
pub fn fill_copies(state: &mut State, actor: usize, count: usize) {
    state.actors[actor].copies.resize_with(count, || bodies(0));
}

/// Messages to the first entity up to a number of them in an inbox.
pub fn fill_inbox(state: &mut State, actor: usize, count: usize) {
    let Value::Ref(receiver) = made(actor as u8, 0) else { return };
    let message = Message { receiver, name: Name::Plain(Word(0)), args: vec![Value::Number(7)] };
    state.actors[actor].inbox.resize_with(count, || message.clone());
}

/// An object more, with methods of so many nodes that an actor has a number of them.
pub fn fill_bodies(state: &mut State, actor: usize, count: usize) {
    state.recount();
    let there = state.actors[actor].counts.body_nodes;
    state.actors[actor].made.push(Entity::Object(bodies(count - there)));
}

/// Messages up to a number of those that wait, at the open future of that number.
pub fn fill_waiting(state: &mut State, future: u8, count: usize) {
    let Value::Ref(receiver) = made(0, future) else { return };
    let message = Message { receiver, name: Name::Plain(Word(0)), args: vec![Value::Null, Value::Number(3)] };
    if let Some(Future::Open(messages)) = state.actors[0].future_mut(receiver.entity) {
        messages.resize_with(count, || message.clone());
    }
}

/// An expression of so many nodes: a chain of gets within brackets that a text may have, and sums of such chains.
pub fn written(nodes: usize) -> String {
    match nodes {
        0..=20 => format!("{}1{}", "(get ".repeat(nodes.max(1) - 1), " a)".repeat(nodes.max(1) - 1)),
        _ => format!("(plus {} {})", written(20), written(nodes - 21)),
    }
}
