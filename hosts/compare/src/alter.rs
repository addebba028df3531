//! Changes in a state of the plain engine, so that its words are well laid out and only what they say may be wrong.

mod terms;

use oracle::generate::rng::Rng;
use oracle::script::Word;
use oracle::state::*;
use oracle::term::{Hidden, Method, Name, Term, Var};

use terms::{add_namesake, expression, method, nested};

/// Changes something in an actor, or the number of actors. What comes out still has room in the words of a state.
pub fn state(rng: &mut Rng, state: &mut State) {
    if state.actors.is_empty() {
        return;
    }
    let at = rng.below(state.actors.len() as u64) as usize;
    let mut actor = state.actors[at].clone();
    match rng.below(22) {
        0 => actor.moves = rng.pick(&[0, 16_777_213, 16_777_214, 16_777_215, 16_777_216]),
        1 => actor.expression = Term::Value(value(rng, state)),
        2..=5 => expression(rng, state, &mut actor.expression),
        6..=8 => inbox(rng, state, &mut actor, at as u8),
        9 => drop(actor.made.pop()),
        10 | 11 => more(rng, &mut actor),
        12..=15 => heap(rng, state, &mut actor, at as u8),
        16 | 17 => copies(rng, state, &mut actor),
        18 => drop(state.actors.pop()),
        19 => state.actors.push(actor.clone()),
        20 => actor.expression = nested(rng, state, most::NODES),
        _ => large_methods(rng, state, &mut actor),
    }
    if let Some(place) = state.actors.get_mut(at) {
        *place = actor;
    }
    state.actors.truncate(5);
}

fn word(rng: &mut Rng, state: &State) -> Word {
    Word(rng.below(state.words.len() as u64) as u16)
}

fn var(rng: &mut Rng, state: &State) -> Var {
    let hidden = [Hidden::T, Hidden::F, Hidden::R, Hidden::L, Hidden::S, Hidden::X];
    if rng.chance(50) {
        Var::Hidden(rng.pick(&hidden))
    } else {
        Var::Word(word(rng, state))
    }
}

fn name(rng: &mut Rng, state: &State) -> Name {
    match rng.below(4) {
        0 => Name::Plain(word(rng, state)),
        1 => Name::TwoWay(word(rng, state)),
        2 => Name::Resolve,
        _ => Name::Register,
    }
}

/// A reference that may name an entity, and may just miss one.
fn reference(rng: &mut Rng, state: &State) -> Ref {
    let owner = rng.below(state.actors.len() as u64 + 1).min(3) as u8;
    let (made, copies) = state.actors.get(usize::from(owner)).map_or((1, 1), |a| (a.made.len(), a.copies.len()));
    let entity = match rng.chance(70) {
        true => EntityNo::Made(MadeNo(rng.below(made as u64 + 1) as u8)),
        false => EntityNo::Copy(CopyNo(rng.below(copies as u64 + 1) as u8)),
    };
    Ref { owner: ActorNo(owner), entity }
}

fn value(rng: &mut Rng, state: &State) -> Value {
    match rng.below(6) {
        0 => Value::Null,
        1 => Value::Number(rng.pick(&[0, 1, 99, 100, 16_777_215])),
        _ => Value::Ref(reference(rng, state)),
    }
}

/// The entities of a kind, wherever they are.
fn all(state: &State, kind: fn(&Entity) -> bool) -> Vec<Value> {
    let mut found = Vec::new();
    for (actor, owner) in state.actors.iter().zip(0..) {
        for (entity, number) in actor.made.iter().zip(0..) {
            if kind(entity) {
                found.push(Value::Ref(Ref { owner: ActorNo(owner), entity: EntityNo::Made(MadeNo(number)) }));
            }
        }
    }
    found
}

/// A value for a future, which may be the wrong one: another future, or another actor's isolate.
fn resolved(rng: &mut Rng, state: &State) -> Value {
    let kinds: [fn(&Entity) -> bool; 2] =
        [|entity| matches!(entity, Entity::Future(_)), |entity| matches!(entity, Entity::Isolate(_))];
    let found = all(state, rng.pick(&kinds));
    if found.is_empty() || rng.chance(60) {
        return value(rng, state);
    }
    rng.pick(&found)
}

/// Leaves an actor one entity, whose methods come up to their limit or just past it.
fn large_methods(rng: &mut Rng, state: &State, actor: &mut Actor) {
    let body = nested(rng, state, most::BODY_NODES);
    let methods = vec![Method::new(word(rng, state), Vec::new(), body)];
    let parts = Parts { fields: Vec::new(), methods: methods.into() };
    let kind = rng.pick(&[Entity::Object as fn(Parts) -> Entity, Entity::Isolate]);
    actor.copies.clear();
    actor.made = vec![kind(parts)];
    actor.inbox.clear();
    if rng.chance(80) {
        actor.expression = Term::default();
    }
}

fn message(rng: &mut Rng, state: &State, message: &mut Message) {
    match rng.below(5) {
        0 => message.receiver = reference(rng, state),
        1 => message.name = name(rng, state),
        2 if message.args.len() < 4 => message.args.push(value(rng, state)),
        3 => drop(message.args.pop()),
        _ => {
            let new = value(rng, state);
            let at = rng.below(message.args.len() as u64 + 1) as usize;
            message.args.get_mut(at).into_iter().for_each(|arg| *arg = new);
        }
    }
}

fn inbox(rng: &mut Rng, state: &State, actor: &mut Actor, me: u8) {
    if rng.chance(30) || actor.inbox.is_empty() {
        let receiver = Ref { owner: ActorNo(me), entity: reference(rng, state).entity };
        let args = (0..rng.below(4)).map(|_| value(rng, state)).collect();
        let new = Message { receiver, name: name(rng, state), args };
        let most = if rng.chance(80) { actor.inbox.len() + 1 } else { most::INBOX };
        while actor.inbox.len() < most {
            actor.inbox.push_back(new.clone());
        }
        return;
    }
    let at = rng.below(actor.inbox.len() as u64) as usize;
    message(rng, state, &mut actor.inbox[at]);
}

/// Nodes of all method bodies that an actor has.
fn body_nodes(actor: &Actor) -> usize {
    let made = actor.made.iter().map(|entity| match entity {
        Entity::Object(parts) | Entity::Isolate(parts) => parts.body_nodes(),
        Entity::Future(_) | Entity::Resolver(_) => 0,
    });
    made.sum::<usize>() + actor.copies.iter().map(Parts::body_nodes).sum::<usize>()
}

/// One entity more, like one that is there, or as many as there can be.
fn more(rng: &mut Rng, actor: &mut Actor) {
    if actor.made.is_empty() {
        actor.made.push(Entity::Future(Future::Open(Vec::new())));
    }
    let new = actor.made[rng.below(actor.made.len() as u64) as usize].clone();
    let most = if rng.chance(70) { actor.made.len() + 1 } else { most::MADE };
    let full = |actor: &Actor| body_nodes(actor) > most::BODY_NODES || waiting(actor) > most::WAITING;
    while actor.made.len() < most.min(most::MADE) && !full(actor) {
        actor.made.push(new.clone());
    }
    keep_room(actor);
}

/// Takes entities away until their methods have room in the words, which is past the limit all the same.
fn keep_room(actor: &mut Actor) {
    while body_nodes(actor) > most::BODY_NODES + 200 {
        if actor.copies.pop().is_none() {
            actor.made.pop();
        }
    }
}

fn heap(rng: &mut Rng, state: &State, actor: &mut Actor, me: u8) {
    if actor.made.is_empty() {
        return;
    }
    let (at, waiting) = (rng.below(actor.made.len() as u64) as usize, waiting(actor));
    let receiver = Ref { owner: ActorNo(me), entity: EntityNo::Made(MadeNo(at as u8)) };
    let entity = &mut actor.made[at];
    match entity {
        Entity::Object(parts) | Entity::Isolate(parts) if rng.chance(70) => change_parts(rng, state, parts),
        Entity::Object(parts) => *entity = Entity::Isolate(parts.clone()),
        Entity::Isolate(parts) => *entity = Entity::Object(parts.clone()),
        Entity::Resolver(future) => *future = MadeNo(rng.below(34) as u8),
        Entity::Future(Future::Open(messages)) if rng.chance(70) && waiting < most::WAITING => {
            if messages.is_empty() || rng.chance(50) {
                let args = (0..rng.below(3)).map(|_| value(rng, state)).collect();
                messages.push(Message { receiver, name: name(rng, state), args });
            } else {
                message(rng, state, &mut messages[0]);
            }
        }
        Entity::Future(Future::Resolved(_)) if rng.chance(30) => *entity = Entity::Future(Future::Open(Vec::new())),
        Entity::Future(future) => *future = Future::Resolved(resolved(rng, state)),
    }
    keep_room(actor);
}

fn waiting(actor: &Actor) -> usize {
    let messages = actor.made.iter().map(|entity| match entity {
        Entity::Future(Future::Open(messages)) => messages.len(),
        _ => 0,
    });
    messages.sum()
}

fn change_parts(rng: &mut Rng, state: &State, parts: &mut Parts) {
    let mut methods = parts.methods.to_vec();
    let at = |rng: &mut Rng, length: usize| rng.below(length as u64) as usize;
    match rng.below(9) {
        0 if parts.fields.len() < 5 => parts.fields.push((word(rng, state), value(rng, state))),
        1 => drop(parts.fields.pop()),
        2 if methods.len() < 5 => methods.push(method(rng, state, 2)),
        3 if !methods.is_empty() => drop(methods.pop()),
        7 | 8 if methods.len() < 5 => add_namesake(rng, &mut methods),
        4 | 5 if !methods.is_empty() => {
            let at = at(rng, methods.len());
            let mut body = methods[at].body.clone();
            expression(rng, state, &mut body);
            methods[at] = Method::new(methods[at].name, methods[at].params.clone(), body);
        }
        _ if !parts.fields.is_empty() => {
            let at = at(rng, parts.fields.len());
            parts.fields[at].1 = value(rng, state);
        }
        _ => {}
    }
    parts.methods = methods.into();
}

/// A copy more, a copy less, or a copy changed.
fn copies(rng: &mut Rng, state: &State, actor: &mut Actor) {
    let count = actor.copies.len();
    let at = rng.below(count as u64 + 1) as usize;
    match actor.copies.get_mut(at) {
        Some(parts) if rng.chance(70) => change_parts(rng, state, parts),
        Some(_) => drop(actor.copies.pop()),
        None if count < most::COPIES => {
            let mut parts = Parts { fields: Vec::new(), methods: Vec::new().into() };
            change_parts(rng, state, &mut parts);
            actor.copies.push(parts);
        }
        None => {}
    }
    keep_room(actor);
}
