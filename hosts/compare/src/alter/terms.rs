//! Terms made by chance, and changes in a term.

use oracle::generate::rng::Rng;
use oracle::state::*;
use oracle::term::{Hidden, Literal, Method, Term, Var};

use super::{name, value, var, word};

/// A small term.
fn term(rng: &mut Rng, state: &State, depth: u64) -> Term {
    let part = |rng: &mut Rng| term(rng, state, depth.saturating_sub(1));
    let forms = if depth == 0 { 3 } else { 16 };
    match rng.below(forms) {
        0 => Term::Value(value(rng, state)),
        1 => Term::Var(var(rng, state)),
        2 => Term::This,
        3 => Term::Plus(Box::new((part(rng), part(rng)))),
        4 => Term::Get(word(rng, state), Box::new(part(rng))),
        5 => Term::Set(word(rng, state), Box::new((part(rng), part(rng)))),
        6 => Term::bind(var(rng, state), part(rng), part(rng)),
        7 => Term::Future(var(rng, state), var(rng, state), Box::new(part(rng))),
        8 | 9 => {
            let args = (0..rng.below(3)).map(|_| part(rng)).collect();
            let (receiver, name) = (part(rng), name(rng, state));
            if rng.chance(30) {
                Term::call(receiver, name, args)
            } else {
                Term::send(receiver, name, args)
            }
        }
        13 => Term::If(Box::new([part(rng), part(rng), part(rng)])),
        14 => Term::Same(Box::new((part(rng), part(rng)))),
        15 => close(rng, state),
        kind => {
            let fields = (0..rng.below(3)).map(|_| (word(rng, state), part(rng))).collect();
            let mut methods = (0..rng.below(2)).map(|_| method(rng, state, depth)).collect();
            (0..rng.below(3)).for_each(|_| add_namesake(rng, &mut methods));
            let literal = Box::new(Literal { fields, methods });
            match kind {
                10 => Term::Object(literal),
                11 => Term::Isolate(literal),
                _ => Term::Actor(literal),
            }
        }
    }
}

/// A comparison of two values that are the same, or references that differ in one thing.
fn close(rng: &mut Rng, state: &State) -> Term {
    let one = value(rng, state);
    let other = match one {
        Value::Ref(found) if rng.chance(70) => Value::Ref(beside(rng, found)),
        _ => one,
    };
    Term::Same(Box::new((Term::Value(one), Term::Value(other))))
}

/// The reference with another actor, another series or another number.
fn beside(rng: &mut Rng, Ref { owner, entity }: Ref) -> Ref {
    let (owner, entity) = match (rng.below(3), entity) {
        (0, entity) => (ActorNo(owner.0 ^ 1), entity),
        (1, EntityNo::Made(number)) => (owner, EntityNo::Copy(CopyNo(number.0))),
        (1, EntityNo::Copy(number)) => (owner, EntityNo::Made(MadeNo(number.0))),
        (_, EntityNo::Made(number)) => (owner, EntityNo::Made(MadeNo(number.0 ^ 1))),
        (_, EntityNo::Copy(number)) => (owner, EntityNo::Copy(CopyNo(number.0 ^ 1))),
    };
    Ref { owner, entity }
}

/// A term about as large as `most` nodes, each of them inside the one before.
pub fn nested(rng: &mut Rng, state: &State, most: usize) -> Term {
    let nodes = most + rng.below(4) as usize - 2;
    let (form, word, var) = (rng.below(9), word(rng, state), var(rng, state));
    let mut term = Term::default();
    let mut count = 1;
    while count < nodes {
        let more = usize::from(form > 3) + usize::from(form > 6);
        let whole = count + more < nodes;
        count += if whole { 1 + more } else { 1 };
        let mut literal = Box::new(Literal::default());
        term = match form {
            4 if whole => Term::Plus(Box::new((term, Term::number(1)))),
            5 if whole => Term::bind(var, term, Term::default()),
            6 if whole => Term::Same(Box::new((term, Term::number(1)))),
            7 if whole => Term::If(Box::new([term, Term::number(1), Term::default()])),
            8 if whole => Term::If(Box::new([Term::number(0), Term::default(), term])),
            0 | 4.. => Term::Get(word, Box::new(term)),
            1 => {
                literal.fields.push((word, term));
                Term::Object(literal)
            }
            2 | 3 => {
                literal.methods.push(Method::new(word, vec![var], term));
                if form == 2 {
                    Term::Isolate(literal)
                } else {
                    Term::Actor(literal)
                }
            }
        };
    }
    term
}

pub fn method(rng: &mut Rng, state: &State, depth: u64) -> Method {
    let params = (0..rng.below(3)).map(|_| var(rng, state)).collect();
    Method::new(word(rng, state), params, term(rng, state, depth.saturating_sub(1)))
}

/// A method of the name of another, mostly with one parameter fewer or more. What its parameters are called is to make no
/// difference.
fn namesake(rng: &mut Rng, of: &Method) -> Method {
    let count = of.params.len();
    let count = rng.pick(&[count.saturating_sub(1), count, count + 1, (count + 2) % 4]).min(3);
    let mut params = [Hidden::X, Hidden::S, Hidden::L].map(Var::Hidden)[..count].to_vec();
    if count == of.params.len() && rng.chance(50) {
        params.clone_from(&of.params);
    }
    let body = params.first().map_or(Term::This, |param| Term::Var(*param));
    Method::new(of.name, params, if rng.chance(50) { body } else { Term::number(count as u32) })
}

/// Puts a method of a name that is there somewhere among methods.
pub fn add_namesake(rng: &mut Rng, methods: &mut Vec<Method>) {
    if methods.is_empty() {
        return;
    }
    let of = rng.below(methods.len() as u64) as usize;
    let at = rng.below(methods.len() as u64 + 1) as usize;
    let new = namesake(rng, &methods[of]);
    methods.insert(at, new);
}

/// Puts a small term somewhere in a term, makes what is there a part of a choice, or changes a name there.
pub fn expression(rng: &mut Rng, state: &State, whole: &mut Term) {
    let mut at = rng.below(whole.nodes() as u64) as usize;
    let depth = rng.below(3);
    let instead = term(rng, state, depth);
    let (named, of_word, of_var) = (name(rng, state), word(rng, state), var(rng, state));
    let how = rng.below(100);
    nth(whole, &mut at, &mut |found| match found {
        _ if how < 50 => *found = instead.clone(),
        _ if how < 70 => *found = choosing(rng, std::mem::take(found), instead.clone()),
        Term::Call(invocation) | Term::Send(invocation) => invocation.name = named,
        Term::Get(name, _) | Term::Set(name, _) => *name = of_word,
        Term::Let(name, _) | Term::Future(name, _, _) => *name = of_var,
        Term::Object(literal) | Term::Isolate(literal) | Term::Actor(literal) if literal.methods.len() < 5 => {
            add_namesake(rng, &mut literal.methods)
        }
        _ => *found = instead.clone(),
    });
}

/// A term as any part of an if or a same.
fn choosing(rng: &mut Rng, part: Term, other: Term) -> Term {
    let asked = Term::Value(rng.pick(&[Value::Null, Value::Number(0), Value::Number(1)]));
    match rng.below(5) {
        0 => Term::If(Box::new([part, asked, other])),
        1 => Term::If(Box::new([asked, part, other])),
        2 => Term::If(Box::new([other, asked, part])),
        3 => Term::Same(Box::new((part, other))),
        _ => Term::Same(Box::new((asked, part))),
    }
}

/// Does something to the node of that number, counted as they are written.
fn nth(term: &mut Term, at: &mut usize, change: &mut dyn FnMut(&mut Term)) {
    if *at == 0 {
        *at = usize::MAX;
        return change(term);
    }
    *at -= 1;
    for part in parts(term) {
        if *at == usize::MAX {
            return;
        }
        nth(part, at, change);
    }
}

fn parts(term: &mut Term) -> Vec<&mut Term> {
    match term {
        Term::Value(_) | Term::Var(_) | Term::This => Vec::new(),
        Term::Plus(pair) | Term::Percent(pair) | Term::Same(pair) | Term::Set(_, pair) | Term::Let(_, pair) => {
            let (first, second) = &mut **pair;
            vec![first, second]
        }
        Term::If(parts) => parts.iter_mut().collect(),
        Term::Get(_, part) | Term::Future(_, _, part) => vec![part],
        Term::Call(invocation) | Term::Send(invocation) => {
            std::iter::once(&mut invocation.receiver).chain(&mut invocation.args).collect()
        }
        Term::Object(literal) | Term::Isolate(literal) | Term::Actor(literal) => {
            let fields = literal.fields.iter_mut().map(|(_, init)| init);
            fields.chain(literal.methods.iter_mut().map(|method| &mut method.body)).collect()
        }
    }
}
