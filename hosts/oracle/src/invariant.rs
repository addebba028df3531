//! What is true of every state that a script leads to.
//!
//! The types rule out much already: copies are isolates, a future with a value keeps no messages, and a term has no
//! forms but those that expansion leaves. The rest is tested here. Moves don't need it; tests and the census hold every
//! state they meet against it, and a state built by hand can be.

use std::fmt::{self, Display};

use crate::scope::repeats;
use crate::script::{MOST_ARGS, MOST_NUMBER, MOST_PARTS};
use crate::state::*;
use crate::term::{Invocation, Literal, Method, Name, Term, Var};

/// The first condition found broken, and the actor it is broken in.
#[derive(Clone, Copy, Debug, PartialEq, Eq)]
pub struct Broken {
    pub actor: u8,
    pub condition: &'static str,
}

impl Display for Broken {
    fn fmt(&self, out: &mut fmt::Formatter) -> fmt::Result {
        write!(out, "actor {}: {}", self.actor, self.condition)
    }
}

/// Tests all conditions of all actors.
pub fn holds(state: &State) -> Result<(), Broken> {
    if !(1..=most::ACTORS).contains(&state.actors.len()) {
        return Err(Broken { actor: 0, condition: "there are 1 to 4 actors" });
    }
    for (actor, number) in state.actors.iter().zip(0..) {
        let check = Check { state, me: ActorNo(number), actor };
        check.actor().map_err(|condition| Broken { actor: number, condition })?;
    }
    Ok(())
}

type Checked = Result<(), &'static str>;

fn must(holds: bool, condition: &'static str) -> Checked {
    holds.then_some(()).ok_or(condition)
}

/// Where a term stands, which decides what it may mention.
#[derive(Clone)]
struct Place {
    this: bool,
    references: bool,
    bound: Vec<Var>,
}

impl Place {
    fn under(&self, binders: &[Var]) -> Place {
        let mut place = self.clone();
        place.bound.extend(binders);
        place
    }
}

struct Check<'s> {
    state: &'s State,
    me: ActorNo,
    actor: &'s Actor,
}

impl Check<'_> {
    fn actor(&self) -> Checked {
        self.limits()?;
        for (entity, number) in self.actor.made.iter().zip(0..) {
            self.entity(MadeNo(number), entity)?;
        }
        for parts in &self.actor.copies {
            self.parts(parts, false)?;
        }
        for message in &self.actor.inbox {
            must(message.receiver.owner == self.me, "messages in an inbox are for its actor")?;
            self.message(message)?;
        }
        let place = Place { this: false, references: true, bound: Vec::new() };
        self.term(&self.actor.expression, &place)
    }

    fn limits(&self) -> Checked {
        let (actor, counts) = (self.actor, self.actor.counts);
        must(counts == actor.counted(), "the counts are right")?;
        must(actor.moves <= most::MOVES, "moves are within their limit")?;
        must(actor.inbox.len() <= most::INBOX, "the inbox is within its limit")?;
        must(actor.made.len() <= most::MADE, "what was made is within its limit")?;
        must(actor.copies.len() <= most::COPIES, "copies are within their limit")?;
        must(counts.body_nodes <= most::BODY_NODES, "method bodies are within their limit")?;
        must(counts.waiting <= most::WAITING, "waiting messages are within their limit")?;
        must(counts.nodes <= most::NODES, "the expression is within its limit")
    }

    fn entity(&self, number: MadeNo, entity: &Entity) -> Checked {
        match entity {
            Entity::Object(parts) => self.parts(parts, true),
            Entity::Isolate(parts) => self.parts(parts, false),
            Entity::Resolver(future) => {
                must(self.actor.future(EntityNo::Made(*future)).is_some(), "a resolver has a future of its actor")
            }
            Entity::Future(Future::Resolved(value)) => {
                must(!self.state.is_future(*value), "no future is the value of one")?;
                self.value(*value)
            }
            Entity::Future(Future::Open(waiting)) => waiting.iter().try_for_each(|message| {
                let own = Ref { owner: self.me, entity: EntityNo::Made(number) };
                must(message.receiver == own, "messages wait for their own future")?;
                self.message(message)
            }),
        }
    }

    fn parts(&self, parts: &Parts, references: bool) -> Checked {
        must(parts.fields.len() <= MOST_PARTS, "there are at most 4 fields")?;
        must(!repeats(parts.fields.iter().map(|(name, _)| *name)), "fields differ")?;
        parts.fields.iter().try_for_each(|(_, value)| self.value(*value))?;
        self.methods(&parts.methods, &Place { this: true, references, bound: Vec::new() })
    }

    fn methods(&self, methods: &[Method], place: &Place) -> Checked {
        must(methods.len() <= MOST_PARTS, "there are at most 4 methods")?;
        let heads = methods.iter().map(|method| (method.name, method.params.len()));
        must(!repeats(heads), "methods differ in name or in parameters")?;
        methods.iter().try_for_each(|method| {
            must(method.params.len() <= MOST_ARGS, "there are at most 3 parameters")?;
            must(!repeats(method.params.iter()), "parameters differ")?;
            must(method.nodes() == method.body.nodes(), "the nodes of a method are right")?;
            self.term(&method.body, &place.under(&method.params))
        })
    }

    fn message(&self, message: &Message) -> Checked {
        self.reference(message.receiver)?;
        arity(message.name, message.args.len())?;
        message.args.iter().try_for_each(|value| self.value(*value))
    }

    fn value(&self, value: Value) -> Checked {
        match value {
            Value::Null => Ok(()),
            Value::Number(number) => must(number <= MOST_NUMBER, "numbers are within their limit"),
            Value::Ref(reference) => self.reference(reference),
        }
    }

    fn reference(&self, Ref { owner, entity }: Ref) -> Checked {
        let actor = self.state.actor(owner).ok_or("a reference has an actor")?;
        let there = match entity {
            EntityNo::Made(number) => usize::from(number.0) < actor.made.len(),
            EntityNo::Copy(number) => usize::from(number.0) < actor.copies.len(),
        };
        must(there, "a reference has an entity")?;
        must(owner == self.me || actor.isolate(entity).is_none(), "isolates are referred to by their owner")
    }

    fn term(&self, term: &Term, place: &Place) -> Checked {
        match term {
            Term::Value(value) => {
                must(place.references || !matches!(value, Value::Ref(_)), "no reference in what may be copied")?;
                self.value(*value)
            }
            Term::Var(var) => must(place.bound.contains(var), "variables are bound"),
            Term::This => must(place.this, "this stands in literals and methods"),
            Term::Plus(pair) | Term::Percent(pair) | Term::Same(pair) | Term::Set(_, pair) => {
                self.term(&pair.0, place)?;
                self.term(&pair.1, place)
            }
            Term::If(parts) => parts.iter().try_for_each(|part| self.term(part, place)),
            Term::Get(_, part) => self.term(part, place),
            Term::Call(invocation) => {
                must(matches!(invocation.name, Name::Plain(_) | Name::Resolve), "a call is plain or of .resolve")?;
                self.invocation(invocation, place)
            }
            Term::Send(invocation) => self.invocation(invocation, place),
            Term::Let(x, pair) => {
                self.term(&pair.0, place)?;
                self.term(&pair.1, &place.under(&[*x]))
            }
            Term::Future(f, r, body) => {
                must(f != r, "the words of a future differ")?;
                self.term(body, &place.under(&[*f, *r]))
            }
            Term::Object(literal) => self.literal(literal, &Place { this: true, ..place.clone() }),
            Term::Isolate(literal) | Term::Actor(literal) => {
                self.literal(literal, &Place { this: true, references: false, bound: Vec::new() })
            }
        }
    }

    fn invocation(&self, invocation: &Invocation, place: &Place) -> Checked {
        arity(invocation.name, invocation.args.len())?;
        self.term(&invocation.receiver, place)?;
        invocation.args.iter().try_for_each(|arg| self.term(arg, place))
    }

    fn literal(&self, literal: &Literal, place: &Place) -> Checked {
        must(literal.fields.len() <= MOST_PARTS, "there are at most 4 fields")?;
        must(!repeats(literal.fields.iter().map(|(name, _)| *name)), "fields differ")?;
        literal.fields.iter().try_for_each(|(_, init)| self.term(init, place))?;
        self.methods(&literal.methods, place)
    }
}

/// How many arguments a name can go with.
fn arity(name: Name, args: usize) -> Checked {
    let good = match name {
        Name::Plain(_) => args <= MOST_ARGS,
        Name::TwoWay(_) => (1..=MOST_ARGS + 1).contains(&args),
        Name::Resolve | Name::Register => args == 1,
    };
    must(good, "a name has its number of arguments")
}

#[cfg(test)]
mod tests {
    use super::*;
    use crate::{load, read, run};

    fn state(text: &str, moves: usize) -> State {
        let mut state = load(&read(text.as_bytes()).unwrap()).unwrap();
        run(&mut state, &vec![0; moves]);
        state
    }

    fn condition(state: &State) -> &'static str {
        holds(state).unwrap_err().condition
    }

    #[test]
    fn states_of_scripts_hold() {
        let text = "(def a (actor (method m (x) x)))\n(def i (isolate (field f this)))\n(when (ask a m i) x x)\n";
        (0..25).for_each(|moves| assert_eq!(holds(&state(text, moves)), Ok(())));
        let text = "(def o (object (method m (x) (if (same x this) (let y x (same y this)) (if x this null)))))\n\
                    (if (call o m o) (call o m null) (object (field a (if 1 this 2))))\n";
        (0..25).for_each(|moves| assert_eq!(holds(&state(text, moves)), Ok(())));
    }

    #[test]
    fn what_is_broken_is_found() {
        let mut loose = state("(object)\n", 1);
        loose.actors[0].made.clear();
        assert_eq!(condition(&loose), "a reference has an entity");
        let mut shared = state("(seq (actor) (isolate))\n", 3);
        shared.actors[1].expression = shared.actors[0].expression.clone();
        assert_eq!(condition(&shared), "isolates are referred to by their owner");
        let mut chained = state("(future f r 1)\n", 1);
        let future = Value::Ref(Ref { owner: ActorNo(0), entity: EntityNo::Made(MadeNo(0)) });
        chained.actors[0].made[0] = Entity::Future(Future::Resolved(future));
        assert_eq!(condition(&chained), "no future is the value of one");
        let mut open = state("1\n", 0);
        open.actors[0].expression = Term::This;
        assert_eq!(condition(&open), "this stands in literals and methods");
        for at in 0..3 {
            let mut parts = [0, 1, 2].map(Term::number);
            parts[at] = Term::Var(Var::Word(crate::script::Word(0)));
            open.actors[0].expression = Term::If(Box::new(parts));
            open.recount();
            assert_eq!(condition(&open), "variables are bound");
        }
        open.actors.clear();
        assert_eq!(condition(&open), "there are 1 to 4 actors");
    }

    /// Tested in the heap and in literals alike; what parameters are called makes no difference.
    #[test]
    fn methods_differ_in_name_or_in_parameters() {
        let text =
            "(object (method m () 1) (method n (x) x) (method m (x y) (object (method m (x) 1) (method m () 2))))\n";
        (0..2).for_each(|moves| assert_eq!(holds(&state(text, moves)), Ok(())));
        let (mut held, mut written) = (state(text, 1), state(text, 0));
        let Entity::Object(parts) = &mut held.actors[0].made[0] else { panic!("an object is made") };
        let mut methods = parts.methods.to_vec();
        methods[1].name = methods[0].name;
        parts.methods = methods.clone().into();
        assert_eq!(holds(&held), Ok(()));
        let Term::Object(literal) = &mut written.actors[0].expression else { panic!("a literal is loaded") };
        methods[2].params.remove(0);
        methods[2] = Method::new(methods[2].name, methods[2].params.clone(), Term::number(1));
        literal.methods = methods.clone();
        written.recount();
        assert_eq!(condition(&written), "methods differ in name or in parameters");
        let Entity::Object(parts) = &mut held.actors[0].made[0] else { panic!("an object is made") };
        parts.methods = methods.into();
        held.recount();
        assert_eq!(condition(&held), "methods differ in name or in parameters");
    }
}
