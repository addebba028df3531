//! A state written down.

use std::fmt::Write;

use crate::script::Word;
use crate::state::*;
use crate::term::{Hidden, Invocation, Literal, Method, Name, Term, Var};

/// Lists a state: for each actor its line, what it made, what arrived, and its inbox.
pub fn list(state: &State) -> Vec<u8> {
    let mut lister = Lister { words: &state.words, out: String::with_capacity(1024) };
    for (number, actor) in state.actors.iter().enumerate() {
        lister.actor(number, actor);
    }
    lister.out.into_bytes()
}

struct Lister<'s> {
    words: &'s [String],
    out: String,
}

impl Lister<'_> {
    fn actor(&mut self, number: usize, actor: &Actor) {
        let (made, copies) = (actor.made.len(), actor.copies.len());
        self.add(format_args!("(actor {number} {} {made} {copies} ", actor.moves));
        self.term(&actor.expression);
        self.text(")\n");
        for (at, entity) in actor.made.iter().enumerate() {
            self.entity(number, at, entity);
            self.text("\n");
        }
        for (at, parts) in actor.copies.iter().enumerate() {
            self.add(format_args!("(isolate {number} c {at}"));
            self.parts(parts);
            self.text(")\n");
        }
        for message in &actor.inbox {
            self.message(message);
            self.text("\n");
        }
    }

    fn entity(&mut self, owner: usize, at: usize, entity: &Entity) {
        match entity {
            Entity::Object(parts) => {
                self.add(format_args!("(object {owner} m {at}"));
                self.parts(parts);
            }
            Entity::Isolate(parts) => {
                self.add(format_args!("(isolate {owner} m {at}"));
                self.parts(parts);
            }
            Entity::Future(Future::Open(waiting)) => {
                self.add(format_args!("(future {owner} m {at} open"));
                for message in waiting {
                    self.text(" ");
                    self.message(message);
                }
            }
            Entity::Future(Future::Resolved(value)) => {
                self.add(format_args!("(future {owner} m {at} "));
                self.value(*value);
            }
            Entity::Resolver(future) => self.add(format_args!("(resolver {owner} m {at} {}", future.0)),
        }
        self.text(")");
    }

    fn parts(&mut self, parts: &Parts) {
        for (name, value) in &parts.fields {
            self.text(" (field ");
            self.word(*name);
            self.text(" ");
            self.value(*value);
            self.text(")");
        }
        self.methods(&parts.methods);
    }

    fn methods(&mut self, methods: &[Method]) {
        for method in methods {
            self.text(" (method ");
            self.word(method.name);
            self.text(" (");
            for (at, param) in method.params.iter().enumerate() {
                self.text(if at > 0 { " " } else { "" });
                self.var(*param);
            }
            self.text(") ");
            self.term(&method.body);
            self.text(")");
        }
    }

    fn message(&mut self, message: &Message) {
        self.text("(message ");
        self.value(Value::Ref(message.receiver));
        self.text(" ");
        self.name(message.name);
        for arg in &message.args {
            self.text(" ");
            self.value(*arg);
        }
        self.text(")");
    }

    fn term(&mut self, term: &Term) {
        match term {
            Term::Value(value) => self.value(*value),
            Term::Var(var) => self.var(*var),
            Term::This => self.text("this"),
            Term::Plus(pair) => self.operation("(plus", [&pair.0, &pair.1]),
            Term::Percent(pair) => self.operation("(percent", [&pair.0, &pair.1]),
            Term::Same(pair) => self.operation("(same", [&pair.0, &pair.1]),
            Term::If(parts) => self.operation("(if", &**parts),
            Term::Get(field, receiver) => self.member("(get ", receiver, *field, None),
            Term::Set(field, pair) => self.member("(set ", &pair.0, *field, Some(&pair.1)),
            Term::Call(invocation) => self.invocation("(call ", invocation),
            Term::Send(invocation) => self.invocation("(send ", invocation),
            Term::Let(var, pair) => {
                self.text("(let ");
                self.var(*var);
                self.operands([&pair.0, &pair.1]);
            }
            Term::Future(future, resolver, body) => {
                self.text("(future ");
                self.var(*future);
                self.text(" ");
                self.var(*resolver);
                self.operands([&**body]);
            }
            Term::Object(literal) => self.literal("(object", literal),
            Term::Isolate(literal) => self.literal("(isolate", literal),
            Term::Actor(literal) => self.literal("(actor", literal),
        }
    }

    fn member(&mut self, start: &str, receiver: &Term, field: Word, value: Option<&Term>) {
        self.text(start);
        self.term(receiver);
        self.text(" ");
        self.word(field);
        self.operands(value);
    }

    fn operation<'e>(&mut self, start: &str, operands: impl IntoIterator<Item = &'e Term>) {
        self.text(start);
        self.operands(operands);
    }

    /// Operands and the closing bracket.
    fn operands<'e>(&mut self, operands: impl IntoIterator<Item = &'e Term>) {
        for operand in operands {
            self.text(" ");
            self.term(operand);
        }
        self.text(")");
    }

    fn invocation(&mut self, operator: &str, invocation: &Invocation) {
        self.text(operator);
        self.term(&invocation.receiver);
        self.text(" ");
        self.name(invocation.name);
        self.operands(&invocation.args);
    }

    fn literal(&mut self, operator: &str, literal: &Literal) {
        self.text(operator);
        for (name, init) in &literal.fields {
            self.text(" (field ");
            self.word(*name);
            self.text(" ");
            self.term(init);
            self.text(")");
        }
        self.methods(&literal.methods);
        self.text(")");
    }

    fn value(&mut self, value: Value) {
        match value {
            Value::Null => self.text("null"),
            Value::Number(number) => self.add(format_args!("{number}")),
            Value::Ref(Ref { owner, entity: EntityNo::Made(number) }) => {
                self.add(format_args!("(ref {} m {})", owner.0, number.0))
            }
            Value::Ref(Ref { owner, entity: EntityNo::Copy(number) }) => {
                self.add(format_args!("(ref {} c {})", owner.0, number.0))
            }
        }
    }

    fn name(&mut self, name: Name) {
        match name {
            Name::Plain(word) => self.word(word),
            Name::TwoWay(word) => {
                self.word(word);
                self.text(".f");
            }
            Name::Resolve => self.text(".resolve"),
            Name::Register => self.text(".register"),
        }
    }

    fn var(&mut self, var: Var) {
        match var {
            Var::Word(word) => self.word(word),
            Var::Hidden(hidden) => self.text(match hidden {
                Hidden::T => ".t",
                Hidden::F => ".f",
                Hidden::R => ".r",
                Hidden::L => ".l",
                Hidden::S => ".s",
                Hidden::X => ".x",
            }),
        }
    }

    fn word(&mut self, word: Word) {
        self.out.push_str(&self.words[usize::from(word.0)]);
    }

    fn text(&mut self, text: &str) {
        self.out.push_str(text);
    }

    fn add(&mut self, text: std::fmt::Arguments) {
        let _ = self.out.write_fmt(text);
    }
}

#[cfg(test)]
mod tests {
    use crate::loops;

    fn printed(input: &str) -> String {
        String::from_utf8(loops(input.as_bytes())).unwrap()
    }

    #[test]
    fn nothing_leaves_no_space() {
        assert_eq!(
            printed("000000000\n(def f (future f r f))\n(send f m)\n(object)\n"),
            "(actor 0 6 3 0 null)\n(future 0 m 0 open (message (ref 0 m 0) m))\n(resolver 0 m 1 0)\n(object 0 m 2)\n"
        );
    }

    #[test]
    fn parts_keep_their_order() {
        assert_eq!(
            printed("000000000\n(object (field b 1) (field a 2) (method m (x y) (set this a (percent x y))))\n"),
            "(actor 0 5 1 0 (ref 0 m 0))\n\
             (object 0 m 0 (field b 1) (field a 2) (method m (x y) (set this a (percent x y))))\n"
        );
    }

    #[test]
    fn every_form_that_is_left_prints_as_in_the_text() {
        let line = "(let x (plus 1 (percent 2 3)) (future f r (set (call x m (get f a)) b (send r n x f this))))";
        assert_eq!(printed(&format!("\n{line}\n")), format!("(actor 0 0 0 0 {})\n", line.replace("this", "null")));
        let choice = "(if (same 1 (if 0 2 3)) (same 4 5) (let x (if 6 7 8) (same x x)))";
        assert_eq!(printed(&format!("\n{choice}\n")), format!("(actor 0 0 0 0 {choice})\n"));
        let literal = "(actor (field a (isolate)) (method m (x) (object (method n () (plus x (get this a))))))";
        assert_eq!(printed(&format!("\n{literal}\n")), format!("(actor 0 0 0 0 {literal})\n"));
    }
}
