//! From the forms of the text to the fewer forms that moves know.
//!
//! The paper expands inner forms first and then puts `.t` for `this` in the body of each fn. Here `this` is written as
//! what it becomes as soon as it is met, since where it stands tells: null at the start, `.t` in a fn, and itself in
//! the parts of a literal. No second pass over a body is needed, and both ways give the same term.

use crate::script::{Expr, Line, Literal, Script, Word};
use crate::term::{self, Hidden, Method, Name, Term, Var};

/// Expands a script with its lines joined. `apply` is the word that the methods of functions get.
pub fn expand(script: &Script, apply: Word) -> Term {
    let expander = Expander { apply };
    let mut lines = script.lines.iter().rev().map(|line| match line {
        Line::Def(name, bound) => (Some(*name), expander.expr(bound, This::Start)),
        Line::Expr(expr) => (None, expander.expr(expr, This::Start)),
    });
    let last = lines.next().map(|(_, term)| term).unwrap_or_default();
    lines.fold(last, |rest, line| match line {
        (Some(name), bound) => Term::bind(Var::Word(name), bound, rest),
        (None, term) => term.then(rest),
    })
}

/// The expansion of resolve, for a place outside all literals: a listener that tells `resolver` a value, registered
/// with `source`. Its `.t` is null there.
pub fn resolve(resolver: Term, source: Term, apply: Word) -> Term {
    Expander { apply }.resolve(resolver, source, This::Start)
}

/// What `this` means at the place that is being expanded.
#[derive(Clone, Copy)]
enum This {
    Start,
    Literal,
    Function,
}

impl This {
    fn term(self) -> Term {
        match self {
            This::Start => Term::default(),
            This::Literal => Term::This,
            This::Function => Term::hidden(Hidden::T),
        }
    }
}

struct Expander {
    apply: Word,
}

impl Expander {
    fn expr(&self, expr: &Expr, this: This) -> Term {
        let one = |e: &Expr| self.expr(e, this);
        let pair = |e: &Expr, d: &Expr| Box::new((one(e), one(d)));
        let all = |es: &[Expr]| es.iter().map(one).collect::<Vec<_>>();
        match expr {
            Expr::Number(number) => Term::number(*number),
            Expr::Var(word) => Term::Var(Var::Word(*word)),
            Expr::Null => Term::default(),
            Expr::This => this.term(),
            Expr::Plus(e, d) => Term::Plus(pair(e, d)),
            Expr::Percent(e, d) => Term::Percent(pair(e, d)),
            Expr::Same(e, d) => Term::Same(pair(e, d)),
            Expr::If(e, d, c) => Term::If(Box::new([one(e), one(d), one(c)])),
            Expr::Get(e, f) => Term::Get(*f, Box::new(one(e))),
            Expr::Set(e, f, d) => Term::Set(*f, pair(e, d)),
            Expr::Call(e, m, args) => Term::call(one(e), Name::Plain(*m), all(args)),
            Expr::Send(e, m, args) => Term::send(one(e), Name::Plain(*m), all(args)),
            Expr::Ask(e, m, args) => self.ask(one(e), *m, all(args)),
            Expr::Let(x, e, d) => Term::Let(Var::Word(*x), pair(e, d)),
            Expr::Future(f, r, e) => Term::Future(Var::Word(*f), Var::Word(*r), Box::new(one(e))),
            Expr::Fn(x, e) => self.function(Var::Word(*x), self.expr(e, This::Function), this),
            Expr::Resolve(e, d) => self.resolve(one(e), one(d), this),
            Expr::When(e, x, d) => self.when(one(e), *x, self.expr(d, This::Function), this),
            Expr::Seq(e, d) => one(e).then(one(d)),
            Expr::Object(literal) => Term::Object(self.literal(literal)),
            Expr::Isolate(literal) => Term::Isolate(self.literal(literal)),
            Expr::Actor(literal) => Term::Actor(self.literal(literal)),
        }
    }

    fn literal(&self, literal: &Literal) -> Box<term::Literal> {
        let part = |expr: &Expr| self.expr(expr, This::Literal);
        let fields = literal.fields.iter().map(|field| (field.name, part(&field.init)));
        let methods = literal.methods.iter().map(|method| {
            let params = method.params.iter().copied().map(Var::Word).collect();
            Method::new(method.name, params, part(&method.body))
        });
        Box::new(term::Literal { fields: fields.collect(), methods: methods.collect() })
    }

    /// An object whose one method is `body`, with what `this` is outside kept in `.t`.
    fn function(&self, param: Var, body: Term, this: This) -> Term {
        let methods = vec![Method::new(self.apply, vec![param], body)];
        let object = Term::Object(Box::new(term::Literal { fields: Vec::new(), methods }));
        Term::bind(Var::Hidden(Hidden::T), this.term(), object)
    }

    fn ask(&self, receiver: Term, name: Word, mut args: Vec<Term>) -> Term {
        args.push(Term::hidden(Hidden::R));
        promise(Term::send(receiver, Name::TwoWay(name), args).then(Term::hidden(Hidden::F)))
    }

    fn resolve(&self, resolver: Term, source: Term, this: This) -> Term {
        let value = Var::Hidden(Hidden::X);
        let tell = Term::send(Term::hidden(Hidden::R), Name::Resolve, vec![Term::Var(value)]);
        let listener = self.function(value, tell, this);
        let register = Term::send(source, Name::Register, vec![Term::hidden(Hidden::L)]);
        Term::bind(Var::Hidden(Hidden::R), resolver, Term::bind(Var::Hidden(Hidden::L), listener, register))
    }

    /// `then` has been expanded as the body of the function that it becomes a part of.
    fn when(&self, source: Term, value: Word, then: Term, this: This) -> Term {
        let tell = Term::call(Term::hidden(Hidden::R), Name::Resolve, vec![then]);
        let listener = self.function(Var::Word(value), tell, this);
        let register = Term::send(source, Name::Register, vec![Term::hidden(Hidden::L)]);
        promise(Term::bind(Var::Hidden(Hidden::L), listener, register.then(Term::hidden(Hidden::F))))
    }
}

/// A future `.f` with its resolver `.r`, and a term that uses them.
fn promise(body: Term) -> Term {
    Term::Future(Var::Hidden(Hidden::F), Var::Hidden(Hidden::R), Box::new(body))
}

#[cfg(test)]
mod tests {
    use crate::{list, load, read};

    fn expanded(text: &str) -> String {
        let state = load(&read(text.as_bytes()).unwrap()).unwrap();
        let listing = String::from_utf8(list(&state)).unwrap();
        listing.strip_prefix("(actor 0 0 0 0 ").unwrap().strip_suffix(")\n").unwrap().to_owned()
    }

    #[test]
    fn lines_nest_to_the_right() {
        assert_eq!(expanded("1\n(def x 2)\nx\n"), "(let .s 1 (let x 2 x))");
    }

    #[test]
    fn functions_keep_this() {
        assert_eq!(
            expanded("(fn x (object (field a this)))\n"),
            "(let .t null (object (method apply (x) (object (field a this)))))"
        );
        assert_eq!(
            expanded("(fn x (fn y this))\n"),
            "(let .t null (object (method apply (x) (let .t .t (object (method apply (y) .t))))))"
        );
        assert_eq!(
            expanded("(object (method m () (fn x this)))\n"),
            "(object (method m () (let .t this (object (method apply (x) .t)))))"
        );
    }

    #[test]
    fn ask_resolve_and_when() {
        assert_eq!(expanded("(ask 1 m 2)\n"), "(future .f .r (let .s (send 1 m.f 2 .r) .f))");
        assert_eq!(
            expanded("(resolve 1 this)\n"),
            "(let .r 1 (let .l (let .t null (object (method apply (.x) (send .r .resolve .x)))) \
             (send null .register .l)))"
        );
        assert_eq!(
            expanded("(let x 1 (when x x (plus x this)))\n"),
            "(let x 1 (future .f .r (let .l (let .t null (object (method apply (x) \
             (call .r .resolve (plus x .t))))) (let .s (send x .register .l) .f))))"
        );
    }

    #[test]
    fn parts_of_if_and_same_are_expanded_each() {
        assert_eq!(
            expanded("(if this (seq 1 2) (same (fn x this) (if 1 2 this)))\n"),
            "(if null (let .s 1 2) (same (let .t null (object (method apply (x) .t))) (if 1 2 null)))"
        );
        assert_eq!(
            expanded("(object (method m () (if this (fn x (if this x 1)) 2)))\n"),
            "(object (method m () (if this (let .t this (object (method apply (x) (if .t x 1)))) 2)))"
        );
    }

    #[test]
    fn only_256_nodes_are_loaded() {
        let refusal = |text: &str| load(&read(text.as_bytes()).unwrap()).err();
        let whens = |last: &str| format!("{}1\n{last}\n", "(when 1 x 1)\n".repeat(18));
        assert_eq!(refusal(&whens("(get 1 a)")), None);
        assert_eq!(refusal(&whens("(plus 1 1)")), Some(16));
        assert_eq!(refusal(&whens("(same 1 1)")), Some(16));
        let sevenfold = |last: &str| format!("{}{last}\n", "(if 1 (same 2 3) 4)\n".repeat(36));
        assert_eq!(refusal(&sevenfold("(if 1 2 3)")), None);
        assert_eq!(refusal(&sevenfold("(if 1 2 (get 3 a))")), Some(16));
    }
}
