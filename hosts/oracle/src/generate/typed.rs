//! Scripts of all forms in which most moves succeed.
//!
//! An expression is made for the kind of value it should come to, and variables are remembered with their kinds, so
//! that receivers mostly have the fields and methods that are asked of them. Now and then the kind is ignored: that is
//! where the refusals come from.

mod choices;
mod literals;

use super::rng::Rng;

/// What an expression should come to.
#[derive(Clone, Copy, Debug, PartialEq, Eq)]
enum Kind {
    Number,
    Object,
    Isolate,
    Actor,
    Future,
    Resolver,
    Function,
    Null,
}

const KINDS: [Kind; 8] =
    [Kind::Number, Kind::Object, Kind::Isolate, Kind::Actor, Kind::Future, Kind::Resolver, Kind::Function, Kind::Null];

/// What the body of a when comes to; a future is refused there.
const RESULTS: [Kind; 9] = [
    Kind::Number,
    Kind::Number,
    Kind::Number,
    Kind::Isolate,
    Kind::Isolate,
    Kind::Null,
    Kind::Object,
    Kind::Object,
    Kind::Future,
];

/// Words for variables: few, so that they often hide each other.
const WORDS: [&str; 9] = ["x", "y", "z", "k", "w", "o", "hull", "open", "abcdefghijkl"];
/// The fields of literals; the first is there nearly always and starts as a number.
const FIELDS: [&str; 4] = ["a", "b", "c", "d2"];
/// The methods of literals with their parameters; the first gives a number for a number. Those of the second half have
/// a name of the first with another number of parameters.
const METHODS: [(&str, usize); 10] = [
    ("go", 1),
    ("run", 0),
    ("put", 2),
    ("mix", 3),
    ("apply", 1),
    ("go", 2),
    ("run", 1),
    ("put", 1),
    ("go", 0),
    ("apply", 2),
];

/// The text of a script.
pub fn script(rng: &mut Rng) -> String {
    let mut writer = Writer { rng, scope: Vec::new(), this: None, out: String::new() };
    for _ in 0..writer.rng.below(6) {
        writer.line();
    }
    let kind = writer.kind();
    writer.expr(kind, 3);
    writer.out + "\n"
}

struct Writer<'r> {
    rng: &'r mut Rng,
    scope: Vec<(&'static str, Kind)>,
    this: Option<Kind>,
    out: String,
}

impl Writer<'_> {
    fn line(&mut self) {
        let (kind, fuel) = (self.kind(), self.rng.between(1, 3));
        if self.rng.chance(60) {
            let word = self.word();
            self.text(&format!("(def {word} "));
            self.expr(kind, fuel);
            self.text(")\n");
            self.scope.push((word, kind));
        } else {
            self.expr(kind, fuel);
            self.text("\n");
        }
    }

    fn kind(&mut self) -> Kind {
        self.rng.pick(&KINDS)
    }

    fn word(&mut self) -> &'static str {
        self.rng.pick(&WORDS)
    }

    fn text(&mut self, text: &str) {
        self.out.push_str(text);
    }

    /// An expression of a kind; `fuel` bounds how deep it goes.
    fn expr(&mut self, kind: Kind, fuel: usize) {
        let kind = if self.rng.chance(2) { self.kind() } else { kind };
        if fuel == 0 || self.rng.chance(15) {
            return self.leaf(kind);
        }
        match self.rng.below(13) {
            0 => self.bind(kind, fuel - 1),
            1 => self.pair("seq", None, kind, fuel - 1),
            2 => self.future(kind, fuel - 1),
            3 => self.choice(kind, fuel - 1),
            _ => self.form(kind, fuel - 1),
        }
    }

    /// A short expression: a variable if one fits.
    fn leaf(&mut self, kind: Kind) {
        let fitting: Vec<&str> = self.scope.iter().filter(|(_, found)| *found == kind).map(|(word, _)| *word).collect();
        if !fitting.is_empty() && self.rng.chance(75) {
            let word = self.rng.pick(&fitting);
            // The word may mean something else by now; that is one more way to a refusal.
            return self.text(word);
        }
        if self.this == Some(kind) && self.rng.chance(60) {
            return self.text("this");
        }
        match kind {
            Kind::Number => self.number(),
            Kind::Object => self.literal("object", kind, 0),
            Kind::Isolate => self.literal("isolate", kind, 0),
            Kind::Actor => self.literal("actor", kind, 0),
            Kind::Future => self.text("(future f r f)"),
            Kind::Resolver => self.text("(future f r r)"),
            Kind::Function => self.text("(fn x (plus x 1))"),
            Kind::Null => self.text("null"),
        }
    }

    fn number(&mut self) {
        let number = match self.rng.below(6) {
            0 if self.rng.chance(10) => 16_777_215,
            1 if self.rng.chance(20) => self.rng.below(16_777_216),
            2 => 100,
            _ => self.rng.below(10),
        };
        self.text(&number.to_string());
    }

    /// An expression whose outermost form gives the kind.
    fn form(&mut self, kind: Kind, fuel: usize) {
        match kind {
            Kind::Number => self.number_form(fuel),
            Kind::Object => self.literal("object", kind, fuel),
            Kind::Isolate => self.literal("isolate", kind, fuel),
            Kind::Actor => self.literal("actor", kind, fuel),
            Kind::Future => self.future_form(fuel),
            Kind::Resolver => self.future(kind, fuel),
            Kind::Function => self.function(fuel),
            Kind::Null => self.act(fuel),
        }
    }

    fn number_form(&mut self, fuel: usize) {
        match self.rng.below(9) {
            0 | 1 => self.pair("plus", Some(Kind::Number), Kind::Number, fuel),
            2 => self.pair("percent", Some(Kind::Number), Kind::Number, fuel),
            3 => {
                let holder = self.holder();
                self.text("(get ");
                self.expr(holder, fuel);
                self.text(" a)");
            }
            4 => {
                let holder = self.holder();
                self.text("(set ");
                self.expr(holder, fuel);
                self.text(" a ");
                self.expr(Kind::Number, fuel);
                self.text(")");
            }
            5 | 6 => {
                let holder = self.holder();
                self.invocation("call", holder, "go", 1, fuel);
            }
            7 => self.comparison(fuel),
            _ => self.invocation("call", Kind::Function, "apply", 1, fuel),
        }
    }

    fn future_form(&mut self, fuel: usize) {
        match self.rng.below(5) {
            0 => self.future(Kind::Future, fuel),
            1 | 2 => {
                let (target, (name, args)) = (self.target(), self.method());
                self.invocation("ask", target, name, args, fuel);
            }
            _ => {
                let (source, word) = (self.source(), self.word());
                self.text("(when ");
                self.expr(source, fuel);
                self.text(&format!(" {word} "));
                self.under(&[(word, source)], |writer| {
                    let kind = writer.rng.pick(&RESULTS);
                    writer.expr(kind, fuel);
                });
                self.text(")");
            }
        }
    }

    /// Something done for its effect.
    fn act(&mut self, fuel: usize) {
        match self.rng.below(8) {
            0..=3 => {
                let (target, (name, args)) = (self.target(), self.method());
                self.invocation("send", target, name, args, fuel);
            }
            4 | 5 => {
                let source = self.source();
                self.pair("resolve", Some(Kind::Resolver), source, fuel);
            }
            6 => {
                let (holder, field, kind) = (self.holder(), self.rng.pick(&FIELDS), self.kind());
                self.text("(set ");
                self.expr(holder, fuel);
                self.text(&format!(" {field} "));
                self.expr(kind, fuel);
                self.text(")");
            }
            _ => {
                let (holder, (name, args)) = (self.holder(), self.method());
                self.invocation("call", holder, name, args, fuel);
            }
        }
    }

    /// What can have fields and methods in this actor.
    fn holder(&mut self) -> Kind {
        self.rng.pick(&[Kind::Object, Kind::Object, Kind::Isolate])
    }

    /// What a message can go to.
    fn target(&mut self) -> Kind {
        self.rng.pick(&[Kind::Object, Kind::Isolate, Kind::Actor, Kind::Actor, Kind::Actor, Kind::Future])
    }

    /// What a listener can be registered with.
    fn source(&mut self) -> Kind {
        self.rng.pick(&[Kind::Number, Kind::Null, Kind::Object, Kind::Isolate, Kind::Actor, Kind::Future, Kind::Future])
    }

    fn method(&mut self) -> (&'static str, usize) {
        if self.rng.chance(50) {
            METHODS[0]
        } else {
            self.rng.pick(&METHODS)
        }
    }

    fn invocation(&mut self, operator: &str, receiver: Kind, name: &str, args: usize, fuel: usize) {
        self.text(&format!("({operator} "));
        self.expr(receiver, fuel);
        self.text(&format!(" {name}"));
        let args = if self.rng.chance(3) { self.rng.between(0, 3) } else { args };
        for _ in 0..args {
            let kind = match name {
                "go" | "apply" => Kind::Number,
                _ if self.rng.chance(40) => Kind::Isolate,
                _ => self.kind(),
            };
            self.text(" ");
            self.expr(kind, fuel / 2);
        }
        self.text(")");
    }

    fn pair(&mut self, operator: &str, first: Option<Kind>, second: Kind, fuel: usize) {
        let first = first.unwrap_or_else(|| self.kind());
        self.text(&format!("({operator} "));
        self.expr(first, fuel);
        self.text(" ");
        self.expr(second, fuel);
        self.text(")");
    }

    fn bind(&mut self, kind: Kind, fuel: usize) {
        let (bound, word) = (self.kind(), self.word());
        self.text(&format!("(let {word} "));
        self.expr(bound, fuel);
        self.text(" ");
        self.under(&[(word, bound)], |writer| writer.expr(kind, fuel));
        self.text(")");
    }

    fn future(&mut self, kind: Kind, fuel: usize) {
        self.text("(future f r ");
        self.under(&[("f", Kind::Future), ("r", Kind::Resolver)], |writer| writer.expr(kind, fuel));
        self.text(")");
    }

    fn function(&mut self, fuel: usize) {
        let word = self.word();
        self.text(&format!("(fn {word} "));
        self.under(&[(word, Kind::Number)], |writer| writer.expr(Kind::Number, fuel));
        self.text(")");
    }

    fn under(&mut self, binders: &[(&'static str, Kind)], body: impl FnOnce(&mut Self)) {
        let height = self.scope.len();
        self.scope.extend(binders);
        body(self);
        self.scope.truncate(height);
    }
}

#[cfg(test)]
mod tests {
    use super::*;
    use crate::{cause, read};

    #[test]
    fn texts_are_of_the_grammar_and_mostly_bound() {
        let (mut rng, mut broken) = (Rng::new(5), 0);
        for _ in 0..500 {
            let text = script(&mut rng);
            let refusal = read(text.as_bytes()).err();
            let sizes = [None, Some(cause::TEXT_SIZE), Some(cause::SCRIPT_SIZE)];
            let rare = refusal == Some(cause::UNBOUND);
            assert!(rare || sizes.contains(&refusal), "{refusal:?}\n{text}");
            broken += usize::from(rare);
        }
        assert!(broken < 25, "{broken}");
    }
}
