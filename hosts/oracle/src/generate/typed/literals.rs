//! Literals with their fields and methods.

use super::{Kind, Writer, FIELDS, METHODS};

impl Writer<'_> {
    /// A literal; parts of an actor or an isolate see only what is bound in it, unless this is the rare one that breaks
    /// the rule.
    pub(super) fn literal(&mut self, operator: &str, kind: Kind, fuel: usize) {
        let inside = if kind == Kind::Actor { Kind::Object } else { kind };
        let this = self.this.replace(inside);
        let open = kind == Kind::Object || self.rng.below(400) == 0;
        let outer = if open { None } else { Some(std::mem::take(&mut self.scope)) };
        self.text(&format!("({operator}"));
        self.fields(fuel);
        self.methods(fuel);
        self.text(")");
        self.this = this;
        if let Some(scope) = outer {
            self.scope = scope;
        }
    }

    fn fields(&mut self, fuel: usize) {
        let most = if fuel == 0 { 1 } else { 4 };
        for (at, field) in FIELDS.iter().enumerate().take(most) {
            if self.rng.chance(if at == 0 { 97 } else { 30 }) {
                let kind = if at == 0 { Kind::Number } else { self.kind() };
                self.text(&format!(" (field {field} "));
                self.expr(kind, fuel.min(2));
                self.text(")");
            }
        }
    }

    /// Up to four methods, those at the front of the list or those at its end.
    fn methods(&mut self, fuel: usize) {
        let most = if fuel == 0 { 1 } else { METHODS.len() };
        let mut chosen: Vec<_> = METHODS[..most].iter().collect();
        if self.rng.chance(40) {
            chosen.reverse();
        }
        chosen.retain(|method| self.rng.chance(if **method == METHODS[0] { 97 } else { 30 }));
        for (name, params) in chosen.into_iter().take(4) {
            self.one_method(name, *params, fuel);
        }
    }

    fn one_method(&mut self, name: &str, params: usize, fuel: usize) {
        let words = &["x", "y", "z"][..params];
        let kinds: Vec<_> = words.iter().map(|word| (*word, self.param(name))).collect();
        self.text(&format!(" (method {name} ({}) ", words.join(" ")));
        let kind = if name == "go" || name == "apply" { Kind::Number } else { self.kind() };
        self.under(&kinds, |writer| writer.expr(kind, fuel.min(2)));
        self.text(")");
    }

    fn param(&mut self, name: &str) -> Kind {
        match name {
            "go" | "apply" => Kind::Number,
            _ if self.rng.chance(50) => Kind::Isolate,
            _ => self.kind(),
        }
    }
}
