//! What is left to examine in a script of the grammar: bindings, names given twice, and the number of nodes.
//!
//! One walk finds all three. The scope is a stack of words of which only those above the floor are seen: an actor or
//! isolate literal raises the floor to the top, so that nothing from outside is seen in its parts, and an object
//! literal leaves it.

use crate::script::*;

/// What the walk found.
#[derive(Debug, Default, PartialEq, Eq)]
pub struct Findings {
    /// A variable is not bound where it stands.
    pub unbound: bool,
    /// A list has a name twice, a list of methods one with the same number of parameters.
    pub twice: bool,
    /// Nodes of all lines, each line but the last with the node that joins it to the next.
    pub nodes: usize,
}

/// Walks over a script.
pub fn examine(script: &Script) -> Findings {
    let mut walk = Walk::default();
    for line in &script.lines {
        match line {
            Line::Def(name, bound) => {
                walk.expr(bound);
                walk.scope.push(*name);
            }
            Line::Expr(expr) => walk.expr(expr),
        }
    }
    walk.found.nodes += script.lines.len().saturating_sub(1);
    walk.found
}

#[derive(Default)]
struct Walk {
    scope: Vec<Word>,
    floor: usize,
    found: Findings,
}

impl Walk {
    fn expr(&mut self, expr: &Expr) {
        self.found.nodes += 1;
        match expr {
            Expr::Number(_) | Expr::Null | Expr::This => {}
            Expr::Var(word) => self.found.unbound |= !self.scope[self.floor..].contains(word),
            Expr::Plus(a, b) | Expr::Percent(a, b) | Expr::Same(a, b) => self.all(&[a, b]),
            Expr::Resolve(a, b) | Expr::Seq(a, b) | Expr::Set(a, _, b) => self.all(&[a, b]),
            Expr::If(a, b, c) => self.all(&[a, b, c]),
            Expr::Get(e, _) => self.expr(e),
            Expr::Call(e, _, args) | Expr::Send(e, _, args) | Expr::Ask(e, _, args) => {
                self.expr(e);
                args.iter().for_each(|arg| self.expr(arg));
            }
            Expr::Let(x, e, d) | Expr::When(e, x, d) => {
                self.expr(e);
                self.within(&[*x], d);
            }
            Expr::Future(f, r, e) => self.list_within(&[*f, *r], e),
            Expr::Fn(x, e) => self.within(&[*x], e),
            Expr::Object(literal) => self.literal(literal),
            Expr::Isolate(literal) | Expr::Actor(literal) => {
                let floor = std::mem::replace(&mut self.floor, self.scope.len());
                self.literal(literal);
                self.floor = floor;
            }
        }
    }

    /// Parts that see what the form itself sees.
    fn all(&mut self, parts: &[&Expr]) {
        parts.iter().for_each(|part| self.expr(part));
    }

    fn literal(&mut self, literal: &Literal) {
        self.found.twice |= repeats(literal.fields.iter().map(|field| field.name));
        self.found.twice |= repeats(literal.methods.iter().map(|method| (method.name, method.params.len())));
        literal.fields.iter().for_each(|field| self.expr(&field.init));
        literal.methods.iter().for_each(|method| self.list_within(&method.params, &method.body));
    }

    /// An expression under binders that have to differ.
    fn list_within(&mut self, binders: &[Word], expr: &Expr) {
        self.found.twice |= repeats(binders.iter().copied());
        self.within(binders, expr);
    }

    fn within(&mut self, binders: &[Word], expr: &Expr) {
        let height = self.scope.len();
        self.scope.extend(binders);
        self.expr(expr);
        self.scope.truncate(height);
    }
}

/// Whether a list has an item twice.
pub(crate) fn repeats<T: PartialEq>(items: impl Iterator<Item = T> + Clone) -> bool {
    let mut rest = items;
    while let Some(item) = rest.next() {
        if rest.clone().any(|other| other == item) {
            return true;
        }
    }
    false
}

#[cfg(test)]
mod tests {
    use super::examine;
    use crate::text::read;

    fn refusal(text: &str) -> Option<u8> {
        read(text.as_bytes()).err()
    }

    #[test]
    fn bindings() {
        for text in [
            "(isolate (field a (let x 1 x)))\n",
            "this\n",
            "(isolate (method m (x) (object (method n () x))))\n",
            "(def x 1)\n(object (field a x) (method m () x))\n",
            "(let x 1 (when x x (plus x 1)))\n",
            "(actor (method m (x) (fn y (plus x y))))\n",
            "(def x 1)\n(if x (let y x (same x y)) (object (field a x)))\n",
        ] {
            assert_eq!(refusal(text), None, "{text:?}");
        }
        for text in [
            "x\n",
            "(let x x 1)\n",
            "(seq (let x 1 x) x)\n",
            "(isolate (method m (x) (isolate (field a x))))\n",
            "(def x 1)\n(actor (field a x))\n",
            "(def x (fn y (call x apply y)))\n1\n",
            "(when x x x)\n",
            "(if x 1 2)\n",
            "(if 1 x 2)\n",
            "(if 1 (let x 1 x) x)\n",
            "(def x 1)\n(if x x (isolate (field a x)))\n",
            "(same 1 x)\n",
            "(object (field a x) (method m (x) x))\n",
        ] {
            assert_eq!(refusal(text), Some(3), "{text:?}");
        }
    }

    #[test]
    fn every_part_is_a_node() {
        let script = read(b"(if (same 1 2) (if 3 4 5) 6)\n").unwrap().script;
        assert_eq!(examine(&script).nodes, 9);
    }

    #[test]
    fn names_given_twice() {
        assert_eq!(refusal("(object (field m 1) (method m (m) (let m 1 m)))\n"), None);
        assert_eq!(refusal("(object (method m (x y) x) (method m () 1) (method m (x) x))\n"), None);
        assert_eq!(refusal("(actor (method m () (isolate (method m () 1))) (method m (m) m))\n"), None);
        for text in [
            "(object (field a 1) (field a 2))\n",
            "(object (method m () 1) (method m () 2))\n",
            "(object (method m (x) x) (method m (y) y))\n",
            "(isolate (method m (x y) 1) (method n () 2) (method m (x) 3) (method m (y z) 4))\n",
            "(actor (method m () (object (method n (x) 1) (method n (y) 2))) (method m (x) 1))\n",
            "(object (method m (x y x) 1))\n",
            "(object (method m (x x) 1) (method m (x) 2))\n",
            "(future x x 1)\n",
            "(if 1 2 (future x x 1))\n",
        ] {
            assert_eq!(refusal(text), Some(4), "{text:?}");
        }
    }
}
