//! A script as text again.
//!
//! The grammar leaves no choice of spacing, so a text and its table determine each other: printing what was read gives
//! the same bytes.

use crate::script::*;

/// Writes a table's script as text.
pub fn print(table: &Table) -> Vec<u8> {
    let mut printer = Printer { words: &table.words, out: String::new() };
    for line in &table.script.lines {
        match line {
            Line::Def(name, bound) => printer.form("def", |p| p.label(*name).operand(bound)),
            Line::Expr(expr) => printer.expr(expr),
        }
        printer.out.push('\n');
    }
    printer.out.into_bytes()
}

/// The reader's counterpart: each method adds its part to `out`.
struct Printer<'t> {
    words: &'t [String],
    out: String,
}

impl Printer<'_> {
    fn expr(&mut self, expr: &Expr) {
        match expr {
            Expr::Number(number) => self.out.push_str(&number.to_string()),
            Expr::Var(word) => self.word(*word),
            Expr::Null => self.out.push_str("null"),
            Expr::This => self.out.push_str("this"),
            Expr::Plus(a, b) => self.operation("plus", &[a, b]),
            Expr::Percent(a, b) => self.operation("percent", &[a, b]),
            Expr::Same(a, b) => self.operation("same", &[a, b]),
            Expr::If(a, b, c) => self.operation("if", &[a, b, c]),
            Expr::Resolve(a, b) => self.operation("resolve", &[a, b]),
            Expr::Seq(a, b) => self.operation("seq", &[a, b]),
            Expr::Call(e, m, args) => self.invocation("call", e, *m, args),
            Expr::Send(e, m, args) => self.invocation("send", e, *m, args),
            Expr::Ask(e, m, args) => self.invocation("ask", e, *m, args),
            Expr::Object(literal) => self.literal("object", literal),
            Expr::Isolate(literal) => self.literal("isolate", literal),
            Expr::Actor(literal) => self.literal("actor", literal),
            Expr::Get(e, f) => self.form("get", |p| p.operand(e).label(*f)),
            Expr::Set(e, f, d) => self.form("set", |p| p.operand(e).label(*f).operand(d)),
            Expr::Let(x, e, d) => self.form("let", |p| p.label(*x).operand(e).operand(d)),
            Expr::Future(f, r, e) => self.form("future", |p| p.label(*f).label(*r).operand(e)),
            Expr::Fn(x, e) => self.form("fn", |p| p.label(*x).operand(e)),
            Expr::When(e, x, d) => self.form("when", |p| p.operand(e).label(*x).operand(d)),
        }
    }

    /// A bracket around an operator word and whatever `parts` adds.
    fn form(&mut self, operator: &str, parts: impl FnOnce(&mut Self) -> &mut Self) {
        self.out.push('(');
        self.out.push_str(operator);
        parts(self).out.push(')');
    }

    /// An operator that has nothing but operands.
    fn operation(&mut self, operator: &str, operands: &[&Expr]) {
        self.form(operator, |p| operands.iter().fold(p, |p, operand| p.operand(operand)));
    }

    fn invocation(&mut self, operator: &str, receiver: &Expr, name: Word, args: &[Expr]) {
        self.form(operator, |p| args.iter().fold(p.operand(receiver).label(name), |p, arg| p.operand(arg)));
    }

    fn literal(&mut self, operator: &str, literal: &Literal) {
        self.form(operator, |p| {
            for field in &literal.fields {
                p.out.push(' ');
                p.form("field", |p| p.label(field.name).operand(&field.init));
            }
            for method in &literal.methods {
                p.out.push(' ');
                p.form("method", |p| p.label(method.name).params(&method.params).operand(&method.body));
            }
            p
        });
    }

    fn params(&mut self, params: &[Word]) -> &mut Self {
        self.out.push_str(" (");
        for (at, param) in params.iter().enumerate() {
            if at > 0 {
                self.out.push(' ');
            }
            self.word(*param);
        }
        self.out.push(')');
        self
    }

    fn operand(&mut self, expr: &Expr) -> &mut Self {
        self.out.push(' ');
        self.expr(expr);
        self
    }

    fn label(&mut self, word: Word) -> &mut Self {
        self.out.push(' ');
        self.word(word);
        self
    }

    fn word(&mut self, word: Word) {
        self.out.push_str(&self.words[usize::from(word.0)]);
    }
}

#[cfg(test)]
mod tests {
    use super::*;
    use crate::read;

    #[test]
    fn every_form_is_read_and_printed_back() {
        let text = "(def x (plus 1 (percent 250 12)))\n\
                    (def o (object (field a (get this b)) (field b 0) (method m () this) \
                    (method n (p q r) (set p a q))))\n\
                    (seq (call o m) (send o n 1 2 3))\n\
                    (let y (ask o m x) (when y z (fn w (plus w z))))\n\
                    (if (same x null) (if x 1 this) (same this (same 1 x)))\n\
                    (future f r (resolve r (isolate (field k (actor)))))\n\
                    null\n16777215\n";
        let table = read(text.as_bytes()).unwrap();
        assert_eq!(String::from_utf8(print(&table)).unwrap(), text);
        assert_eq!(table.words, ["x", "o", "a", "b", "m", "n", "p", "q", "r", "y", "z", "w", "f", "k"]);
    }
}
