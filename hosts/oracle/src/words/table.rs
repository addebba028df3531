//! Tables as words: the lines of a script in the forms that are written.

use super::{node, put, Names, HEAD};
use crate::script::{Expr, Line, Literal, Table};
use crate::term::{Name, Var};

/// Words of a table.
pub const TABLE: usize = 1_280;

impl Names<'_> {
    /// An expression of a script, in the forms that are written.
    fn expr(&self, expr: &Expr, out: &mut Vec<u32>) {
        let (node, parts): (u32, Vec<&Expr>) = match expr {
            Expr::Number(number) => (node(2, *number as usize), vec![]),
            Expr::Var(word) => (node(6, self.word(*word)), vec![]),
            Expr::Null => (node(1, 0), vec![]),
            Expr::This => (node(6, 0), vec![]),
            Expr::Plus(a, b) => (node(7, 0), vec![a, b]),
            Expr::Percent(a, b) => (node(8, 0), vec![a, b]),
            Expr::Same(a, b) => (node(18, 0), vec![a, b]),
            Expr::If(a, b, c) => (node(19, 0), vec![a, b, c]),
            Expr::Get(a, name) => (node(9, self.word(*name)), vec![a]),
            Expr::Set(a, name, b) => (node(10, self.word(*name)), vec![a, b]),
            Expr::Let(name, a, b) => (node(11, self.word(*name)), vec![a, b]),
            Expr::Future(f, r, a) => (node(12, self.word(*f) | self.word(*r) << 7), vec![a]),
            Expr::Call(a, name, args) => (self.invoked(13, Name::Plain(*name), args.len()), with(a, args)),
            Expr::Send(a, name, args) => (self.invoked(14, Name::Plain(*name), args.len()), with(a, args)),
            Expr::Ask(a, name, args) => (self.invoked(64, Name::Plain(*name), args.len()), with(a, args)),
            Expr::Fn(name, a) => (node(65, self.word(*name)), vec![a]),
            Expr::Resolve(a, b) => (node(66, 0), vec![a, b]),
            Expr::When(a, name, b) => (node(67, self.word(*name)), vec![a, b]),
            Expr::Seq(a, b) => (node(68, 0), vec![a, b]),
            Expr::Object(literal) => return self.written(15, literal, out),
            Expr::Isolate(literal) => return self.written(16, literal, out),
            Expr::Actor(literal) => return self.written(17, literal, out),
        };
        out.push(node);
        parts.into_iter().for_each(|part| self.expr(part, out));
    }

    fn written(&self, kind: u32, literal: &Literal, out: &mut Vec<u32>) {
        out.push(node(kind, literal.fields.len() | literal.methods.len() << 3));
        for field in &literal.fields {
            out.push(node(128, self.word(field.name)));
            self.expr(&field.init, out);
        }
        for method in &literal.methods {
            let params: Vec<Var> = method.params.iter().map(|word| Var::Word(*word)).collect();
            out.push(self.header(method.name, &params));
            self.expr(&method.body, out);
        }
    }
}

fn with<'e>(first: &'e Expr, rest: &'e [Expr]) -> Vec<&'e Expr> {
    std::iter::once(first).chain(rest).collect()
}

/// The words of a table.
pub fn encode_table(table: &Table) -> Vec<u32> {
    let names = Names { words: &table.words };
    let (mut words, mut lines) = (vec![0; TABLE], Vec::new());
    for line in &table.script.lines {
        let expr = match line {
            Line::Def(name, expr) => {
                lines.push(node(130, names.word(*name)));
                expr
            }
            Line::Expr(expr) => expr,
        };
        names.expr(expr, &mut lines);
    }
    put(&mut words, 0, &[names.known().len() as u32, table.script.lines.len() as u32, lines.len() as u32]);
    put(&mut words, 3, &names.dictionary());
    put(&mut words, HEAD, &lines);
    words
}

#[cfg(test)]
mod tests {
    use super::*;
    use crate::read;

    #[test]
    fn a_table_in_words() {
        let table = read(b"(def o (object (method m (x) x)))\n(ask o m (fn y 1))\n").unwrap();
        let words = encode_table(&table);
        assert_eq!(words.len(), TABLE);
        let header = 3 << 30 | 9 | 1 << 7 | 10 << 9 | 127 << 16 | 127 << 23;
        let lines = [130 << 24 | 8, 15 << 24 | 1 << 3, header, 6 << 24 | 10, 64 << 24 | 9 | 1 << 9, 6 << 24 | 8];
        assert_eq!(words[..3], [4, 2, 8]);
        assert_eq!(words[256..262], lines);
        assert_eq!(words[262..266], [65 << 24 | 11, 2 << 24 | 1, 0, 0]);
    }

    #[test]
    fn operators_have_the_kinds_that_terms_have() {
        let words = encode_table(&read(b"(if (same null 1) this 2)\n").unwrap());
        assert_eq!(words[..3], [0, 1, 6]);
        assert_eq!(words[256..263], [19 << 24, 18 << 24, 1 << 24, 2 << 24 | 1, 6 << 24, 2 << 24 | 2, 0]);
    }
}
