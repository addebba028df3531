//! Which words are a table.

use oracle::script::{Expr, Field, Line, Literal, Method, Script, Table};
use oracle::term::Var;
use oracle::words::{encode_table, TABLE};

use super::{dictionary, Nodes, HEAD};

/// The table that the first words are: its text is accepted, and has these words.
pub fn table(words: &[u32]) -> Option<Table> {
    let words = words.get(..TABLE)?;
    let dictionary = dictionary(words[0] as usize, &words[3..HEAD])?;
    let known = dictionary.len();
    let mut nodes = Nodes { words: words[HEAD..].get(..words[2] as usize)?, known };
    let lines = (0..words[1]).map(|_| nodes.line()).collect::<Option<_>>()?;
    let found = Table { words: [dictionary, vec!["apply".to_owned()]].concat(), script: Script { lines } };
    let table = oracle::read(&oracle::print(&found)).ok()?;
    (encode_table(&table) == words).then_some(table)
}

impl Nodes<'_> {
    fn line(&mut self) -> Option<Line> {
        let header = *self.words.first()? as usize;
        if header >> 24 != 130 {
            return self.expr().map(Line::Expr);
        }
        self.next()?;
        Some(Line::Def(self.word(header & 0xff_ffff)?, self.expr()?))
    }

    fn boxed(&mut self) -> Option<Box<Expr>> {
        self.expr().map(Box::new)
    }

    fn args(&mut self, payload: usize) -> Option<Vec<Expr>> {
        (0..payload >> 9).map(|_| self.expr()).collect()
    }

    /// An expression of a table.
    fn expr(&mut self) -> Option<Expr> {
        let (kind, payload) = self.node()?;
        let name = self.word(payload & 127);
        Some(match kind {
            1 => Expr::Null,
            2 => Expr::Number(payload as u32),
            6 if payload == 0 => Expr::This,
            6 => Expr::Var(name?),
            7 => Expr::Plus(self.boxed()?, self.boxed()?),
            8 => Expr::Percent(self.boxed()?, self.boxed()?),
            9 => Expr::Get(self.boxed()?, name?),
            10 => Expr::Set(self.boxed()?, name?, self.boxed()?),
            11 => Expr::Let(name?, self.boxed()?, self.boxed()?),
            12 => Expr::Future(name?, self.word(payload >> 7)?, self.boxed()?),
            13 => Expr::Call(self.boxed()?, name?, self.args(payload)?),
            14 => Expr::Send(self.boxed()?, name?, self.args(payload)?),
            15 => Expr::Object(self.written(payload)?),
            16 => Expr::Isolate(self.written(payload)?),
            17 => Expr::Actor(self.written(payload)?),
            18 => Expr::Same(self.boxed()?, self.boxed()?),
            19 => Expr::If(self.boxed()?, self.boxed()?, self.boxed()?),
            64 => Expr::Ask(self.boxed()?, name?, self.args(payload)?),
            65 => Expr::Fn(name?, self.boxed()?),
            66 => Expr::Resolve(self.boxed()?, self.boxed()?),
            67 => Expr::When(self.boxed()?, name?, self.boxed()?),
            68 => Expr::Seq(self.boxed()?, self.boxed()?),
            _ => return None,
        })
    }

    fn written(&mut self, payload: usize) -> Option<Literal> {
        let fields = (0..payload & 7).map(|_| self.field()).collect::<Option<_>>()?;
        let methods = (0..payload >> 3).map(|_| self.written_method()).collect::<Option<_>>()?;
        Some(Literal { fields, methods })
    }

    fn field(&mut self) -> Option<Field> {
        let (_, name) = self.node()?;
        Some(Field { name: self.word(name)?, init: self.expr()? })
    }

    fn written_method(&mut self) -> Option<Method> {
        let (name, params) = self.header()?;
        let word = |var: &Var| match var {
            Var::Word(word) => Some(*word),
            Var::Hidden(_) => None,
        };
        let params = params.iter().map(word).collect::<Option<_>>()?;
        Some(Method { name, params, body: self.expr()? })
    }
}

#[cfg(test)]
mod tests {
    use super::*;

    /// The words stay in the order of their first use, so the number of parameters alone decides.
    #[test]
    fn methods_of_one_name_differ_in_parameters() {
        let words =
            encode_table(&oracle::read(b"(object (method m (x) 1) (method m (x y) 2) (method y (x) 3))\n").unwrap());
        let at = (HEAD..TABLE).filter(|at| words[*at] >> 30 == 3).nth(1).unwrap();
        let with = |places: u32, count: u32| {
            let mut words = words.clone();
            words[at] = 3 << 30 | places << 9 | count << 7 | 8;
            table(&words).map(|table| String::from_utf8(oracle::print(&table)).unwrap())
        };
        let none = 127 << 7 | 127 << 14;
        assert_eq!(with(127 | none, 0).unwrap(), "(object (method m (x) 1) (method m () 2) (method y (x) 3))\n");
        assert!(with(9 | 10 << 7 | 8 << 14, 3).is_some());
        assert_eq!((with(9 | none, 1), with(10 | none, 1)), (None, None));
    }

    #[test]
    fn operators_have_their_operands() {
        let words = encode_table(&oracle::read(b"(if (same 1 2) 3 4)\n").unwrap());
        let with = |at: usize, word: u32| {
            let mut words = words.clone();
            words[at] = word;
            table(&words).map(|table| String::from_utf8(oracle::print(&table)).unwrap())
        };
        assert_eq!(with(257, 68 << 24).unwrap(), "(if (seq 1 2) 3 4)\n");
        for (at, kind) in [(256, 18), (257, 19), (257, 20), (257, 63), (257, 66 + 64)] {
            assert_eq!(with(at, kind << 24), None);
        }
        assert_eq!((with(256, 19 << 24 | 1), with(257, 18 << 24 | 8)), (None, None));
    }
}
