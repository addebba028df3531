//! From the bytes of a script to its table.
//!
//! Reading goes in two rounds, since a fault of grammar anywhere outranks every other one: first the whole text is
//! parsed, however deep and long it is, then [`scope`](crate::scope) looks at what was parsed.

use crate::cause;
use crate::scope;
use crate::script::*;

/// Bytes of the longest text.
pub const MOST_TEXT: usize = 4096;
/// Brackets that can be open at one place of the text.
const MOST_OPEN: usize = 32;
/// Different words that are not reserved.
const MOST_WORDS: usize = 64;
/// Nodes of the script with its lines joined.
const MOST_NODES: usize = 512;

/// Reads a script, or says with a number from 1 to 5 why the text is none.
pub fn read(text: &[u8]) -> Result<Table, u8> {
    if text.is_empty() || text.len() > MOST_TEXT {
        return Err(cause::TEXT_SIZE);
    }
    let table = Reader::new(text).script().ok_or(cause::GRAMMAR)?;
    let findings = scope::examine(&table.script);
    if findings.unbound {
        return Err(cause::UNBOUND);
    }
    if findings.twice {
        return Err(cause::TWICE);
    }
    if deepest(text) > MOST_OPEN || table.words.len() > MOST_WORDS || findings.nodes > MOST_NODES {
        return Err(cause::SCRIPT_SIZE);
    }
    Ok(table)
}

/// The most brackets open together anywhere in a text of the grammar.
fn deepest(text: &[u8]) -> usize {
    let (mut open, mut most) = (0usize, 0);
    for byte in text {
        match byte {
            b'(' => open += 1,
            b')' => open -= 1,
            _ => {}
        }
        most = most.max(open);
    }
    most
}

/// A parser by descent. Every method takes its part off the front of `rest`, or gives `None` for a fault of grammar.
struct Reader<'t> {
    rest: &'t [u8],
    words: Vec<String>,
}

impl<'t> Reader<'t> {
    fn new(text: &'t [u8]) -> Self {
        Reader { rest: text, words: Vec::new() }
    }

    fn script(mut self) -> Option<Table> {
        let mut lines = Vec::new();
        while !self.rest.is_empty() {
            lines.push(self.line()?);
        }
        matches!(lines.last(), Some(Line::Expr(_))).then_some(Table { words: self.words, script: Script { lines } })
    }

    fn line(&mut self) -> Option<Line> {
        let line = if self.skip(b"(def ") {
            let name = self.name()?;
            let bound = self.operand()?;
            self.expect(b")")?;
            Line::Def(name, bound)
        } else {
            Line::Expr(self.expr()?)
        };
        self.expect(b"\n")?;
        Some(line)
    }

    fn expr(&mut self) -> Option<Expr> {
        match self.rest.first()? {
            b'(' => self.form(),
            b'0'..=b'9' => self.number(),
            _ => self.atom(),
        }
    }

    fn form(&mut self) -> Option<Expr> {
        self.expect(b"(")?;
        let form = match self.token() {
            b"plus" => Expr::Plus(self.boxed()?, self.boxed()?),
            b"percent" => Expr::Percent(self.boxed()?, self.boxed()?),
            b"same" => Expr::Same(self.boxed()?, self.boxed()?),
            b"if" => Expr::If(self.boxed()?, self.boxed()?, self.boxed()?),
            b"get" => Expr::Get(self.boxed()?, self.label()?),
            b"set" => Expr::Set(self.boxed()?, self.label()?, self.boxed()?),
            b"call" => Expr::Call(self.boxed()?, self.label()?, self.args()?),
            b"send" => Expr::Send(self.boxed()?, self.label()?, self.args()?),
            b"ask" => Expr::Ask(self.boxed()?, self.label()?, self.args()?),
            b"let" => Expr::Let(self.label()?, self.boxed()?, self.boxed()?),
            b"future" => Expr::Future(self.label()?, self.label()?, self.boxed()?),
            b"fn" => Expr::Fn(self.label()?, self.boxed()?),
            b"resolve" => Expr::Resolve(self.boxed()?, self.boxed()?),
            b"when" => Expr::When(self.boxed()?, self.label()?, self.boxed()?),
            b"seq" => Expr::Seq(self.boxed()?, self.boxed()?),
            b"object" => Expr::Object(self.literal()?),
            b"isolate" => Expr::Isolate(self.literal()?),
            b"actor" => Expr::Actor(self.literal()?),
            _ => return None,
        };
        self.expect(b")")?;
        Some(form)
    }

    /// A space and an expression.
    fn operand(&mut self) -> Option<Expr> {
        self.expect(b" ")?;
        self.expr()
    }

    fn boxed(&mut self) -> Option<Box<Expr>> {
        self.operand().map(Box::new)
    }

    /// A space and a word that names something.
    fn label(&mut self) -> Option<Word> {
        self.expect(b" ")?;
        self.name()
    }

    fn args(&mut self) -> Option<Vec<Expr>> {
        let mut args = Vec::new();
        while args.len() < MOST_ARGS && self.rest.first() == Some(&b' ') {
            args.push(self.operand()?);
        }
        Some(args)
    }

    fn literal(&mut self) -> Option<Literal> {
        let mut literal = Literal::default();
        while literal.fields.len() < MOST_PARTS && self.skip(b" (field ") {
            literal.fields.push(Field { name: self.name()?, init: self.operand()? });
            self.expect(b")")?;
        }
        while literal.methods.len() < MOST_PARTS && self.skip(b" (method ") {
            literal.methods.push(Method { name: self.name()?, params: self.params()?, body: self.operand()? });
            self.expect(b")")?;
        }
        Some(literal)
    }

    fn params(&mut self) -> Option<Vec<Word>> {
        self.expect(b" (")?;
        let mut params = Vec::new();
        while !self.skip(b")") {
            if params.len() == MOST_ARGS {
                return None;
            }
            if !params.is_empty() {
                self.expect(b" ")?;
            }
            params.push(self.name()?);
        }
        Some(params)
    }

    fn number(&mut self) -> Option<Expr> {
        let size = self.rest.iter().take_while(|byte| byte.is_ascii_digit()).count();
        let (digits, rest) = self.rest.split_at(size);
        if size > 8 || (size > 1 && digits[0] == b'0') {
            return None;
        }
        let number = digits.iter().fold(0, |sum, digit| sum * 10 + u32::from(digit - b'0'));
        self.rest = rest;
        (number <= MOST_NUMBER).then_some(Expr::Number(number))
    }

    /// An expression that is a single word.
    fn atom(&mut self) -> Option<Expr> {
        match self.token() {
            b"null" => Some(Expr::Null),
            b"this" => Some(Expr::This),
            token => self.intern(token).map(Expr::Var),
        }
    }

    fn name(&mut self) -> Option<Word> {
        let token = self.token();
        self.intern(token)
    }

    /// The letters and digits up to the next other byte, perhaps none.
    fn token(&mut self) -> &'t [u8] {
        let letter = |byte: &&u8| byte.is_ascii_lowercase() || byte.is_ascii_digit();
        let (token, rest) = self.rest.split_at(self.rest.iter().take_while(letter).count());
        self.rest = rest;
        token
    }

    /// The place of a word in the dictionary, where it is put if it is new.
    fn intern(&mut self, token: &[u8]) -> Option<Word> {
        if token.len() > MOST_LETTERS || !token.first()?.is_ascii_lowercase() {
            return None;
        }
        let known = self.words.iter().position(|word| word.as_bytes() == token);
        let place = match known {
            Some(place) => place,
            None => {
                let word = std::str::from_utf8(token).ok()?;
                if RESERVED.contains(&word) {
                    return None;
                }
                self.words.push(word.to_owned());
                self.words.len() - 1
            }
        };
        Some(Word(place as u16))
    }

    fn skip(&mut self, wanted: &[u8]) -> bool {
        let rest = self.rest.strip_prefix(wanted);
        self.rest = rest.unwrap_or(self.rest);
        rest.is_some()
    }

    fn expect(&mut self, wanted: &[u8]) -> Option<()> {
        self.skip(wanted).then_some(())
    }
}

#[cfg(test)]
mod tests {
    use super::*;

    fn refusal(text: &str) -> Option<u8> {
        read(text.as_bytes()).err()
    }

    #[test]
    fn sizes_of_the_text() {
        assert_eq!(refusal(""), Some(1));
        assert_eq!(refusal("\n"), Some(2));
        assert_eq!(refusal(&"(".repeat(4096)), Some(2));
        assert_eq!(refusal(&"(".repeat(4097)), Some(1));
    }

    #[test]
    fn texts_outside_the_grammar() {
        for text in [
            "1",
            "01\n",
            "16777216\n",
            "(plus 1)\n",
            "(plus 1 2 3)\n",
            "(same 1)\n",
            "(same 1 2 3)\n",
            "(if 1 2)\n",
            "(if 1 2 3 4)\n",
            "(if 1 2 3 )\n",
            "(plus 1  2)\n",
            "(plus 1 2 )\n",
            "( plus 1 2)\n",
            "(def x 1)\n",
            "(seq (def x 1) 2)\n",
            "(get null get)\n",
            "(call null m 1 2 3 4)\n",
            "A\n",
            "1a\n",
            "plus\n",
            "abcdefghijklm\n",
            "(object (method m () 1) (field a 1))\n",
            "(object (method m (a b c d) 1))\n",
            "(object (method m (a ) 1))\n",
            "(object (method m ( a) 1))\n",
            "()\n",
            "1\r\n",
            "1\n\n",
            "(fn this 1)\n",
            "(object (field a 1) (field b 1) (field c 1) (field d 1) (field e 1))\n",
            "(object )\n",
            "-1\n",
            "1 \n",
        ] {
            assert_eq!(refusal(text), Some(2), "{text:?}");
        }
    }

    #[test]
    fn words_of_forms_name_nothing() {
        for word in ["if", "same", "plus", "null"] {
            for text in [
                format!("(def {word} 1)\n1\n"),
                format!("(let {word} 1 1)\n"),
                format!("(future {word} r 1)\n"),
                format!("(future f {word} 1)\n"),
                format!("(fn {word} 1)\n"),
                format!("(when 1 {word} 1)\n"),
                format!("(get 1 {word})\n"),
                format!("(set 1 {word} 1)\n"),
                format!("(call 1 {word} 1)\n"),
                format!("(send 1 {word})\n"),
                format!("(ask 1 {word})\n"),
                format!("(object (field {word} 1))\n"),
                format!("(actor (method {word} () 1))\n"),
                format!("(isolate (method m ({word}) 1))\n"),
            ] {
                assert_eq!(refusal(&text), Some(2), "{text:?}");
            }
            assert_eq!(refusal(&format!("(let {word}1 2 {word}1)\n")), None);
        }
        assert_eq!((refusal("if\n"), refusal("(plus same 1)\n")), (Some(2), Some(2)));
    }

    #[test]
    fn a_word_of_twelve_letters_is_taken() {
        assert_eq!(refusal("(fn abcdefghijkl abcdefghijkl)\n"), None);
        assert_eq!(refusal("(fn a23456789012 a23456789012)\n"), None);
    }

    #[test]
    fn limits_of_the_script() {
        let nest = |n: usize| format!("{}null{}\n", "(get ".repeat(n), " a)".repeat(n));
        assert_eq!((refusal(&nest(32)), refusal(&nest(33))), (None, Some(5)));
        let words = |n: usize| (0..n).map(|i| format!("(def a{i} 1)\n")).collect::<String>() + "1\n";
        assert_eq!((refusal(&words(64)), refusal(&words(65))), (None, Some(5)));
        let lines = |n: usize| "1\n".repeat(n);
        assert_eq!((refusal(&lines(256)), refusal(&lines(257))), (None, Some(5)));
    }

    #[test]
    fn the_deepest_texts_are_read() {
        assert_eq!(refusal(&"(get ".repeat(819)), Some(2));
        assert_eq!(refusal(&format!("{}1{}\n", "(fn x ".repeat(584), ")".repeat(584))), Some(5));
        assert_eq!(refusal(&format!("{}1{}\n", "(actor (field x ".repeat(227), "))".repeat(227))), Some(5));
    }

    #[test]
    fn the_first_cause_counts() {
        assert_eq!(refusal("(future x x y)\n"), Some(3));
        let deep = |atom: &str| format!("{}{atom}{}\n", "(get ".repeat(33), " a)".repeat(33));
        assert_eq!(refusal(&deep("x")), Some(3));
        assert_eq!(refusal(&deep("(future x x 1)")), Some(4));
        assert_eq!(refusal(&deep("(plus)")), Some(2));
    }
}
