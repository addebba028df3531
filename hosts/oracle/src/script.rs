//! Scripts as they are written, before anything is expanded.

/// A word of the script, as its place in the table's dictionary.
#[derive(Clone, Copy, Debug, PartialEq, Eq)]
pub struct Word(pub u16);

/// An expression of the text, one variant a form.
#[derive(Clone, Debug, PartialEq, Eq)]
pub enum Expr {
    Number(u32),
    Var(Word),
    Null,
    This,
    Plus(Box<Expr>, Box<Expr>),
    Percent(Box<Expr>, Box<Expr>),
    Same(Box<Expr>, Box<Expr>),
    If(Box<Expr>, Box<Expr>, Box<Expr>),
    Get(Box<Expr>, Word),
    Set(Box<Expr>, Word, Box<Expr>),
    Call(Box<Expr>, Word, Vec<Expr>),
    Send(Box<Expr>, Word, Vec<Expr>),
    Ask(Box<Expr>, Word, Vec<Expr>),
    Let(Word, Box<Expr>, Box<Expr>),
    Future(Word, Word, Box<Expr>),
    Fn(Word, Box<Expr>),
    Resolve(Box<Expr>, Box<Expr>),
    When(Box<Expr>, Word, Box<Expr>),
    Seq(Box<Expr>, Box<Expr>),
    Object(Literal),
    Isolate(Literal),
    Actor(Literal),
}

/// The parts of an object, isolate or actor literal.
#[derive(Clone, Debug, Default, PartialEq, Eq)]
pub struct Literal {
    pub fields: Vec<Field>,
    pub methods: Vec<Method>,
}

/// A field and the expression it starts with.
#[derive(Clone, Debug, PartialEq, Eq)]
pub struct Field {
    pub name: Word,
    pub init: Expr,
}

/// A method with its parameters.
#[derive(Clone, Debug, PartialEq, Eq)]
pub struct Method {
    pub name: Word,
    pub params: Vec<Word>,
    pub body: Expr,
}

/// One line of a script.
#[derive(Clone, Debug, PartialEq, Eq)]
pub enum Line {
    Def(Word, Expr),
    Expr(Expr),
}

/// The lines of a script, the last of which is an expression.
#[derive(Clone, Debug, PartialEq, Eq)]
pub struct Script {
    pub lines: Vec<Line>,
}

/// A script with the words it uses, in the order in which the text first has them.
#[derive(Clone, Debug, PartialEq, Eq)]
pub struct Table {
    pub words: Vec<String>,
    pub script: Script,
}

/// The words that stand for forms and so can name nothing.
pub const RESERVED: [&str; 23] = [
    "plus", "percent", "get", "set", "call", "send", "ask", "let", "future", "fn", "resolve", "when", "seq", "object",
    "isolate", "actor", "if", "same", "null", "this", "def", "field", "method",
];

/// Fields, and also methods, that a literal can have.
pub const MOST_PARTS: usize = 4;
/// Arguments and parameters that the text allows.
pub const MOST_ARGS: usize = 3;
/// Letters and digits in a word.
pub const MOST_LETTERS: usize = 12;
/// The greatest number, in texts and in results.
pub const MOST_NUMBER: u32 = 16_777_215;
