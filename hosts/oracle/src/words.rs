//! States and tables as the machine words that the proved engine publishes, written from its page on the layout alone.
//!
//! A term is its nodes in Polish notation, one word each: the kind in the top byte, what it says below, digits low first.
//! `apply` has a number of its own, so a dictionary in words leaves it out.

mod table;

use crate::script::Word;
use crate::state::*;
use crate::term::{Hidden, Invocation, Literal, Method, Name, Term, Var};

pub use table::{encode_table, TABLE};

/// Words of a state.
pub const STATE: usize = 16_384;

/// Where the parts of a state begin, and the words of an actor's part.
const HEAD: usize = 256;
const PART: usize = 3_200;

/// Where the regions of an actor's part begin.
const EXPRESSION: usize = 16;
const INBOX: usize = 528;
const WAITING: usize = 624;
const MADE: usize = 720;
const COPIES: usize = 976;
const METHODS: usize = 1_104;

/// Words of a message and of an entity.
const MESSAGE: usize = 6;
const SLOT: usize = 8;

/// The names that no dictionary has: `this`, six hidden ones, and `apply`.
const APPLY: u32 = 7;
const HIDDEN: [Hidden; 6] = [Hidden::T, Hidden::F, Hidden::R, Hidden::L, Hidden::S, Hidden::X];

fn node(kind: u32, payload: usize) -> u32 {
    kind << 24 | payload as u32
}

/// The words of a dictionary in words, and the numbers that go with them.
struct Names<'s> {
    words: &'s [String],
}

impl Names<'_> {
    fn known(&self) -> Vec<&String> {
        self.words.iter().filter(|word| *word != "apply").collect()
    }

    fn word(&self, word: Word) -> usize {
        let (before, rest) = self.words.split_at(usize::from(word.0));
        if rest[0] == "apply" {
            return APPLY as usize;
        }
        8 + before.iter().filter(|word| *word != "apply").count()
    }

    fn var(&self, var: Var) -> usize {
        match var {
            Var::Word(word) => self.word(word),
            Var::Hidden(hidden) => 1 + HIDDEN.iter().position(|known| *known == hidden).unwrap_or(0),
        }
    }

    /// Three words an entry, the first byte lowest.
    fn dictionary(&self) -> Vec<u32> {
        let known = self.known();
        let bytes = known.iter().flat_map(|word| word.bytes().chain(std::iter::repeat(0)).take(12));
        let bytes: Vec<u8> = bytes.collect();
        bytes.chunks(4).map(|four| u32::from_le_bytes([four[0], four[1], four[2], four[3]])).collect()
    }

    fn header(&self, name: Word, params: &[Var]) -> u32 {
        let mut places = [127; 3];
        params.iter().zip(&mut places).for_each(|(param, place)| *place = self.var(*param));
        let places = places[0] | places[1] << 7 | places[2] << 14;
        3 << 30 | (self.word(name) | params.len() << 7 | places << 9) as u32
    }

    /// The node of a call or a send; the names that only expansion brings in have a tag and no word.
    fn invoked(&self, kind: u32, name: Name, args: usize) -> u32 {
        let (word, tag) = match name {
            Name::Plain(word) => (self.word(word), 0),
            Name::TwoWay(word) => (self.word(word), 1),
            Name::Resolve => (0, 2),
            Name::Register => (0, 3),
        };
        node(kind, word | tag << 7 | args << 9)
    }

    fn message(&self, message: &Message) -> Vec<u32> {
        let mut words = vec![self.invoked(14, message.name, message.args.len()), value(Value::Ref(message.receiver))];
        words.extend(message.args.iter().map(|arg| value(*arg)));
        words.resize(MESSAGE, 0);
        words
    }

    fn methods(&self, methods: &[Method], out: &mut Vec<u32>) {
        for method in methods {
            out.push(self.header(method.name, &method.params));
            self.term(&method.body, out);
        }
    }

    fn literal(&self, kind: u32, literal: &Literal, out: &mut Vec<u32>) {
        out.push(node(kind, literal.fields.len() | literal.methods.len() << 3));
        for (name, init) in &literal.fields {
            out.push(node(128, self.word(*name)));
            self.term(init, out);
        }
        self.methods(&literal.methods, out);
    }

    fn invocation(&self, kind: u32, invocation: &Invocation, out: &mut Vec<u32>) {
        out.push(self.invoked(kind, invocation.name, invocation.args.len()));
        self.term(&invocation.receiver, out);
        invocation.args.iter().for_each(|arg| self.term(arg, out));
    }

    fn pair(&self, node: u32, pair: &(Term, Term), out: &mut Vec<u32>) {
        out.push(node);
        self.term(&pair.0, out);
        self.term(&pair.1, out);
    }

    fn term(&self, term: &Term, out: &mut Vec<u32>) {
        match term {
            Term::Value(it) => out.push(value(*it)),
            Term::Var(var) => out.push(node(6, self.var(*var))),
            Term::This => out.push(node(6, 0)),
            Term::Plus(pair) => self.pair(node(7, 0), pair, out),
            Term::Percent(pair) => self.pair(node(8, 0), pair, out),
            Term::Same(pair) => self.pair(node(18, 0), pair, out),
            Term::If(parts) => {
                out.push(node(19, 0));
                parts.iter().for_each(|part| self.term(part, out));
            }
            Term::Get(name, part) => {
                out.push(node(9, self.word(*name)));
                self.term(part, out);
            }
            Term::Set(name, pair) => self.pair(node(10, self.word(*name)), pair, out),
            Term::Let(name, pair) => self.pair(node(11, self.var(*name)), pair, out),
            Term::Future(f, r, body) => {
                out.push(node(12, self.var(*f) | self.var(*r) << 7));
                self.term(body, out);
            }
            Term::Call(invocation) => self.invocation(13, invocation, out),
            Term::Send(invocation) => self.invocation(14, invocation, out),
            Term::Object(literal) => self.literal(15, literal, out),
            Term::Isolate(literal) => self.literal(16, literal, out),
            Term::Actor(literal) => self.literal(17, literal, out),
        }
    }

    /// The slot of an object or isolate; its methods go behind those that are there.
    fn parts(&self, kind: usize, number: usize, parts: &Parts, methods: &mut Vec<u32>) -> [u32; SLOT] {
        let before = methods.len();
        self.methods(&parts.methods, methods);
        let mut slot = [0; SLOT];
        slot[0] = head(kind, parts.fields.len(), parts.methods.len(), number);
        for (at, (name, it)) in parts.fields.iter().enumerate() {
            slot[1] |= (self.word(*name) << (7 * at)) as u32;
            slot[2 + at] = value(*it);
        }
        slot[6] = (methods.len() - before) as u32;
        slot
    }

    fn entity(&self, number: usize, entity: &Entity, methods: &mut Vec<u32>) -> [u32; SLOT] {
        let mut slot = [0; SLOT];
        match entity {
            Entity::Object(parts) => return self.parts(1, number, parts, methods),
            Entity::Isolate(parts) => return self.parts(2, number, parts, methods),
            Entity::Future(Future::Open(_)) => slot[0] = head(3, 0, 0, number),
            Entity::Future(Future::Resolved(it)) => (slot[0], slot[2]) = (head(4, 0, 0, number), value(*it)),
            Entity::Resolver(future) => (slot[0], slot[2]) = (head(5, 0, 0, number), future.0.into()),
        }
        slot
    }

    fn actor(&self, actor: &Actor) -> Vec<u32> {
        let (mut part, mut expression, mut methods) = (vec![0; PART], Vec::new(), Vec::new());
        self.term(&actor.expression, &mut expression);
        let waiting: Vec<u32> = waiting(actor).flat_map(|message| self.message(message)).collect();
        let inbox: Vec<u32> = actor.inbox.iter().flat_map(|message| self.message(message)).collect();
        let made: Vec<u32> =
            actor.made.iter().enumerate().flat_map(|(at, entity)| self.entity(at, entity, &mut methods)).collect();
        let copies: Vec<u32> =
            actor.copies.iter().enumerate().flat_map(|(at, parts)| self.parts(2, at, parts, &mut methods)).collect();
        let counts = [
            actor.moves,
            actor.made.len() as u32,
            actor.copies.len() as u32,
            actor.inbox.len() as u32,
            (waiting.len() / MESSAGE) as u32,
            expression.len() as u32,
        ];
        put(&mut part, 0, &counts);
        put(&mut part, EXPRESSION, &expression);
        put(&mut part, INBOX, &inbox);
        put(&mut part, WAITING, &waiting);
        put(&mut part, MADE, &made);
        put(&mut part, COPIES, &copies);
        put(&mut part, METHODS, &methods);
        part
    }
}

fn head(kind: usize, fields: usize, methods: usize, number: usize) -> u32 {
    (kind | fields << 3 | methods << 6 | number << 9) as u32
}

fn value(value: Value) -> u32 {
    match value {
        Value::Null => node(1, 0),
        Value::Number(number) => node(2, number as usize),
        Value::Ref(Ref { owner, entity }) => {
            let (number, series) = match entity {
                EntityNo::Made(number) => (number.0, 0),
                EntityNo::Copy(number) => (number.0, 1),
            };
            node(3, usize::from(number) | series << 16 | usize::from(owner.0) << 17)
        }
    }
}

/// The messages that wait, by future.
fn waiting(actor: &Actor) -> impl Iterator<Item = &Message> {
    actor.made.iter().flat_map(|entity| match entity {
        Entity::Future(Future::Open(messages)) => messages.as_slice(),
        _ => &[],
    })
}

fn put(words: &mut [u32], at: usize, these: &[u32]) {
    words[at..at + these.len()].copy_from_slice(these);
}

/// The words of a state.
pub fn encode(state: &State) -> Vec<u32> {
    let names = Names { words: &state.words };
    let mut words = vec![0; STATE];
    words[0] = state.actors.len() as u32;
    words[1] = names.known().len() as u32;
    put(&mut words, 2, &names.dictionary());
    for (at, actor) in state.actors.iter().enumerate() {
        put(&mut words, HEAD + PART * at, &names.actor(actor));
    }
    words
}

#[cfg(test)]
mod tests {
    use super::*;
    use crate::{load, read};

    #[test]
    fn a_first_state_in_words() {
        let state = load(&read(b"(let x 5 (percent x 12))\n").unwrap()).unwrap();
        let words = encode(&state);
        assert_eq!(words.len(), STATE);
        let there: Vec<(usize, u32)> = words.iter().copied().enumerate().filter(|(_, word)| *word != 0).collect();
        assert_eq!(
            there,
            [
                (0, 1),
                (1, 1),
                (2, 120),
                (261, 5),
                (272, 11 << 24 | 8),
                (273, 2 << 24 | 5),
                (274, 8 << 24),
                (275, 6 << 24 | 8),
                (276, 2 << 24 | 12)
            ]
        );
    }

    #[test]
    fn operands_stand_behind_their_operator() {
        let state = load(&read(b"(if (same null 1) 2 (plus 3 4))\n").unwrap()).unwrap();
        let words = encode(&state);
        let kinds: Vec<u32> = words[272..280].iter().map(|word| word >> 24).collect();
        assert_eq!((words[261], kinds), (8, vec![19, 18, 1, 2, 2, 7, 2, 2]));
        assert_eq!((words[272], words[273], words[280]), (19 << 24, 18 << 24, 0));
    }
}
