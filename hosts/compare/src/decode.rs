//! Which words are a state, and which are a table, decided from the page on the layout and the scope paper.
//!
//! Words are taken apart with as little care as keeps this from failing; what comes out counts only if it is good by the
//! plain engine's own tests and has exactly these words again. So a cell that nothing looks at here is looked at there.

mod table;

use std::sync::Arc;

use oracle::invariant;
use oracle::script::{Word, MOST_LETTERS, RESERVED};
use oracle::state::*;
use oracle::term::{Hidden, Invocation, Literal, Method, Name, Term, Var};
use oracle::words::{encode, STATE};

pub use table::table;

const HEAD: usize = 256;
const PART: usize = 3_200;
const MOST_WORDS: usize = 64;
const HIDDEN: [Hidden; 6] = [Hidden::T, Hidden::F, Hidden::R, Hidden::L, Hidden::S, Hidden::X];

/// The state that the first words are, or what keeps them from being one.
pub fn state(words: &[u32]) -> Result<State, &'static str> {
    let words = words.get(..STATE).ok_or("there are words enough")?;
    let dictionary = dictionary(words[1] as usize, &words[2..HEAD]).filter(|known| are_words(known));
    let mut dictionary = dictionary.ok_or("the dictionary has words, each once")?;
    let (known, count) = (dictionary.len(), words[0] as usize);
    dictionary.push("apply".to_owned());
    let parts = words[HEAD..].chunks(PART).take(count.min(most::ACTORS + 1));
    let actors: Option<_> = parts.map(|part| actor(part, known)).collect();
    let actors = actors.ok_or("actors can be made out")?;
    let mut state = State { words: Arc::from(dictionary), apply: Word(known as u16), actors };
    state.recount();
    invariant::holds(&state).map_err(|broken| broken.condition)?;
    (encode(&state) == words).then_some(state).ok_or("the words are those of the state")
}

fn are_words(dictionary: &[String]) -> bool {
    let named = |word: &String| is_word(word) && word != "apply" && !RESERVED.contains(&word.as_str());
    let twice = (1..dictionary.len()).any(|at| dictionary[..at].contains(&dictionary[at]));
    dictionary.len() <= MOST_WORDS && !twice && dictionary.iter().all(named)
}

fn dictionary(known: usize, words: &[u32]) -> Option<Vec<String>> {
    let entries = words.get(..known.checked_mul(3)?)?.chunks(3);
    entries
        .map(|entry| {
            let bytes = entry.iter().flat_map(|word| word.to_le_bytes()).filter(|byte| *byte != 0);
            String::from_utf8(bytes.collect()).ok()
        })
        .collect()
}

fn is_word(word: &str) -> bool {
    let good = |byte: u8| byte.is_ascii_lowercase() || byte.is_ascii_digit();
    word.len() <= MOST_LETTERS
        && word.bytes().next().is_some_and(|byte| byte.is_ascii_lowercase())
        && word.bytes().all(good)
}

/// Nodes that are still to be read; those that were are gone from the front.
struct Nodes<'w> {
    words: &'w [u32],
    known: usize,
}

fn actor(part: &[u32], known: usize) -> Option<Actor> {
    let nodes = |first: usize, last: usize| Nodes { words: &part[first..last], known };
    let size = |at: usize, most: usize| Some(part[at] as usize).filter(|size| *size <= most);
    let (made, copies) = (size(1, most::MADE)?, size(2, most::COPIES)?);
    let inbox = nodes(528, 624).messages(size(3, most::INBOX)?)?;
    let waiting = nodes(624, 720).messages(size(4, most::WAITING)?)?;
    let mut methods = nodes(1_104, 2_640);
    let slots = part[720..976].chunks(8).zip(0..).take(made);
    let made = slots.map(|(slot, number)| methods.entity(slot, number, &waiting)).collect::<Option<_>>()?;
    let slots = part[976..1_104].chunks(8).take(copies);
    let copies = slots.map(|slot| methods.parts(slot)).collect::<Option<Vec<_>>>()?;
    let mut actor = Actor::new(made, nodes(16, 528).term()?);
    (actor.moves, actor.copies, actor.inbox) = (part[0], copies, inbox.into());
    Some(actor)
}

impl Nodes<'_> {
    fn next(&mut self) -> Option<u32> {
        let (first, rest) = self.words.split_first()?;
        self.words = rest;
        Some(*first)
    }

    fn node(&mut self) -> Option<(u32, usize)> {
        self.next().map(|word| (word >> 24, (word & 0xff_ffff) as usize))
    }

    /// The word that a number names.
    fn word(&self, number: usize) -> Option<Word> {
        let word = if number == 7 { self.known } else { number.checked_sub(8).filter(|at| *at < self.known)? };
        Some(Word(word as u16))
    }

    fn var(&self, number: usize) -> Option<Var> {
        match number {
            1..=6 => Some(Var::Hidden(HIDDEN[number - 1])),
            _ => self.word(number).map(Var::Word),
        }
    }

    fn name(&self, payload: usize) -> Option<Name> {
        match payload >> 7 & 3 {
            0 => self.word(payload & 127).map(Name::Plain),
            1 => self.word(payload & 127).map(Name::TwoWay),
            2 => Some(Name::Resolve),
            _ => Some(Name::Register),
        }
    }

    fn value(&mut self) -> Option<Value> {
        self.term()?.value()
    }

    fn messages(&mut self, count: usize) -> Option<Vec<Message>> {
        let (known, places) = (self.known, self.words.chunks(6).take(count));
        places.map(|words| Nodes { words, known }.message()).collect()
    }

    fn message(&mut self) -> Option<Message> {
        let (_, payload) = self.node()?;
        let name = self.name(payload)?;
        let Value::Ref(receiver) = self.value()? else { return None };
        let args = (0..payload >> 9).map(|_| self.value()).collect::<Option<_>>()?;
        Some(Message { receiver, name, args })
    }

    fn entity(&mut self, slot: &[u32], number: u8, waiting: &[Message]) -> Option<Entity> {
        let first = || Nodes { words: &slot[2..3], known: self.known }.value();
        let own = |message: &&Message| message.receiver.entity == EntityNo::Made(MadeNo(number));
        Some(match slot[0] & 7 {
            1 => Entity::Object(self.parts(slot)?),
            2 => Entity::Isolate(self.parts(slot)?),
            3 => Entity::Future(Future::Open(waiting.iter().filter(own).cloned().collect())),
            4 => Entity::Future(Future::Resolved(first()?)),
            5 => Entity::Resolver(MadeNo(u8::try_from(slot[2]).ok()?)),
            _ => return None,
        })
    }

    /// The parts of an object or isolate, whose methods are the next.
    fn parts(&mut self, slot: &[u32]) -> Option<Parts> {
        let (fields, methods) = ((slot[0] >> 3 & 7) as usize, slot[0] >> 6 & 7);
        let mut values = Nodes { words: &slot[2..6], known: self.known };
        let fields = (0..fields)
            .map(|at| {
                let value = values.value()?;
                Some((self.word((slot[1] >> (7 * at) & 127) as usize)?, value))
            })
            .collect::<Option<_>>()?;
        let methods = (0..methods).map(|_| self.method()).collect::<Option<Vec<_>>>()?;
        Some(Parts { fields, methods: methods.into() })
    }

    /// The name and the parameters of a method.
    fn header(&mut self) -> Option<(Word, Vec<Var>)> {
        let word = self.next()? as usize;
        let params = (0..word >> 7 & 3).map(|at| self.var(word >> (9 + 7 * at) & 127)).collect::<Option<_>>()?;
        Some((self.word(word & 127)?, params))
    }

    fn method(&mut self) -> Option<Method> {
        let (name, params) = self.header()?;
        Some(Method::new(name, params, self.term()?))
    }

    fn literal(&mut self, payload: usize) -> Option<Box<Literal>> {
        let fields = (0..payload & 7)
            .map(|_| {
                let (_, name) = self.node()?;
                Some((self.word(name)?, self.term()?))
            })
            .collect::<Option<_>>()?;
        let methods = (0..payload >> 3).map(|_| self.method()).collect::<Option<_>>()?;
        Some(Box::new(Literal { fields, methods }))
    }

    fn invocation(&mut self, payload: usize) -> Option<Box<Invocation>> {
        let (name, receiver) = (self.name(payload)?, self.term()?);
        let args = (0..payload >> 9).map(|_| self.term()).collect::<Option<_>>()?;
        Some(Box::new(Invocation { receiver, name, args }))
    }

    fn pair(&mut self) -> Option<Box<(Term, Term)>> {
        Some(Box::new((self.term()?, self.term()?)))
    }

    fn term(&mut self) -> Option<Term> {
        let (kind, payload) = self.node()?;
        Some(match kind {
            1 => Term::Value(Value::Null),
            2 => Term::number(payload as u32),
            3 => Term::Value(Value::Ref(reference(payload)?)),
            6 if payload == 0 => Term::This,
            6 => Term::Var(self.var(payload)?),
            7 => Term::Plus(self.pair()?),
            8 => Term::Percent(self.pair()?),
            9 => Term::Get(self.word(payload)?, Box::new(self.term()?)),
            10 => Term::Set(self.word(payload)?, self.pair()?),
            11 => Term::Let(self.var(payload)?, self.pair()?),
            12 => Term::Future(self.var(payload & 127)?, self.var(payload >> 7)?, Box::new(self.term()?)),
            13 => Term::Call(self.invocation(payload)?),
            14 => Term::Send(self.invocation(payload)?),
            15 => Term::Object(self.literal(payload)?),
            16 => Term::Isolate(self.literal(payload)?),
            17 => Term::Actor(self.literal(payload)?),
            18 => Term::Same(self.pair()?),
            19 => Term::If(Box::new([self.term()?, self.term()?, self.term()?])),
            _ => return None,
        })
    }
}

fn reference(payload: usize) -> Option<Ref> {
    let number = u8::try_from(payload & 0xffff).ok()?;
    let entity = match payload >> 16 & 1 {
        0 => EntityNo::Made(MadeNo(number)),
        _ => EntityNo::Copy(CopyNo(number)),
    };
    Some(Ref { owner: ActorNo((payload >> 17) as u8), entity })
}

#[cfg(test)]
mod tests {
    use super::*;
    use oracle::generate::{input, rng::Rng};
    use oracle::loops::split;
    use oracle::words::encode_table;

    #[test]
    fn words_of_scripts_are_tables_and_states() {
        let (mut rng, mut seen) = (Rng::new(11), 0);
        while seen < 100 {
            let input = input(&mut rng);
            let Some((schedule, text)) = split(&input) else { continue };
            let Ok(read) = oracle::read(text) else { continue };
            assert_eq!(table(&encode_table(&read)), Some(read.clone()));
            let Ok(mut native) = oracle::load(&read) else { continue };
            oracle::run(&mut native, &schedule);
            let found = state(&encode(&native)).expect("a state");
            assert_eq!(oracle::list(&found), oracle::list(&native));
            // A dictionary that comes out has `apply` last: where a script's has it there too, the states are the same.
            if usize::from(native.apply.0) + 1 == native.words.len() {
                assert_eq!(found, native);
            }
            seen += 1;
        }
    }

    #[test]
    fn other_words_are_none() {
        let words = encode(&oracle::load(&oracle::read(b"(let x 1 (plus x 2))\n").unwrap()).unwrap());
        assert!(state(&words).is_ok());
        assert_eq!(state(&words[1..]), Err("there are words enough"));
        let broken = |at: usize, word: u32| {
            let mut words = words.clone();
            words[at] = word;
            state(&words).unwrap_err()
        };
        assert_eq!(broken(0, 0), "there are 1 to 4 actors");
        assert_eq!(broken(2, 0x73_75_6c_70), "the dictionary has words, each once");
        assert_eq!(broken(256, 1 << 24), "moves are within their limit");
        assert_eq!(broken(272, 11 << 24 | 9), "actors can be made out");
        assert_eq!(broken(272, 11 << 24 | 7), "variables are bound");
        assert_eq!(broken(STATE - 1, 1), "the words are those of the state");
    }

    /// The words of `(if (same 1 2) 3 4)` from 272 on, and what becomes of them with other kinds and payloads.
    #[test]
    fn words_of_choices() {
        let words = encode(&oracle::load(&oracle::read(b"(if (same 1 2) 3 4)\n").unwrap()).unwrap());
        let with = |at: usize, word: u32| {
            let mut words = words.clone();
            words[at] = word;
            state(&words).map(|state| String::from_utf8(oracle::list(&state)).unwrap())
        };
        assert_eq!(with(273, 7 << 24).unwrap(), "(actor 0 0 0 0 (if (plus 1 2) 3 4))\n");
        for (at, word) in [(272, 19 << 24 | 1), (273, 18 << 24 | 8), (272, 18 << 24), (273, 9 << 24 | 7)] {
            assert_eq!(with(at, word), Err("the words are those of the state"));
        }
        for word in [19 << 24, 20 << 24, 21 << 24, 31 << 24, 63 << 24] {
            assert_eq!(with(273, word), Err("actors can be made out"));
        }
    }

    /// The second header is changed, in the expression and in the heap: a parameter fewer, one more, another word for one.
    #[test]
    fn methods_of_one_name_differ_in_parameters() {
        let table = oracle::read(b"(object (method m (x) 1) (method m (x y) 2))\n").unwrap();
        for moves in 0..2 {
            let mut native = oracle::load(&table).unwrap();
            oracle::run(&mut native, &vec![0; moves]);
            let words = encode(&native);
            let at = (HEAD..STATE).filter(|at| words[*at] >> 30 == 3).nth(1).unwrap();
            let with = |places: [u32; 3], count: u32| {
                let mut words = words.clone();
                words[at] = 3 << 30 | places[2] << 23 | places[1] << 16 | places[0] << 9 | count << 7 | 8;
                state(&words).map(|_| ())
            };
            assert_eq!(with([9, 10, 127], 2), Ok(()));
            assert_eq!(with([127, 127, 127], 0), Ok(()));
            assert_eq!(with([9, 10, 7], 3), Ok(()));
            for param in [9, 10, 1] {
                assert_eq!(with([param, 127, 127], 1), Err("methods differ in name or in parameters"));
            }
        }
    }

    #[test]
    fn no_dictionary_has_a_reserved_word() {
        let words = encode(&oracle::load(&oracle::read(b"(get 1 a)\n").unwrap()).unwrap());
        for (word, good) in [("if", false), ("same", false), ("iff", true), ("sam", true), ("get", false)] {
            let (mut words, mut bytes) = (words.clone(), [0; 4]);
            bytes[..word.len()].copy_from_slice(word.as_bytes());
            words[2] = u32::from_le_bytes(bytes);
            assert_eq!(state(&words).is_ok(), good, "{word}");
        }
    }
}
