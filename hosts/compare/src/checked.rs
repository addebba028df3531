//! Each call of the compiled engine beside what the plain engine says of it: the answer, and every cell of every buffer.

use oracle::census::Rule;
use oracle::generate::rng::Rng;
use oracle::script::Table;
use oracle::words::{encode, encode_table, STATE, TABLE};
use oracle::{Answer, State};

use crate::counts::{Call, Counts};
use crate::engine;
use crate::lent::{Cell, Lent};
use crate::plain;

const SHORT: u8 = 6;
const NEITHER: u8 = 7;

/// Calls and their counts; told as they are made, if that is wanted.
pub struct Checked {
    pub rng: Rng,
    pub counts: Counts,
    tell: bool,
}

/// Something that is not as the plain engine has it.
pub type Differs = String;

impl Checked {
    pub fn new(rng: Rng, tell: bool) -> Self {
        Checked { rng, counts: Counts::default(), tell }
    }

    /// Tells what comes next.
    pub fn note(&self, what: impl FnOnce() -> String) {
        if self.tell {
            println!("{}", what());
        }
    }

    pub fn below(&mut self, end: usize) -> usize {
        self.rng.below(end as u64) as usize
    }

    /// A length around the published one: mostly that or more, at times less or none.
    pub fn length(&mut self, published: usize) -> usize {
        match self.below(100) {
            0 => 0,
            1 => self.below(published),
            2 => published - 1,
            3..=9 => published + 1 + self.below(40),
            _ => published,
        }
    }

    /// A length for a text: enough, exact, one less, or any.
    pub fn room(&mut self, text: usize) -> usize {
        match self.below(12) {
            0 => 0,
            1 => self.below(text + 1),
            2 | 3 => text.saturating_sub(1),
            4..=7 => text,
            _ => text + self.below(60),
        }
    }

    fn answered(&mut self, call: Call, got: u32, want: Result<(), u8>) -> Result<(), Differs> {
        let want = want.map_or_else(u32::from, |()| 0);
        *self.counts.answers.entry((call, got)).or_default() += 1;
        if got == want {
            return Ok(());
        }
        Err(format!("{call:?} answers {got}, where {want} is expected"))
    }

    fn buffer<T: Cell>(&mut self, name: &str, buffer: &Lent<T>) -> Result<(), Differs> {
        self.counts.buffers += 1;
        self.counts.cells += buffer.len();
        buffer.check(name)
    }

    fn place<T: Cell>(&mut self, name: &str, place: &Lent<T>) -> Result<(), Differs> {
        self.counts.places += 1;
        place.check(name)
    }

    pub fn read(&mut self, text: &[u8], table: &mut Lent<u32>) -> Result<Option<Table>, Differs> {
        self.note(|| format!("read {} bytes, table {}", text.len(), table.len()));
        let want = if table.len() < TABLE { Err(SHORT) } else { oracle::read(text) };
        if let Ok(read) = &want {
            table.expect(&encode_table(read));
        }
        let text = Lent::of(&mut self.rng, text);
        let got = engine::read(&text, table);
        self.answered(Call::Read, got, want.as_ref().map(|_| ()).map_err(|cause| *cause))?;
        self.buffer("text", &text)?;
        self.buffer("table", table)?;
        Ok(want.ok())
    }

    /// `native` is what the table's words are, if they are long enough.
    pub fn print(&mut self, table: &Lent<u32>, native: Option<&Table>) -> Result<(), Differs> {
        let printed = native.map(oracle::print);
        let room = self.room(printed.as_ref().map_or(100, Vec::len));
        let (mut text, mut length) = (Lent::any(&mut self.rng, room), Lent::place(&mut self.rng));
        self.note(|| format!("print table {}, text {room}", table.len()));
        let want = written(table.len() < TABLE, printed, &mut text, &mut length);
        let got = engine::print(table, &mut text, &mut length);
        self.answered(Call::Print, got, want)?;
        self.buffer("table", table)?;
        self.buffer("text", &text)?;
        self.place("length", &length)
    }

    pub fn load(
        &mut self,
        table: &Lent<u32>,
        native: Option<&Table>,
        state: &mut Lent<u32>,
    ) -> Result<Option<State>, Differs> {
        self.note(|| format!("load table {}, state {}", table.len(), state.len()));
        let short = table.len() < TABLE || state.len() < STATE;
        let want = if short { Err(SHORT) } else { native.ok_or(NEITHER).and_then(oracle::load) };
        if let Ok(loaded) = &want {
            state.expect(&encode(loaded));
        }
        let got = engine::load(table, state);
        self.answered(Call::Load, got, want.as_ref().map(|_| ()).map_err(|cause| *cause))?;
        self.buffer("table", table)?;
        self.buffer("state", state)?;
        Ok(want.ok())
    }

    /// `native` is what the state's words are, if they are long enough; it moves with them.
    pub fn move_actor(&mut self, state: &mut Lent<u32>, native: &mut Option<State>, actor: u8) -> Result<(), Differs> {
        self.note(|| format!("move {actor}, state {}", state.len()));
        let (mut kind, mut other) = (Lent::place(&mut self.rng), Lent::place(&mut self.rng));
        let want = held(state, native).and_then(|native| {
            let rule = Rule::of(native, actor);
            let answer = plain::step(native, actor)?;
            state.expect(&encode(native));
            *self.counts.rules.entry(rule).or_default() += 1;
            Ok(answer)
        });
        if let Ok(answer) = want {
            let (of_kind, actor) = numbers(answer);
            kind.expect(&[of_kind]);
            other.expect(&[actor]);
        }
        let got = engine::move_actor(state, actor, &mut kind, &mut other);
        self.answered(Call::Move, got, want.map(|_| ()))?;
        self.buffer("state", state)?;
        self.place("kind", &kind)?;
        self.place("other", &other)
    }

    pub fn run(&mut self, state: &mut Lent<u32>, native: &mut Option<State>, entries: &[u8]) -> Result<(), Differs> {
        self.note(|| format!("run {entries:?}, state {}", state.len()));
        let (mut moves, mut refusals) = (Lent::place(&mut self.rng), Lent::place(&mut self.rng));
        let want = held(state, native).map(|native| {
            let (moved, refused) = plain::run(native, entries);
            state.expect(&encode(native));
            moves.expect(&[moved]);
            refusals.expect(&[refused]);
            self.counts.entries.0 += moved;
            self.counts.entries.1 += refused;
        });
        let entries = Lent::of(&mut self.rng, entries);
        let got = engine::run(state, &entries, &mut moves, &mut refusals);
        self.answered(Call::Run, got, want)?;
        self.buffer("state", state)?;
        self.buffer("entries", &entries)?;
        self.place("moves", &moves)?;
        self.place("refusals", &refusals)
    }

    pub fn list(&mut self, state: &Lent<u32>, native: Option<&State>) -> Result<(), Differs> {
        let listing = native.map(oracle::list);
        let room = self.room(listing.as_ref().map_or(100, Vec::len));
        let mut text = Lent::any(&mut self.rng, room);
        self.list_to(state, listing, &mut text).map(|_| ())
    }

    /// Lists into a text that is lent, and gives the number that comes back.
    pub fn list_to(
        &mut self,
        state: &Lent<u32>,
        listing: Option<Vec<u8>>,
        text: &mut Lent<u8>,
    ) -> Result<u32, Differs> {
        self.note(|| format!("list state {}, text {}", state.len(), text.len()));
        let mut length = Lent::place(&mut self.rng);
        let want = written(state.len() < STATE, listing, text, &mut length);
        let got = engine::list(state, text, &mut length);
        self.answered(Call::List, got, want)?;
        self.buffer("state", state)?;
        self.buffer("text", text)?;
        self.place("length", &length)?;
        Ok(got)
    }
}

/// The state that moves with the words, if they are long enough and one.
fn held<'s>(words: &Lent<u32>, native: &'s mut Option<State>) -> Result<&'s mut State, u8> {
    if words.len() < STATE {
        return Err(SHORT);
    }
    native.as_mut().ok_or(NEITHER)
}

/// What a call that writes a text has to do: no text where the words are none.
fn written(short: bool, text: Option<Vec<u8>>, to: &mut Lent<u8>, length: &mut Lent<usize>) -> Result<(), u8> {
    if short {
        return Err(SHORT);
    }
    let text = text.ok_or(NEITHER)?;
    if text.len() > to.len() {
        return Err(SHORT);
    }
    to.expect(&text);
    length.expect(&[text.len()]);
    Ok(())
}

/// The kind of a move and the actor that goes with it, as numbers.
fn numbers(answer: Answer) -> (u32, u32) {
    match answer {
        Answer::Inner => (1, 255),
        Answer::Taken => (2, 255),
        Answer::Sent(to) => (3, to.0.into()),
        Answer::Created(actor) => (4, actor.0.into()),
    }
}
