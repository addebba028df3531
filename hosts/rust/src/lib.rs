//! AT-LITE scripts from Rust, over an engine whose every answer is proved.
//!
//! A script's text is read into a [`Table`], a table is loaded into a [`State`], actors of a state move, and a state is listed.
//!
//! ```
//! use atlite::{Counts, Refusal, Table};
//!
//! let script = b"(def shop (actor (field rate 12) (method price (n) (percent n (get this rate)))))\n(when (ask shop price 250) p (plus p 1))\n";
//! let mut state = Table::read(script)?.load()?;
//! let Counts { moves, refusals } = state.run(&[0, 0, 0, 1, 1, 0, 0]);
//! assert_eq!(moves + refusals, 7);
//! println!("{state}");
//! # Ok::<(), Refusal>(())
//! ```
//!
//! A `Table` always holds a table and a `State` a state, since they are made by reading, by loading, or from words that were tested. So
//! what can go wrong with them is only what the language leaves: a text that is refused, a script that is too large, a move that cannot
//! be made. Both are plain data: two states are equal exactly if their words are.
//!
//! Two lists of moves end in the same state if in both each actor makes as many moves, each inbox gets its messages from the same senders
//! in the same order, and actors are created in the same order.

mod calls;
pub mod lent;
mod refusal;

use std::fmt;

pub use refusal::Refusal;

/// The words of a table.
pub const TABLE_WORDS: usize = 1280;

/// The words of a state.
pub const STATE_WORDS: usize = 16384;

/// The longest text of a script, in bytes.
pub const TEXT_BYTES: usize = 4096;

/// The kind of a move that was made. Actors are numbered from 0 in the order of their creation.
#[derive(Clone, Copy, Debug, PartialEq, Eq, Hash)]
pub enum Move {
    /// Inside the actor.
    Inner,
    /// A message was taken from the inbox.
    Taken,
    /// A message was sent to this actor, which may be the one that moved.
    Sent(u8),
    /// This actor was created.
    Created(u8),
}

/// How many entries of a run were moves, and how many were refused. Together they are as many as the run had entries.
#[derive(Clone, Copy, Debug, PartialEq, Eq, Hash)]
pub struct Counts {
    /// The moves that were made.
    pub moves: usize,
    /// The entries that were passed over.
    pub refusals: usize,
}

/// A script that was read.
///
/// ```
/// use atlite::{Refusal, Table};
///
/// let table = Table::read(b"(percent 250 12)\n")?;
/// assert_eq!(table.text(), "(percent 250 12)\n");
/// assert_eq!(Table::from_words(table.words()), Ok(table));
/// # Ok::<(), Refusal>(())
/// ```
#[derive(Clone, PartialEq, Eq, Hash)]
pub struct Table {
    words: Box<[u32]>,
}

impl Table {
    /// Reads a script's text. Every text that is accepted has a table of its own, from which it prints again byte for byte.
    pub fn read(text: &[u8]) -> Result<Table, Refusal> {
        let mut words = vec![0; TABLE_WORDS].into_boxed_slice();
        lent::read(text, &mut words)?;
        Ok(Table { words })
    }

    /// The table in the first [`TABLE_WORDS`] words: [`Refusal::Short`] where they are too few, [`Refusal::Neither`] where they are none, as
    /// those of a script that has `if` or `same` as a name, which was one before the two were reserved. Every table from before methods of
    /// one name were told apart by the number of their parameters is one still.
    pub fn from_words(words: &[u32]) -> Result<Table, Refusal> {
        lent::print(words, &mut [0; TEXT_BYTES])?;
        Ok(Table {
            words: words[..TABLE_WORDS].into(),
        })
    }

    /// The [`TABLE_WORDS`] words of the table.
    pub fn words(&self) -> &[u32] {
        &self.words
    }

    /// The script's text.
    pub fn text(&self) -> String {
        let mut text = vec![0; TEXT_BYTES];
        let length = lent::print(&self.words, &mut text).expect("a table prints into 4096 bytes");
        text.truncate(length);
        String::from_utf8(text).expect("a script is ASCII")
    }

    /// The state in which the script begins: [`Refusal::Limit`] where the script is too large once it is expanded.
    ///
    /// ```
    /// use atlite::{Refusal, Table};
    ///
    /// let state = Table::read(b"(plus 2 3)\n")?.load()?;
    /// assert_eq!(state.to_string(), "(actor 0 0 0 0 (plus 2 3))\n");
    /// # Ok::<(), Refusal>(())
    /// ```
    pub fn load(&self) -> Result<State, Refusal> {
        let mut words = vec![0; STATE_WORDS].into_boxed_slice();
        lent::load(&self.words, &mut words)?;
        Ok(State { words })
    }
}

/// The script's text.
impl fmt::Display for Table {
    fn fmt(&self, f: &mut fmt::Formatter<'_>) -> fmt::Result {
        f.write_str(&self.text())
    }
}

impl fmt::Debug for Table {
    fn fmt(&self, f: &mut fmt::Formatter<'_>) -> fmt::Result {
        f.debug_tuple("Table").field(&self.text()).finish()
    }
}

/// One to four actors with all that they have.
///
/// ```
/// use atlite::{Move, Refusal, Table};
///
/// let mut state = Table::read(b"(send (actor (field a 1) (method put (n) (set this a n))) put 5)\n")?.load()?;
/// assert_eq!(state.move_actor(1), Err(Refusal::NoActor));
/// assert_eq!(state.move_actor(0), Ok(Move::Created(1)));
/// assert_eq!(state.move_actor(0), Ok(Move::Sent(1)));
/// assert_eq!(state.move_actor(0), Err(Refusal::Nothing));
/// assert_eq!(state.move_actor(1), Ok(Move::Inner));
/// # Ok::<(), Refusal>(())
/// ```
#[derive(Clone, PartialEq, Eq, Hash)]
pub struct State {
    words: Box<[u32]>,
}

impl State {
    /// The state in the first [`STATE_WORDS`] words: [`Refusal::Short`] where they are too few, [`Refusal::Neither`] where they are none. Every
    /// state from before methods of one name were told apart by the number of their parameters is one still.
    ///
    /// ```
    /// use atlite::{Refusal, State, Table};
    ///
    /// let state = Table::read(b"null\n")?.load()?;
    /// let kept: Vec<u32> = state.words().to_vec();
    /// assert_eq!(State::from_words(&kept), Ok(state));
    /// assert_eq!(State::from_words(&kept[1..]), Err(Refusal::Short));
    /// assert_eq!(State::from_words(&[0; atlite::STATE_WORDS]), Err(Refusal::Neither));
    /// # Ok::<(), Refusal>(())
    /// ```
    pub fn from_words(words: &[u32]) -> Result<State, Refusal> {
        let Some(words) = words.get(..STATE_WORDS) else {
            return Err(Refusal::Short);
        };
        let mut words: Box<[u32]> = words.into();
        // a run without entries tests the words and leaves them as they are
        lent::run(&mut words, &[])?;
        Ok(State { words })
    }

    /// The [`STATE_WORDS`] words of the state.
    pub fn words(&self) -> &[u32] {
        &self.words
    }

    /// Lets an actor move once. A refusal, one of [`Refusal::NoActor`] to [`Refusal::Limit`], leaves the state as it was.
    pub fn move_actor(&mut self, actor: u8) -> Result<Move, Refusal> {
        lent::move_actor(&mut self.words, actor)
    }

    /// Lets the actors that `entries` names move one after another, and passes over moves that are refused.
    ///
    /// ```
    /// use atlite::{Counts, Refusal, Table};
    ///
    /// let mut state = Table::read(b"(actor (field a 1))\n")?.load()?;
    /// assert_eq!(state.run(&[0, 1, 1, 7]), Counts { moves: 3, refusals: 1 });
    /// assert_eq!(state.run(&[]), Counts { moves: 0, refusals: 0 });
    /// # Ok::<(), Refusal>(())
    /// ```
    pub fn run(&mut self, entries: &[u8]) -> Counts {
        lent::run(&mut self.words, entries).expect("the words are a state")
    }

    /// The listing: for each actor a line of its own, its entities and its inbox.
    ///
    /// ```
    /// use atlite::{Refusal, Table};
    ///
    /// let mut state = Table::read(b"(future f r (resolve r 5))\n")?.load()?;
    /// state.run(&[0; 12]);
    /// assert_eq!(
    ///     state.listing(),
    ///     "(actor 0 12 3 0 null)\n\
    ///      (future 0 m 0 5)\n\
    ///      (resolver 0 m 1 0)\n\
    ///      (object 0 m 2 (method apply (.x) (send (ref 0 m 1) .resolve .x)))\n"
    /// );
    /// # Ok::<(), Refusal>(())
    /// ```
    pub fn listing(&self) -> String {
        let mut text = vec![0; 65536];
        let length = loop {
            match lent::list(&self.words, &mut text) {
                Ok(length) => break length,
                Err(Refusal::Short) => text.resize(2 * text.len(), 0),
                Err(cause) => unreachable!("the words are a state, yet: {cause}"),
            }
        };
        text.truncate(length);
        String::from_utf8(text).expect("a listing is ASCII")
    }
}

/// The listing.
impl fmt::Display for State {
    fn fmt(&self, f: &mut fmt::Formatter<'_>) -> fmt::Result {
        f.write_str(&self.listing())
    }
}

impl fmt::Debug for State {
    fn fmt(&self, f: &mut fmt::Formatter<'_>) -> fmt::Result {
        f.debug_tuple("State").field(&self.listing()).finish()
    }
}
