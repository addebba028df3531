//! The causes for which a call is refused.

use std::error::Error;
use std::fmt;

/// Why a call was refused. A refused call has changed nothing.
///
/// The causes have numbers, 1 to 16, and a call is refused with the first that applies to it.
///
/// ```
/// use atlite::{Refusal, Table};
///
/// let refusal = Table::read(b"(let x 1 y)\n").unwrap_err();
/// assert_eq!(refusal, Refusal::Binding);
/// assert_eq!(refusal.number(), 3);
/// assert_eq!(refusal.to_string(), "a variable that nothing binds, or the binding rule is broken (3)");
/// ```
#[derive(Clone, Copy, Debug, PartialEq, Eq, PartialOrd, Ord, Hash)]
#[repr(u8)]
pub enum Refusal {
    /// The text is empty or has over 4,096 bytes.
    TextLength = 1,
    /// The text is not of the grammar.
    Grammar = 2,
    /// A variable that nothing binds, or the binding rule is broken.
    Binding = 3,
    /// One list has two fields or parameters of one name, or two methods of one name and equally many parameters; or a future names both
    /// its parts alike.
    Twice = 4,
    /// Over 32 brackets open together, 64 different words or 512 nodes.
    TooLarge = 5,
    /// A lent buffer is shorter than its published length, or than the text to write.
    Short = 6,
    /// The words are not those of a table that was read, or of a state.
    Neither = 7,
    /// There is no such actor.
    NoActor = 8,
    /// The actor's expression is a value and its inbox is empty.
    Nothing = 9,
    /// Get, set, call or send on null or a number, which take nothing but a listener.
    Receiver = 10,
    /// Get, set or call on what another actor owns.
    NotOwn = 11,
    /// No such field, no method of the name for so many arguments, or an entity of another kind.
    NoMember = 12,
    /// The future is resolved already.
    Resolved = 13,
    /// A future given as the value of a future.
    Future = 14,
    /// Plus or percent on what is no number, or a result over 16777215.
    Arithmetic = 15,
    /// A limit would be passed.
    Limit = 16,
}

impl Refusal {
    /// Every cause, in the order of the numbers.
    pub const ALL: [Refusal; 16] = [
        Refusal::TextLength,
        Refusal::Grammar,
        Refusal::Binding,
        Refusal::Twice,
        Refusal::TooLarge,
        Refusal::Short,
        Refusal::Neither,
        Refusal::NoActor,
        Refusal::Nothing,
        Refusal::Receiver,
        Refusal::NotOwn,
        Refusal::NoMember,
        Refusal::Resolved,
        Refusal::Future,
        Refusal::Arithmetic,
        Refusal::Limit,
    ];

    /// The cause's number, 1 to 16.
    pub fn number(self) -> u8 {
        self as u8
    }

    /// The cause with a number, if one has it.
    ///
    /// ```
    /// use atlite::Refusal;
    ///
    /// assert_eq!(Refusal::from_number(9), Some(Refusal::Nothing));
    /// assert_eq!(Refusal::from_number(0), None);
    /// assert_eq!(Refusal::from_number(17), None);
    /// ```
    pub fn from_number(number: u8) -> Option<Refusal> {
        Refusal::ALL
            .into_iter()
            .find(|cause| cause.number() == number)
    }

    /// The cause in words.
    pub fn words(self) -> &'static str {
        match self {
            Refusal::TextLength => "the text is empty or has over 4096 bytes",
            Refusal::Grammar => "the text is not of the grammar",
            Refusal::Binding => "a variable that nothing binds, or the binding rule is broken",
            Refusal::Twice => {
                "one list has two fields or parameters of one name, or two methods of one name and equally many parameters, \
                 or a future names both its parts alike"
            }
            Refusal::TooLarge => "over 32 brackets open together, 64 different words or 512 nodes",
            Refusal::Short => "a buffer is too short",
            Refusal::Neither => "the words are not those of a table, or of a state",
            Refusal::NoActor => "there is no such actor",
            Refusal::Nothing => "nothing to do: a value, and the inbox is empty",
            Refusal::Receiver => "get, set, call or send on null or a number",
            Refusal::NotOwn => "get, set or call on what another actor owns",
            Refusal::NoMember => {
                "no such field, no method of the name for so many arguments, or an entity of another kind"
            }
            Refusal::Resolved => "the future is resolved already",
            Refusal::Future => "a future given as the value of a future",
            Refusal::Arithmetic => {
                "plus or percent on what is no number, or a result over 16777215"
            }
            Refusal::Limit => "a limit would be passed",
        }
    }
}

/// The cause in words, with its number.
impl fmt::Display for Refusal {
    fn fmt(&self, f: &mut fmt::Formatter<'_>) -> fmt::Result {
        write!(f, "{} ({})", self.words(), self.number())
    }
}

impl Error for Refusal {}
