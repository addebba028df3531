//! The numbers by which a call says why it refused.

/// The text has no byte at all, or more than 4,096.
pub const TEXT_SIZE: u8 = 1;
/// The text (or a schedule line) is not of the grammar.
pub const GRAMMAR: u8 = 2;
/// A variable has no binding, or one that a literal may not see.
pub const UNBOUND: u8 = 3;
/// A list names something twice. Methods of one name are told apart by the number of their parameters.
pub const TWICE: u8 = 4;
/// Brackets, words or nodes of the script are too many.
pub const SCRIPT_SIZE: u8 = 5;
/// A text to be written is longer than the room for it.
pub const ROOM: u8 = 6;
/// What was handed over is no state; here only a state built by hand can be that.
pub const NO_STATE: u8 = 7;
/// The schedule names an actor that is not there.
pub const NO_ACTOR: u8 = 8;
/// The actor has nothing to do.
pub const IDLE: u8 = 9;
/// The receiver is null or a number, and the message not one that brings a listener.
pub const NO_RECEIVER: u8 = 10;
/// The entity belongs to another actor.
pub const FOREIGN: u8 = 11;
/// The entity has no such field, no method of the name for so many arguments, or is not of the kind that has any.
pub const NO_MEMBER: u8 = 12;
/// The future has a value already.
pub const RESOLVED: u8 = 13;
/// A future can not be the value of a future.
pub const FUTURE_VALUE: u8 = 14;
/// Arithmetic on something else than numbers, or past the greatest one.
pub const ARITHMETIC: u8 = 15;
/// The state after the move would be over a limit.
pub const LIMIT: u8 = 16;
