//! AT-LITE in plain Rust, written from the scope paper and from nothing else.
//!
//! This engine exists to be compared with: it holds scripts and states in enums, vectors and boxes where the proved
//! engine holds machine words, and shares no code with it. Where both print the same for the same input, two separate
//! readings of the rules agree.
//!
//! A text becomes a [`Table`] by [`read`] and a table a [`State`] by [`load`]. [`step`] makes one move and [`run`] a
//! schedule of them, [`list`] writes a state down, and [`loops`] is all of these in a row. [`replay`] is the same and
//! tells what each move answered. Refusals are the numbers in [`cause`].
//!
//! Two choices run through the crate. Words are places in a dictionary, so comparing names is comparing numbers. And
//! node counts are kept beside what they count rather than taken anew at each move; substitution puts one node where
//! one node was, which is why a count once taken stays right.

pub mod cause;
pub mod census;
pub mod expand;
pub mod generate;
pub mod inbox;
pub mod invariant;
pub mod listing;
mod literals;
pub mod loops;
pub mod moves;
mod operators;
pub mod parcel;
pub mod print;
pub mod program;
pub mod replay;
pub mod scope;
pub mod script;
pub mod state;
pub mod stored;
pub mod substitution;
pub mod term;
pub mod text;
pub mod vectors;
pub mod words;

pub use listing::list;
pub use loops::loops;
pub use moves::{run, step, Answer};
pub use print::print;
pub use replay::replay;
pub use script::{Script, Table};
pub use state::{load, State};
pub use text::read;
